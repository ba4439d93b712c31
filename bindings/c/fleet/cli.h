/* What fleet, fill and dead have in common: their options, and how they reach the server. */
#ifndef CLI_H
#define CLI_H

#include <nats/nats.h>
#include <stdarg.h>
#include <stdbool.h>
#include <stdint.h>
#include <stdio.h>
#include <stdlib.h>

enum { SECOND = 1000, MILLISECOND = 1000000 }; /* the first in milliseconds, the second in nanoseconds */

/* The headers of a dead letter have at most so many bytes, if `fill` or `dead` gave the job its id (tries.c). */
enum { MOST_HEADERS = 1024 };

/* An option has either a text or a number. The name of the last in a table is NULL. */
struct option {
    const char *name, *help, **text;
    uint64_t *number, least, most;
};

extern const char *program; /* its name, which begins each line on standard error */
extern const char *server, *stream;

/* Each prints one line on standard error. `quit` also exits with the status. */
#define LINE(text, words) __attribute__((format(printf, text, words)))
LINE(1, 2) void say(const char *format, ...);
LINE(2, 3) _Noreturn void quit(int status, const char *format, ...);
void say_list(const char *format, va_list words);

/* Reads a number. Returns whether the bytes are digits alone, and the number within these bounds. */
bool is_number(const char *text, size_t length, uint64_t least, uint64_t most, uint64_t *number);

/* Reads the options of these tables, and of the server. At a wrong one, --help or --version it exits. `use` is a line of
 * help, and the last table is NULL. */
void read_options(const char *use, const struct option *own[], int count, char **words);

/* Connects by these options, which it completes and destroys. JetStream has `patience` for its answers. Returns what the
 * server says of the stream, or NULL if there is no such stream. If there is no server or no JetStream, it exits. */
jsStreamInfo *reach_server(natsConnection **connection, jsCtx **jets, natsOptions *to, jsOptions *patience);

/* Makes a stream beside that of the jobs, on this subject, if there is none of its name. At a fault it exits. */
void make_stream(jsCtx *jets, jsStreamConfig *config, const jsStreamConfig *of_jobs, const char *subject);

/* Exits if the stream of jobs drops old ones to make room for new ones. */
void check_keeps(const jsStreamConfig *config);

/* Whether a stream with a limit of bytes has room for so many more, as far as is known. The server is asked only if nothing
 * is on its way (`may_ask`). To make room for a small message, server 2.9.10 drops an old one even if it is to refuse new
 * ones. So such a stream is not brought to its limit. */
bool has_room(jsCtx *jets, const jsStreamConfig *config, uint64_t size, bool may_ask);

/* Returns NATS's own words for the last failure of this thread, or else for the status. */
const char *why(natsStatus status);
#endif
