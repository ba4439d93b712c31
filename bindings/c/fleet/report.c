/* What a process says of itself: a line from time to time and at the end, and a file for Prometheus' node exporter. */
#include "fleet.h"
#include <errno.h>
#include <string.h>

enum { VALUES = 13 };
static const struct {
    const char *name, *type, *help;
} values[VALUES] = {
    {"done", "counter", "Jobs that ran to their end."},
    {"failed", "counter", "Runs of jobs that failed."},
    {"bad", "counter", "Jobs that can never be done."},
    {"given back", "counter", "Jobs that were given back and not run."},
    {"dead", "counter", "Jobs that went to the stream of dead letters."},
    {"dropped", "counter", "Messages that came again while the process had them or had run them."},
    {"redelivered", "counter", "Messages that the server had handed out before."},
    {"waiting", "gauge", "Jobs that the process has and that do not run yet."},
    {"running", "gauge", "Jobs that run."},
    {"waiting in the stream", "gauge", "Jobs of the stream that the server never handed out."},
    {"connected", "gauge", "Whether the server is there."},
    {"mailboxes", "counter", "Mailboxes that were made."},
    {"unsettled", "gauge", "At the end: jobs of whose end the server was not told."},
};

static void read_values(uint64_t now[VALUES]) {
    for (int i = 0; i < OUTCOMES; i++)
        now[i] = counts.outcomes[i];
    pthread_mutex_lock(&lock);
    uint64_t running = shared.running, held = counts.held;
    pthread_mutex_unlock(&lock);
    uint64_t waiting = held > running ? held - running : 0;
    uint64_t rest[] = {counts.dropped, counts.redelivered, waiting, running, counts.pending, is_connected(),
                       counts.mailboxes, shared.is_stopping ? held + counts.lost : 0};
    memcpy(now + OUTCOMES, rest, sizeof rest);
}

/* Writes a value as Prometheus wants it: its name has no spaces, and that of a counter ends so. */
static bool write_value(FILE *out, int i, uint64_t now) {
    char name[64];
    snprintf(name, sizeof name, "hazbultra_fleet_%s%s", values[i].name, values[i].type[0] == 'c' ? "_total" : "");
    for (char *it = name; *it; it++)
        *it = *it == ' ' ? '_' : *it;
    fprintf(out, "# HELP %s %s\n# TYPE %s %s\n", name, values[i].help, name, values[i].type);
    return fprintf(out, "%s{stream=\"%s\",process=\"%d\"} %" PRIu64 "\n", name, stream, (int)getpid(), now) > 0;
}

/* Writes the file anew under another name, and renames it: who reads it finds a whole one. */
static void write_metrics(const uint64_t now[VALUES]) {
    char path[4096];
    snprintf(path, sizeof path, "%s.%d", metrics, (int)getpid());
    FILE *out = fopen(path, "w");
    bool is_well = out;
    for (int i = 0; i < VALUES && is_well; i++)
        is_well = write_value(out, i, now[i]);
    is_well = out && fclose(out) == 0 && is_well;
    if (!is_well || rename(path, metrics))
        say("%s: %s", metrics, strerror(errno));
}

/* Says all values in a line, and in the file. Two threads may call it: one waits, so that neither mixes with the other. */
void report(void) {
    static pthread_mutex_t turn = PTHREAD_MUTEX_INITIALIZER;
    uint64_t now[VALUES];
    pthread_mutex_lock(&turn);
    read_values(now);
    printf("process %d:", (int)getpid());
    for (int i = 0; i < VALUES; i++)
        printf("%s %s %" PRIu64, i ? "," : "", values[i].name, now[i]);
    printf("\n");
    fflush(stdout);
    if (metrics)
        write_metrics(now);
    pthread_mutex_unlock(&turn);
}
