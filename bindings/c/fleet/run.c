/* What a job does: PUT YOUR OWN HERE. In this sample a job is a number. Its effect is a row of a file: the number, the
 * process, the worker, the number of the delivery and the message's id. To try what happens then, `fail 7` is a job that
 * fails, and `abort 7` one that ends the process. */
#include "fleet.h"
#include <errno.h>
#include <fcntl.h>
#include <string.h>

static const char *effects = "effects";
static uint64_t rest = 0;
static int file;

const struct option options_of_run[] = {
    {"--effects", "to which file a job of the sample appends its row", &effects, NULL, 0, 0},
    {"--pause", "0 to 3600000 milliseconds, which a job of the sample takes besides", NULL, &rest, 0, 3600 * SECOND},
    {NULL, NULL, NULL, NULL, 0, 0},
};

/* Runs once, before any job. At a fault it exits. */
void prepare_run(void) {
    file = open(effects, O_WRONLY | O_CREAT | O_APPEND | O_CLOEXEC, 0666);
    if (file < 0)
        quit(1, "%s: %s", effects, strerror(errno));
}

/* Cuts a word off the front of a job. Returns whether it begins so. */
static bool cut(struct work *work, const char *word) {
    size_t length = strlen(word);
    bool is_so = work->length >= length && !memcmp(work->bytes, word, length);
    work->bytes += is_so ? length : 0;
    work->length -= is_so ? length : 0;
    return is_so;
}

/* Runs a job. Many threads call it at a time. The bytes may be any, and end with no NUL of their own. */
enum outcome run(struct work *work) {
    uint64_t number;
    bool is_failing = cut(work, "fail "), is_aborting = cut(work, "abort ");
    if (!is_number(work->bytes, work->length, 0, UINT64_MAX, &number)) {
        snprintf(work->why, MOST_WHY, "a job is no number");
        return BAD;
    }
    if (is_aborting) {
        flockfile(stderr); /* (for good: a second such job does not say that it ended this process) */
        say("job %" PRIu64 " aborts the process", number);
        abort();
    }
    if (rest > 0)
        nats_Sleep((int64_t)rest);
    /* One call writes the row, so that no two rows mix. */
    if (!is_failing
        && dprintf(file, "%" PRIu64 " %d %" PRIu64 " %" PRIu64 " %s\n", number, (int)getpid(), work->worker, work->delivery,
                   work->id) > 0)
        return DONE;
    snprintf(work->why, MOST_WHY, "job %" PRIu64 " failed: %s", number, is_failing ? "as it says" : strerror(errno));
    return FAILED;
}
