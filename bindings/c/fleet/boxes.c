/* The mailboxes of a process: the main thread puts jobs into the newest, and workers take them. */
#include "fleet.h"
#include "../hazbultra.h"
#include <sched.h>

#ifdef QUEUE /* a queue and a lock in place of the mailboxes, to compare their speed */
static struct job *queue[MOST_BATCH];
static uint64_t first, last;

bool put(struct job *job) {
    pthread_mutex_lock(&lock);
    queue[last++ % MOST_BATCH] = job;
    pthread_mutex_unlock(&lock);
    return true;
}

struct job *get(uint64_t worker) {
    (void)worker;
    return first < last ? queue[first++ % MOST_BATCH] : NULL;
}

bool add_mailbox(void) {
    return true;
}

void end_mailboxes(bool all) {
    while (all && first < last)
        settle(get(0), LEFT, "");
}
#else
/* A mailbox in a list. If it is full, the next is linked to it before its lane is ended. So workers find the next one. */
struct mailbox {
    uint64_t number; /* greater than the numbers of those before it in the list */
    hz_handle hub, producer, consumers[MOST_WORKERS];
    uint64_t put, taken;
    uint64_t inside; /* how many workers poll it now */
    struct mailbox *next;
};

static struct mailbox *newest; /* for the main thread alone, as each field `put` is */

/* Returns whether the code is HZ_DONE. If it is not, the process fails. */
static bool is_done(uint32_t code, const char *call) {
    if (code != HZ_DONE)
        fail("%s returned the code %" PRIu32 "%s", call, code, code == HZ_NO_MEMORY ? " (no memory)" : "");
    return code == HZ_DONE;
}

/* Makes a mailbox, and links it to the newest, if there is one, which is full then. Returns whether all went well. */
bool add_mailbox(void) {
    static const uint8_t seed[32] = "any 32 bytes do";
    hz_setup setup = {.producers = 1, .consumers = workers, .cells = cells, .pairs = 4, .last = true};
    setup.table = workers > 4 ? HZ_MIDDLE : HZ_BITS;
    struct mailbox *box = malloc(sizeof *box);
    if (!box)
        return is_done(HZ_NO_MEMORY, "malloc");
    *box = (struct mailbox){.number = hz_next_id()}; /* (each handle is HZ_NONE) */
    uint64_t number;
    bool is_well = is_done(hz_mailbox_new(box->number, &setup, &box->hub), "hz_mailbox_new")
                   && is_done(hz_producer_new(&box->hub, &box->producer, &number), "hz_producer_new");
    for (uint64_t w = 0; w < workers && is_well; w++)
        is_well = is_done(hz_consumer_new(&box->hub, seed, &box->consumers[w], &number), "hz_consumer_new");
    if (!is_well)
        return false;
    pthread_mutex_lock(&lock);
    *(newest ? &newest->next : &shared.oldest) = box;
    is_well = !newest || is_done(hz_finish(&newest->producer), "hz_finish");
    newest = box;
    counts.mailboxes++;
    pthread_mutex_unlock(&lock);
    return is_well;
}

/* Puts a job, into a new mailbox if the newest is full. Returns whether it was put. */
bool put(struct job *job) {
    uint32_t code = hz_put(&newest->producer, (uintptr_t)job);
    if (code == HZ_FULL && add_mailbox())
        code = hz_put(&newest->producer, (uintptr_t)job);
    newest->put += code == HZ_LINKED;
    return code == HZ_LINKED || (code != HZ_FULL && is_done(code, "hz_put"));
}

/* Returns the next job for this worker, or NULL if there is none yet. The caller has the lock. A poll runs without it. */
struct job *get(uint64_t worker) {
    static _Thread_local uint64_t reached; /* this worker has met the ends of all mailboxes with smaller numbers */
    uint64_t item = 0;
    uint32_t code;
    do {
        struct mailbox *box = shared.oldest;
        while (box->number < reached)
            box = box->next;
        box->inside++;
        pthread_mutex_unlock(&lock);
        do
            code = hz_poll(&box->consumers[worker], 0, UINT64_MAX, &item);
        while (code == HZ_LOST);
        pthread_mutex_lock(&lock);
        box->inside--;
        box->taken += code == HZ_TOOK;
        reached = box->number + (code == HZ_ENDED);
    } while (code == HZ_ENDED);
    if (code != HZ_TOOK && code != HZ_NOTHING)
        is_done(code, "hz_poll");
    return code == HZ_TOOK ? (struct job *)(uintptr_t)item : NULL;
}

/* Ends a mailbox that no worker uses any more. Jobs left in it are given back: a poll, unlike a report, needs no memory.
 * Then the report has to agree with the counts. */
static void end_mailbox(struct mailbox *box) {
    uint64_t item = 0;
    uint32_t code;
    while ((code = hz_poll(&box->consumers[0], 0, UINT64_MAX, &item)) == HZ_TOOK || code == HZ_LOST)
        if (code == HZ_TOOK) {
            box->taken++;
            settle((struct job *)(uintptr_t)item, LEFT, "");
        }
    hz_handle report = HZ_NONE;
    hz_missing missing;
    hz_lane lane;
    is_done(hz_take_back(&box->hub, &box->producer), "hz_take_back");
    for (uint64_t w = 0; w < workers; w++)
        is_done(hz_take_back(&box->hub, &box->consumers[w]), "hz_take_back");
    if (is_done(hz_gather(&box->hub, &report, &missing), "hz_gather")
        && is_done(hz_report_lane(&report, 0, &lane), "hz_report_lane")
        && (lane.put != box->put || lane.left != 0 || box->taken != box->put || lane.ended != !!box->next))
        fail("a report has %" PRIu64 " put and %" PRIu64 " left: not what was counted", lane.put, lane.left);
    hz_free(&report);
    free(box);
}

/* Ends the oldest mailboxes, while each is full and has no job left. If `all` is set, it ends all: then no worker may begin
 * a poll any more. */
void end_mailboxes(bool all) {
    pthread_mutex_lock(&lock);
    struct mailbox *box = shared.oldest;
    while (box && (all || (box->next && box->inside == 0 && box->taken == box->put))) {
        while (box->inside > 0) { /* (until a poll ends, if `all` is set) */
            pthread_mutex_unlock(&lock);
            sched_yield();
            pthread_mutex_lock(&lock);
        }
        shared.oldest = box->next;
        pthread_mutex_unlock(&lock);
        end_mailbox(box);
        pthread_mutex_lock(&lock);
        box = shared.oldest;
    }
    pthread_mutex_unlock(&lock);
}
#endif
