/* Two producers and three consumers, in threads. Each item is the address of a job, and each job is done once.
 *
 * A job is written to without a lock or an atomic: by its producer before the put, and later by the one consumer that took
 * it. If two consumers took one job, a build with -fsanitize=thread would report it.
 */
#include "hazbultra.h"

#include <pthread.h>
#include <stdio.h>
#include <stdlib.h>

enum { PRODUCERS = 2, CONSUMERS = 3, EACH = 100, JOBS = PRODUCERS * EACH };

/* A thread with its producer or consumer. */
struct worker {
    pthread_t thread;
    hz_handle handle;
    uint64_t number;
};

struct job {
    int number;
    int done; /* how often it was done */
};

static struct job jobs[JOBS];

static void expect(bool so, const char *what) {
    if (!so) {
        fprintf(stderr, "%s\n", what);
        exit(1);
    }
}

static void *produce(void *arg) {
    struct worker *self = arg;
    for (int number = (int)self->number; number < JOBS; number += PRODUCERS) {
        struct job *job = &jobs[number];
        *job = (struct job){.number = number, .done = 0};
        HZ_BEFORE_PUT(job);
        expect(hz_put(&self->handle, (uintptr_t)job) == HZ_LINKED, "there is a cell for each job");
    }
    expect(hz_finish(&self->handle) == HZ_DONE, "a lane ends once");
    return NULL;
}

/* One poll of a lane. Returns whether the lane has ended. */
static bool poll_lane(struct worker *self, uint64_t lane) {
    uint64_t item;
    struct job *job;
    switch (hz_poll(&self->handle, lane, UINT64_MAX, &item)) {
    case HZ_TOOK:
        job = (struct job *)(uintptr_t)item;
        HZ_AFTER_TAKE(job);
        job->done++;
        return false;
    case HZ_LOST:
    case HZ_NOTHING:
        return false;
    case HZ_ENDED:
        return true;
    default:
        expect(false, "no other answer comes");
        return true;
    }
}

static void *consume(void *arg) {
    struct worker *self = arg;
    bool ended[PRODUCERS] = {false};
    for (int open = PRODUCERS; open > 0;)
        for (int lane = 0; lane < PRODUCERS; lane++)
            if (!ended[lane] && poll_lane(self, (uint64_t)lane)) {
                ended[lane] = true;
                open--;
            }
    return NULL;
}

/* Does the jobs that nobody took, since nobody can take them any more. Returns how many these are. */
static uint64_t do_what_is_left(hz_handle *report) {
    uint64_t all = 0;
    for (uint64_t lane = 0; lane < PRODUCERS; lane++) {
        uint64_t items[JOBS], left;
        expect(hz_report_items(report, lane, true, 0, items, JOBS, &left) == HZ_DONE, "the lane is there");
        for (uint64_t i = 0; i < left; i++)
            ((struct job *)(uintptr_t)items[i])->done++;
        all += left;
    }
    return all;
}

int main(void) {
    /* (0 pairs and no fast objects, so each claim is one compare-exchange: the fastest setup) */
    hz_setup setup = {.producers = PRODUCERS, .consumers = CONSUMERS, .cells = JOBS, .last = true};
    hz_handle hub = HZ_NONE, report = HZ_NONE;
    expect(hz_mailbox_new(hz_next_id(), &setup, &hub) == HZ_DONE, "the mailbox is made");

    struct worker producers[PRODUCERS] = {0}, consumers[CONSUMERS] = {0};
    const uint8_t seed[32] = "any 32 bytes do";
    for (int c = 0; c < CONSUMERS; c++) {
        struct worker *one = &consumers[c];
        expect(hz_consumer_new(&hub, seed, &one->handle, &one->number) == HZ_DONE, "a consumer is issued");
        expect(pthread_create(&one->thread, NULL, consume, one) == 0, "a thread starts");
    }
    for (int p = 0; p < PRODUCERS; p++) {
        struct worker *one = &producers[p];
        expect(hz_producer_new(&hub, &one->handle, &one->number) == HZ_DONE, "a producer is issued");
        expect(pthread_create(&one->thread, NULL, produce, one) == 0, "a thread starts");
    }
    for (int p = 0; p < PRODUCERS; p++) {
        expect(pthread_join(producers[p].thread, NULL) == 0, "a thread ends");
        expect(hz_take_back(&hub, &producers[p].handle) == HZ_DONE, "a producer comes back");
    }
    for (int c = 0; c < CONSUMERS; c++) {
        expect(pthread_join(consumers[c].thread, NULL) == 0, "a thread ends");
        expect(hz_take_back(&hub, &consumers[c].handle) == HZ_DONE, "a consumer comes back");
    }

    hz_missing missing;
    expect(hz_gather(&hub, &report, &missing) == HZ_DONE, "the report is made");
    uint64_t left = do_what_is_left(&report);
    hz_free(&report);
    for (int number = 0; number < JOBS; number++)
        expect(jobs[number].number == number && jobs[number].done == 1, "each job is done once");
    printf("%d jobs, each done once; nobody took %d of them\n", JOBS, (int)left);
    return 0;
}
