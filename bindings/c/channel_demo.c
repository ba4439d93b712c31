/* Workers that sleep: three threads wait for jobs, and send back what they found. A job is a pointer, which goes to one worker. */
#include "hazbultra_channel.h"

#include <pthread.h>
#include <stdio.h>
#include <stdlib.h>

enum { WORKERS = 3, JOBS = 20 };

struct job {
    unsigned number;
    unsigned primes; /* how many primes are below the number: the worker's answer */
};

struct worker {
    hz_receiver jobs;
    hz_sender answers;
};

static void check(uint32_t code, uint32_t wanted, const char *call) {
    if (code == wanted)
        return;
    fprintf(stderr, "%s: %s\n", call, hz_code_name(code));
    exit(1);
}

static unsigned primes_below(unsigned number) {
    unsigned count = 0;
    for (unsigned it = 2; it < number; it++) {
        unsigned divisor = 2;
        while (divisor * divisor <= it && it % divisor)
            divisor++;
        count += divisor * divisor > it;
    }
    return count;
}

static void *work(void *given) {
    struct worker *self = given;
    uint64_t value;
    uint32_t code;
    while ((code = hz_recv(&self->jobs, &value)) == HZ_TOOK) {
        struct job *job = (struct job *)(uintptr_t)value;
        HZ_AFTER_TAKE(job);
        job->primes = primes_below(job->number);
        HZ_BEFORE_PUT(job);
        check(hz_send(&self->answers, value), HZ_DONE, "hz_send");
    }
    check(code, HZ_CLOSED, "hz_recv");
    check(hz_receiver_free(&self->jobs), HZ_DONE, "hz_receiver_free");
    check(hz_sender_free(&self->answers), HZ_DONE, "hz_sender_free");
    return NULL;
}

int main(void) {
    static struct worker workers[WORKERS];
    static struct job jobs[JOBS];
    pthread_t threads[WORKERS];
    hz_sender sender = HZ_NO_SENDER;
    hz_receiver answers = HZ_NO_RECEIVER;
    check(hz_channel(&sender, &workers[0].jobs), HZ_DONE, "hz_channel");
    check(hz_channel(&workers[0].answers, &answers), HZ_DONE, "hz_channel");
    for (int i = 1; i < WORKERS; i++) {
        check(hz_receiver_clone(&workers[0].jobs, &workers[i].jobs), HZ_DONE, "hz_receiver_clone");
        check(hz_sender_clone(&workers[0].answers, &workers[i].answers), HZ_DONE, "hz_sender_clone");
    }
    for (int i = 0; i < WORKERS; i++)
        if (pthread_create(&threads[i], NULL, work, &workers[i]))
            return 1;

    for (unsigned i = 0; i < JOBS; i++) {
        jobs[i].number = 1000 * i;
        HZ_BEFORE_PUT(&jobs[i]);
        check(hz_send(&sender, (uintptr_t)&jobs[i]), HZ_DONE, "hz_send");
    }
    /* The workers end once all jobs are taken, and then nobody can answer any more. */
    check(hz_sender_free(&sender), HZ_DONE, "hz_sender_free");
    unsigned answered = 0, primes = 0;
    uint64_t value;
    while (hz_recv(&answers, &value) == HZ_TOOK) {
        struct job *job = (struct job *)(uintptr_t)value;
        HZ_AFTER_TAKE(job);
        answered++;
        primes += job->primes;
    }
    check(hz_receiver_free(&answers), HZ_DONE, "hz_receiver_free");
    for (int i = 0; i < WORKERS; i++)
        pthread_join(threads[i], NULL);
    printf("%u jobs answered, %u primes counted\n", answered, primes);
    return answered != JOBS || primes != 22926;
}
