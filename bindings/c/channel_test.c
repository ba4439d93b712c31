/* Tests the channel in threads: nothing is lost, nothing comes twice, and each receiver meets each sender's values in order. No more
 * values wait than the bound, and senders sleep for room.
 *
 *     channel_test            small numbers, for valgrind too
 *     channel_test MANY       so many values for each shape */
#ifndef _POSIX_C_SOURCE
#define _POSIX_C_SOURCE 200809L
#endif
#include "hazbultra_channel.h"

#include <pthread.h>
#include <stdatomic.h>
#include <stdio.h>
#include <stdlib.h>
#include <string.h>

#define EXPECT(so) ((so) ? (void)0 : fail(__LINE__, #so))

static void fail(int line, const char *what) {
    fprintf(stderr, "channel_test.c:%d: not so: %s\n", line, what);
    exit(1);
}

enum { MOST = 64 };

static hz_sender senders[MOST];
static hz_receiver receivers[MOST];
static uint64_t each, all;  /* how many values each sender sends, and all together */
static uint64_t bound;      /* 0: none */
static bool with_deadlines; /* whether ends sleep until deadlines of 20 us */
static _Atomic uint64_t came, late;
static _Atomic uint64_t sent, begun; /* sends that ended, and receives that took a value or have not ended */
static atomic_uchar *seen; /* how often each value came */

static struct timespec soon(void) {
    struct timespec at;
    clock_gettime(CLOCK_MONOTONIC, &at);
    at.tv_nsec += 20000;
    at.tv_sec += at.tv_nsec / 1000000000;
    at.tv_nsec %= 1000000000;
    return at;
}

static void send_one(hz_sender *self, uint64_t value) {
    uint32_t code = HZ_FULL;
    while (code == HZ_FULL) {
        struct timespec deadline = soon();
        code = with_deadlines ? hz_send_by(self, value, &deadline) : hz_send(self, value);
        EXPECT(code != HZ_FULL || (with_deadlines && bound));
        late += code == HZ_FULL;
    }
    EXPECT(code == HZ_DONE);
    uint64_t so_far = ++sent;
    EXPECT(!bound || so_far <= begun + bound);
}

static void *send_all(void *given) {
    uint64_t number = (uintptr_t)given, len;
    for (uint64_t i = 0; i < each; i++)
        send_one(&senders[number], number * each + i);
    EXPECT(hz_sender_len(&senders[number], &len) == HZ_DONE && len <= all);
    EXPECT(hz_sender_free(&senders[number]) == HZ_DONE);
    return NULL;
}

static void *receive_all(void *given) {
    hz_receiver *self = &receivers[(uintptr_t)given];
    uint64_t next[MOST] = {0}, value, len;
    for (;;) {
        struct timespec deadline = soon();
        begun++;
        uint32_t code = with_deadlines ? hz_recv_by(self, &value, &deadline) : hz_recv(self, &value);
        if (code == HZ_NOTHING && with_deadlines) {
            begun--;
            late++;
            continue;
        }
        if (code == HZ_CLOSED)
            break;
        EXPECT(code == HZ_TOOK);
        EXPECT(value % each >= next[value / each]);
        next[value / each] = value % each + 1;
        EXPECT(seen[value]++ == 0);
        uint64_t before = came++;
        if (before % 64 == 0)
            EXPECT(hz_receiver_len(self, &len) == HZ_DONE && before + len < all);
    }
    EXPECT(hz_receiver_free(self) == HZ_DONE);
    return NULL;
}

static void shape(unsigned sending, unsigned receiving, uint64_t many, uint64_t most, bool deadlines) {
    pthread_t threads[2 * MOST];
    each = many / sending;
    all = each * sending;
    bound = most;
    with_deadlines = deadlines;
    came = late = sent = begun = 0;
    seen = calloc(all, 1);
    EXPECT(seen);
    EXPECT((bound ? hz_bounded_channel(&senders[0], &receivers[0], bound) : hz_channel(&senders[0], &receivers[0])) == HZ_DONE);
    for (unsigned i = 1; i < sending; i++)
        EXPECT(hz_sender_clone(&senders[0], &senders[i]) == HZ_DONE);
    for (unsigned i = 1; i < receiving; i++)
        EXPECT(hz_receiver_clone(&receivers[0], &receivers[i]) == HZ_DONE);
    for (uintptr_t i = 0; i < receiving; i++)
        EXPECT(!pthread_create(&threads[i], NULL, receive_all, (void *)i));
    for (uintptr_t i = 0; i < sending; i++)
        EXPECT(!pthread_create(&threads[receiving + i], NULL, send_all, (void *)i));
    for (unsigned i = 0; i < sending + receiving; i++)
        EXPECT(!pthread_join(threads[i], NULL));
    EXPECT(came == all);
    free(seen);
    printf("%ux%u, bound %llu%s: %llu values, each once, in order\n", sending, receiving, (unsigned long long)bound,
           deadlines ? ", with deadlines" : "", (unsigned long long)came);
}

static atomic_bool was_late;

/* A receiver sleeps until a deadline, and until the channel is closed. */
static void *sleep_twice(void *given) {
    hz_receiver *self = given;
    uint64_t value;
    struct timespec deadline = soon();
    EXPECT(hz_recv_by(self, &value, &deadline) == HZ_NOTHING);
    EXPECT(hz_try_recv(self, &value) == HZ_NOTHING);
    was_late = true;
    EXPECT(hz_recv(self, &value) == HZ_CLOSED);
    EXPECT(hz_recv(self, &value) == HZ_CLOSED);
    return NULL;
}

static void closing_wakes(void) {
    hz_sender sender = HZ_NO_SENDER;
    hz_receiver receiver = HZ_NO_RECEIVER;
    uint64_t value;
    pthread_t thread;
    EXPECT(hz_channel(&sender, &receiver) == HZ_DONE);
    EXPECT(hz_channel(&sender, &receiver) == HZ_BAD_HANDLE);
    EXPECT(hz_try_send(&sender, 1) == HZ_DONE && hz_recv(&receiver, &value) == HZ_TOOK && value == 1);
    EXPECT(!pthread_create(&thread, NULL, sleep_twice, &receiver));
    struct timespec nap = {0, 20000000};
    do
        nanosleep(&nap, NULL);
    while (!was_late);
    EXPECT(hz_close(&sender) == HZ_DONE);
    EXPECT(!pthread_join(thread, NULL));
    EXPECT(hz_send(&sender, 2) == HZ_CLOSED);
    EXPECT(hz_sender_free(&sender) == HZ_DONE && hz_sender_free(&sender) == HZ_BAD_HANDLE);
    EXPECT(hz_receiver_free(&receiver) == HZ_DONE && hz_receiver_free(&receiver) == HZ_BAD_HANDLE);
    EXPECT(hz_send(&sender, 2) == HZ_BAD_HANDLE && hz_recv(&receiver, &value) == HZ_BAD_HANDLE);
    EXPECT(hz_close(&sender) == HZ_BAD_HANDLE);
}

/* Values wait in two segments of the channel, and both kinds of ends count them. */
static void ends_count(void) {
    hz_sender sender = HZ_NO_SENDER;
    hz_receiver receiver = HZ_NO_RECEIVER;
    uint64_t value, len = 7;
    EXPECT(hz_sender_len(&sender, &len) == HZ_BAD_HANDLE && hz_receiver_len(&receiver, &len) == HZ_BAD_HANDLE && len == 7);
    EXPECT(hz_channel(&sender, &receiver) == HZ_DONE);
    EXPECT(hz_receiver_len(&receiver, &len) == HZ_DONE && len == 0);
    for (uint64_t i = 0; i < 100; i++)
        EXPECT(hz_send(&sender, i) == HZ_DONE);
    for (uint64_t i = 0; i < 30; i++)
        EXPECT(hz_recv(&receiver, &value) == HZ_TOOK && value == i);
    EXPECT(hz_sender_len(&sender, &len) == HZ_DONE && len == 70);
    for (uint64_t i = 30; i < 100; i++) {
        EXPECT(hz_recv(&receiver, &value) == HZ_TOOK && value == i);
        EXPECT(hz_receiver_len(&receiver, &len) == HZ_DONE && len == 99 - i);
    }
    EXPECT(hz_sender_free(&sender) == HZ_DONE && hz_recv(&receiver, &value) == HZ_CLOSED);
    EXPECT(hz_receiver_len(&receiver, &len) == HZ_DONE && len == 0);
    EXPECT(hz_receiver_free(&receiver) == HZ_DONE);
}

static void a_bound_holds(void) {
    hz_sender sender = HZ_NO_SENDER, other = HZ_NO_SENDER;
    hz_receiver receiver = HZ_NO_RECEIVER;
    uint64_t value, len;
    struct timespec deadline = soon();
    EXPECT(hz_bounded_channel(&sender, &receiver, 0) == HZ_BAD_BOUND && hz_try_send(&sender, 1) == HZ_BAD_HANDLE);
    EXPECT(hz_bounded_channel(&sender, &receiver, 3) == HZ_DONE);
    EXPECT(hz_bounded_channel(&sender, &receiver, 3) == HZ_BAD_HANDLE);
    EXPECT(hz_sender_clone(&sender, &other) == HZ_DONE);
    EXPECT(hz_send(&sender, 1) == HZ_DONE && hz_try_send(&other, 2) == HZ_DONE && hz_send_by(&sender, 3, &deadline) == HZ_DONE);
    EXPECT(hz_try_send(&sender, 4) == HZ_FULL && hz_try_send(&other, 4) == HZ_FULL);
    EXPECT(hz_send_by(&sender, 4, &deadline) == HZ_FULL);
    deadline = soon();
    EXPECT(hz_send_by(&sender, 4, &deadline) == HZ_FULL && hz_sender_len(&sender, &len) == HZ_DONE && len == 3);
    /* Each kind of receive makes room for one value. */
    EXPECT(hz_recv(&receiver, &value) == HZ_TOOK && value == 1);
    EXPECT(hz_send(&sender, 4) == HZ_DONE && hz_try_send(&sender, 5) == HZ_FULL);
    EXPECT(hz_try_recv(&receiver, &value) == HZ_TOOK && value == 2);
    EXPECT(hz_send_by(&sender, 5, NULL) == HZ_DONE && hz_try_send(&sender, 6) == HZ_FULL);
    EXPECT(hz_recv_by(&receiver, &value, NULL) == HZ_TOOK && value == 3);
    EXPECT(hz_try_send(&sender, 6) == HZ_DONE && hz_try_send(&sender, 7) == HZ_FULL);
    EXPECT(hz_close(&sender) == HZ_DONE && hz_try_send(&sender, 7) == HZ_CLOSED);
    EXPECT(hz_send(&other, 7) == HZ_CLOSED && hz_send_by(&other, 7, &deadline) == HZ_CLOSED);
    for (uint64_t i = 4; i < 7; i++)
        EXPECT(hz_recv(&receiver, &value) == HZ_TOOK && value == i && hz_try_send(&other, 7) == HZ_CLOSED);
    EXPECT(hz_recv(&receiver, &value) == HZ_CLOSED);
    EXPECT(hz_sender_free(&sender) == HZ_DONE && hz_sender_free(&other) == HZ_DONE && hz_receiver_free(&receiver) == HZ_DONE);
    EXPECT(hz_try_send(&sender, 7) == HZ_BAD_HANDLE && hz_send_by(&sender, 7, &deadline) == HZ_BAD_HANDLE);
    EXPECT(hz_close(&sender) == HZ_BAD_HANDLE && hz_receiver_free(&receiver) == HZ_BAD_HANDLE);
}

/* Sends until the channel is full, and returns how often. */
static void *fill(void *given) {
    uint32_t code;
    uintptr_t many = 0;
    while ((code = hz_try_send(given, 1)) != HZ_FULL) {
        EXPECT(code == HZ_DONE || code == HZ_AGAIN);
        many += code == HZ_DONE;
    }
    return (void *)many;
}

/* Four senders at once find that the channel is full, neither too early nor too late. */
static void four_fill(uint64_t most) {
    hz_receiver receiver = HZ_NO_RECEIVER;
    pthread_t threads[4];
    uint64_t sum = 0, len;
    EXPECT(hz_bounded_channel(&senders[3], &receiver, most) == HZ_DONE);
    for (unsigned i = 0; i < 4; i++) {
        EXPECT(i == 3 || hz_sender_clone(&senders[3], &senders[i]) == HZ_DONE);
        EXPECT(!pthread_create(&threads[i], NULL, fill, &senders[i]));
    }
    for (unsigned i = 0; i < 4; i++) {
        void *many;
        EXPECT(!pthread_join(threads[i], &many));
        sum += (uintptr_t)many;
    }
    EXPECT(hz_receiver_len(&receiver, &len) == HZ_DONE && len == most && sum == most);
    for (unsigned i = 0; i < 4; i++)
        EXPECT(hz_sender_free(&senders[i]) == HZ_DONE);
    EXPECT(hz_receiver_free(&receiver) == HZ_DONE);
}

/* With a bound, the last receiver closes the channel. */
static void receivers_go(uint64_t most) {
    hz_sender sender = HZ_NO_SENDER;
    hz_receiver receiver = HZ_NO_RECEIVER, other = HZ_NO_RECEIVER;
    EXPECT((most ? hz_bounded_channel(&sender, &receiver, most) : hz_channel(&sender, &receiver)) == HZ_DONE);
    EXPECT(hz_receiver_clone(&receiver, &other) == HZ_DONE && hz_receiver_free(&receiver) == HZ_DONE);
    EXPECT(hz_send(&sender, 1) == HZ_DONE && hz_receiver_free(&other) == HZ_DONE);
    EXPECT(hz_send(&sender, 2) == (most ? HZ_CLOSED : HZ_DONE) && hz_try_send(&sender, 3) == (most ? HZ_CLOSED : HZ_DONE));
    EXPECT(hz_sender_free(&sender) == HZ_DONE);
}

/* Sends while the channel is full, and returns the code. */
static void *send_asleep(void *given) {
    struct timespec before, after;
    clock_gettime(CLOCK_THREAD_CPUTIME_ID, &before);
    uint32_t code = hz_send(given, 2);
    clock_gettime(CLOCK_THREAD_CPUTIME_ID, &after);
    EXPECT((after.tv_sec - before.tv_sec) * 1000000000 + after.tv_nsec - before.tv_nsec < 50000000);
    return (void *)(uintptr_t)code;
}

enum waking { RECEIVES, CLOSES, GOES };

/* Two senders sleep for 0.1 s, with little processor time, and are woken. */
static void senders_are_woken_by(enum waking how) {
    hz_receiver receiver = HZ_NO_RECEIVER;
    struct timespec nap = {0, 100000000};
    uint64_t value;
    pthread_t threads[2];
    EXPECT(hz_bounded_channel(&senders[2], &receiver, 1) == HZ_DONE && hz_send(&senders[2], 1) == HZ_DONE);
    for (unsigned i = 0; i < 2; i++) {
        EXPECT(hz_sender_clone(&senders[2], &senders[i]) == HZ_DONE);
        EXPECT(!pthread_create(&threads[i], NULL, send_asleep, &senders[i]));
    }
    nanosleep(&nap, NULL);
    if (how == RECEIVES)
        EXPECT(hz_recv(&receiver, &value) == HZ_TOOK && value == 1 && hz_recv(&receiver, &value) == HZ_TOOK && value == 2);
    else
        EXPECT((how == CLOSES ? hz_close(&senders[2]) : hz_receiver_free(&receiver)) == HZ_DONE);
    for (unsigned i = 0; i < 2; i++) {
        void *code;
        EXPECT(!pthread_join(threads[i], &code) && (uintptr_t)code == (how == RECEIVES ? HZ_DONE : HZ_CLOSED));
        EXPECT(hz_sender_free(&senders[i]) == HZ_DONE);
    }
    EXPECT(hz_sender_free(&senders[2]) == HZ_DONE);
    EXPECT(hz_receiver_free(&receiver) == (how == GOES ? HZ_BAD_HANDLE : HZ_DONE));
}

int main(int count, char **words) {
    uint64_t many = count > 1 ? strtoull(words[1], NULL, 10) : 3200;
    closing_wakes();
    ends_count();
    a_bound_holds();
    for (uint64_t i = 0; i < 50; i++)
        four_fill(3000 + i);
    receivers_go(0);
    receivers_go(UINT64_MAX);
    senders_are_woken_by(RECEIVES);
    senders_are_woken_by(CLOSES);
    senders_are_woken_by(GOES);
    shape(1, 1, many, 0, false);
    shape(1, 2, many, 0, false);
    shape(4, 4, many, 0, false);
    shape(4, 4, many, 0, true);
    shape(16, 64, many, 0, false);
    shape(4, 4, many, 1, false);
    shape(4, 4, many, 3, false);
    shape(4, 4, many, 3, true);
    return 0;
}
