/* Tries orders of the steps of channel.c, which is a part of this file: does a receiver ever sleep beside a value? Does a sender
 * ever sleep beside a permit, or after the last receiver was freed? Do more values wait than the bound? Does a sender that waits
 * lose its permit because another one was first?
 *
 *     channel_orders [MANY]   so many orders, drawn at random from a fixed seed, for each of five cases
 *
 * Three receivers and three senders run as contexts, and one of them goes on at each step. In place of the archive there is a model
 * of its list of sleepers, with the same atomic steps. */
#include <errno.h>
#include <pthread.h>
#include <sched.h>
#include <setjmp.h>
#include <stdatomic.h>
#include <stdbool.h>
#include <stdint.h>
#include <stdio.h>
#include <stdlib.h>
#include <string.h>
#include <ucontext.h>

static char sleepers[256]; /* what channel.c allocates */
static void step(void);
static int sleep_on(const void *cond, const void *deadline);
static void wake_up(const void *cond);

#define malloc(size) memset(sleepers, 0, size)
#define pthread_mutex_lock(lock) ((void)(lock), step())
#define pthread_mutex_unlock(lock) ((void)(lock))
#define pthread_cond_wait(cond, lock) ((void)(lock), sleep_on(cond, NULL))
#define pthread_cond_timedwait(cond, lock, deadline) ((void)(lock), sleep_on(cond, deadline))
#define pthread_cond_signal(cond) wake_up(cond)
#define sched_yield() ((void)0)
#undef atomic_load
#undef atomic_fetch_add
#undef atomic_fetch_sub
#undef atomic_fetch_or
#undef atomic_compare_exchange_weak
#define atomic_load(at) (step(), atomic_load_explicit(at, memory_order_seq_cst))
#define atomic_fetch_add(at, more) (step(), atomic_fetch_add_explicit(at, more, memory_order_seq_cst))
#define atomic_fetch_sub(at, less) (step(), atomic_fetch_sub_explicit(at, less, memory_order_seq_cst))
#define atomic_fetch_or(at, bits) (step(), atomic_fetch_or_explicit(at, bits, memory_order_seq_cst))
#define atomic_compare_exchange_weak(at, seen, next) (step(), atomic_compare_exchange_strong_explicit(at, seen, next, \
memory_order_seq_cst, memory_order_seq_cst))
#define volatile /* so that a compiler drops the pauses */
#include "channel.c"
#undef volatile

enum { ENDS = 6, RECEIVERS = 3, STACK = 4096 };
#define LISTED (UINT64_C(1) << 32)

enum status { READY, BLOCKED, DONE };
enum owed { NOTHING, TOKEN, LEAVE, ASLEEP }; /* what an end owes, or that it sleeps */

static struct {
    uint64_t values, sent; /* sent: how many sends were done */
    uint64_t list;         /* tokens in the low half, those that wait without one in the high half */
    struct {
        enum status status;
        enum owed owed;
        bool times_out, late;
        bool was_refused, was_second; /* a send found no memory, and another one was first */
        const void *cond;
    } ends[ENDS];
} now;
static jmp_buf places[ENDS], search;
static char stacks[ENDS][STACK] __attribute__((aligned(16)));
static unsigned self;
static bool with_deadline, leaves; /* leaves: the receivers are freed, and receive nothing */
static uint64_t bound;             /* 0: none */
static hz_sender senders[ENDS];
static hz_receiver receivers[ENDS];

/* ---- Contexts in place of threads. */
static void step(void) {
    if (self < ENDS && !_setjmp(places[self]))
        _longjmp(search, 1);
}

static void go_on(void) {
    if (!_setjmp(search))
        _longjmp(places[self], 1);
}

static int sleep_on(const void *cond, const void *deadline) {
    if (now.ends[self].was_second && with_deadline) {
        puts("a sender lost its permit");
        exit(1);
    }
    now.ends[self].status = BLOCKED;
    now.ends[self].cond = cond;
    now.ends[self].times_out = deadline;
    now.ends[self].late = false;
    step();
    return now.ends[self].late ? ETIMEDOUT : 0;
}

static void wake_up(const void *cond) {
    for (unsigned i = 0; i < ENDS; i++)
        if (now.ends[i].status == BLOCKED && now.ends[i].cond == cond)
            now.ends[i].status = READY;
}

static const struct timespec deadline;

static void send_one(hz_sender *sender) {
    uint32_t code = HZ_NO_MEMORY;
    while (code == HZ_NO_MEMORY || (with_deadline && code == HZ_FULL))
        code = !with_deadline ? hz_send(sender, 7) : hz_send_by(sender, 7, code == HZ_FULL ? NULL : &deadline);
    if (code != HZ_DONE && !(leaves && code == HZ_CLOSED))
        abort();
}

static void receive_one(hz_receiver *receiver) {
    uint64_t value;
    if (!with_deadline || hz_recv_by(receiver, &value, &deadline) != HZ_TOOK)
        if (hz_recv(receiver, &value) != HZ_TOOK)
            abort();
}

static void run(unsigned number) {
    step();
    if (number >= RECEIVERS) {
        send_one(&senders[number]);
        if (bound)
            send_one(&senders[number]);
    } else if (leaves) {
        hz_receiver_free(&receivers[number]);
    } else {
        receive_one(&receivers[number]);
        if (bound)
            receive_one(&receivers[number]);
    }
    now.ends[number].status = DONE;
    _longjmp(search, 1);
}

/* ---- A model of the archive's calls. Each step is one access. */
#define OWED now.ends[self].owed

static uint64_t load(void) {
    step();
    return now.list;
}

static bool exchange(uint64_t seen, uint64_t new) {
    step();
    if (now.list != seen)
        return false;
    now.list = new;
    return true;
}

static bool take_value(void) {
    step();
    return now.values && now.values--;
}

static void leave_list(void) {
    uint64_t seen = load();
    if (seen >= LISTED ? exchange(seen, seen - LISTED) : exchange(seen, seen - 1))
        OWED = seen >= LISTED ? NOTHING : TOKEN;
}

uint32_t hz_channel_pay(hz_end *end, hz_wake *wake) {
    (void)end;
    *wake = (hz_wake){0, 0, 0};
    if (OWED == TOKEN) {
        uint64_t seen = load();
        wake->threads = seen >= LISTED && exchange(seen, seen - LISTED + 1);
        if (seen < LISTED || wake->threads)
            OWED = NOTHING;
    } else if (OWED == LEAVE) {
        leave_list();
    } else if (OWED == ASLEEP) {
        OWED = LEAVE;
    }
    wake->owes = OWED != NOTHING;
    return wake->owes ? HZ_AGAIN : HZ_DONE;
}

uint32_t hz_channel_send(hz_end *end, uint64_t value, hz_wake *wake) {
    (void)value;
    *wake = (hz_wake){0, 0, 0};
    uint64_t seen = now.sent;
    step();
    if (!now.ends[self].was_refused) {
        now.ends[self].was_refused = true;
        return HZ_NO_MEMORY;
    }
    now.ends[self].was_second = now.sent != seen;
    if (now.ends[self].was_second)
        return HZ_AGAIN;
    now.sent++;
    if (now.values++ == bound && bound) {
        puts("more values wait than the bound");
        exit(1);
    }
    OWED = TOKEN;
    hz_channel_pay(end, wake);
    return HZ_DONE;
}

uint32_t hz_channel_try_receive(hz_end *end, uint64_t *value) {
    (void)end, (void)value;
    return HZ_NOTHING;
}

uint32_t hz_channel_len(hz_end *end, uint64_t *len) {
    (void)end, (void)len;
    return HZ_DONE;
}

static uint32_t look_first(void) {
    if (take_value())
        return HZ_TOOK;
    uint64_t seen = load();
    if (!exchange(seen, seen + LISTED))
        return HZ_AGAIN;
    if (!take_value()) {
        OWED = ASLEEP;
        return HZ_SLEEPS;
    }
    OWED = LEAVE;
    leave_list();
    return HZ_TOOK;
}

static uint32_t take_token(void) {
    uint64_t seen = load();
    if (!(uint32_t)seen)
        return HZ_SLEEPS;
    if (!exchange(seen, seen - 1)) {
        OWED = LEAVE;
        return HZ_AGAIN;
    }
    OWED = NOTHING;
    return take_value() ? HZ_TOOK : HZ_AGAIN;
}

uint32_t hz_channel_receive(hz_end *end, uint64_t *value, hz_wake *wake) {
    (void)value;
    *wake = (hz_wake){0, 0, 0};
    uint32_t code = OWED == NOTHING ? look_first() : OWED == ASLEEP ? take_token() : HZ_AGAIN;
    if (OWED == TOKEN || OWED == LEAVE)
        hz_channel_pay(end, wake);
    return code;
}

uint32_t hz_channel_new(hz_end *sender, hz_end *receiver) {
    (void)sender, (void)receiver;
    return HZ_DONE;
}

uint32_t hz_channel_another(hz_end *end, hz_end *other) {
    (void)end, (void)other;
    return HZ_DONE;
}

uint32_t hz_channel_close(hz_end *sender, hz_wake *wake) {
    return hz_channel_pay(sender, wake);
}

uint32_t hz_channel_free(hz_end *end, hz_wake *wake) {
    return hz_channel_pay(end, wake);
}

/* ---- The search. */
static void begin(void) {
    memset(&now, 0, sizeof now);
    self = ENDS;
    if ((bound ? hz_bounded_channel(&senders[3], &receivers[0], bound) : hz_channel(&senders[3], &receivers[0])) != HZ_DONE)
        abort();
    for (unsigned i = 1; i < RECEIVERS; i++)
        if (hz_receiver_clone(&receivers[0], &receivers[i]) != HZ_DONE || hz_sender_clone(&senders[3], &senders[3 + i]) != HZ_DONE)
            abort();
    for (self = 0; self < ENDS; self++) {
        ucontext_t first;
        getcontext(&first);
        first.uc_stack.ss_sp = stacks[self];
        first.uc_stack.ss_size = STACK;
        makecontext(&first, (void (*)(void))run, 1, self);
        if (!_setjmp(search))
            setcontext(&first);
    }
}

static bool may_go_on(unsigned end) {
    return now.ends[end].status == READY || (now.ends[end].status == BLOCKED && now.ends[end].times_out);
}

/* Makes the choice of this number. If it sleeps, its deadline comes. */
static void go(unsigned number) {
    for (self = 0; !may_go_on(self) || number--; self++) {}
    now.ends[self].late = now.ends[self].status == BLOCKED;
    now.ends[self].status = READY;
    go_on();
}

static unsigned choices_now(void) {
    unsigned many = 0, done = 0;
    for (unsigned i = 0; i < ENDS; i++) {
        many += may_go_on(i);
        done += now.ends[i].status == DONE;
    }
    if (!many && done < ENDS) {
        printf("an end sleeps for ever, and %llu values wait\n", (unsigned long long)now.values);
        exit(1);
    }
    return many;
}

static void try_orders(unsigned long orders, const char *how) {
    uint64_t word = 1;
    for (unsigned long i = 0; i < orders; i++) {
        begin();
        for (unsigned many; (many = choices_now()); go(word % many)) {
            word ^= word << 13;
            word ^= word >> 7;
            word ^= word << 17;
        }
    }
    printf("%lu orders%s: nobody slept for ever\n", orders, how);
}

int main(int count, char **words) {
    unsigned long orders = count > 1 ? strtoul(words[1], NULL, 10) : 100000;
    try_orders(orders, "");
    with_deadline = true;
    try_orders(orders, ", with deadlines");
    bound = 2;
    try_orders(orders, ", with a bound and deadlines");
    bound = 1;
    with_deadline = false;
    try_orders(orders, ", with a bound");
    leaves = true;
    try_orders(orders, ", with a bound and no receiver");
    return 0;
}
