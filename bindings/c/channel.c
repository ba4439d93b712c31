/* The sleep of the channel's ends and its bound, made of the proved calls and of POSIX threads. Link this file, or functions of
 * your own with the same names: all are weak.
 * A receiver that is to sleep stands in a list with its place, and then looks once more. So it meets a token that was given
 * before, and a wake that finds nobody at its place in the list may be forgotten. A token can be taken by any receiver that sleeps
 * at its place. So one that is woken, and goes without a token, wakes another.
 * If there is a bound, a sender takes a permit before it sends, and a receive gives it back. Senders sleep for permits alike. */
#undef _POSIX_C_SOURCE
#define _POSIX_C_SOURCE 200809L
#include "hazbultra_channel.h"
#include <pthread.h>
#include <sched.h>
#include <stdatomic.h>
#include <stdlib.h>

#define WEAK __attribute__((weak))
enum { LOOKS = 9, SPINS = 5 }; /* looks before a sleep, and how many of the pauses between them spin */
#define FOR_PERMITS UINT64_MAX /* the place of senders that sleep */

struct sleeper {
    struct sleeper *next;
    uint64_t place;
    bool listed;
    pthread_cond_t woken;
};

struct hz_sleepers {
    _Atomic size_t owners, receivers, waiting; /* owners: each sender, and all receivers as one; waiting: senders */
    _Atomic int64_t permits;                   /* how many are out. Below 0 nothing can be sent any more */
    pthread_mutex_t lock;
    struct sleeper *first;
};

/* A spin that grows, or a yield. After another end was first it spins for some microseconds at once. That end then works alone,
 * which is worth more than the time: two that try all the time take the lines of memory from each other. */
__attribute__((noinline)) static void pause_after(unsigned tries, uint32_t code) {
    if (tries >= SPINS) {
        sched_yield();
        return;
    }
    unsigned spins = code == HZ_AGAIN ? 4096u << (tries < 2 ? tries : 2) : 256u << tries;
    for (volatile unsigned i = 0; i < spins; i++) {}
}

/* Takes this sleeper out of the list, or else the first at this place, and wakes it. False if there was none. */
static bool take_out(hz_sleepers *all, const struct sleeper *self, uint64_t place) {
    pthread_mutex_lock(&all->lock);
    struct sleeper **at = &all->first;
    while (*at && (self ? *at != self : (*at)->place != place))
        at = &(*at)->next;
    struct sleeper *found = *at;
    if (found) {
        *at = found->next;
        found->listed = false;
        pthread_cond_signal(&found->woken);
    }
    pthread_mutex_unlock(&all->lock);
    return found;
}

/* An end leaves the list. If it was taken out, for a token or permit that it may not have got, another one has to be woken. */
static void leave(hz_sleepers *all, const struct sleeper *self, bool has_token) {
    if (!take_out(all, self, 0) && !has_token)
        take_out(all, NULL, self->place);
}

/* The permit is there before this looks whether a sender waits. A sender counts as waiting before it looks for a permit. */
WEAK void hz_give_permit(hz_sleepers *all) {
    atomic_fetch_sub(&all->permits, 1);
    if (atomic_load(&all->waiting))
        take_out(all, NULL, FOR_PERMITS);
}

/* Receivers stand at the front, and senders at the back: the first is woken first. */
static void enlist(hz_sleepers *all, struct sleeper *self, uint64_t place) {
    pthread_mutex_lock(&all->lock);
    struct sleeper **at = &all->first;
    while (*at && place == FOR_PERMITS)
        at = &(*at)->next;
    self->next = *at;
    self->place = place;
    self->listed = true;
    *at = self;
    pthread_mutex_unlock(&all->lock);
}

/* Sleeps until somebody takes it out of the list. False if the deadline came first. */
static bool sleep_by(hz_sleepers *all, struct sleeper *self, const struct timespec *deadline) {
    int late = 0;
    pthread_mutex_lock(&all->lock);
    while (self->listed && !late)
        late = deadline ? pthread_cond_timedwait(&self->woken, &all->lock, deadline) : pthread_cond_wait(&self->woken, &all->lock);
    bool woken = !self->listed;
    pthread_mutex_unlock(&all->lock);
    return woken;
}

/* Wakes whom the call told to wake, and pays what the end still owes. */
__attribute__((cold, noinline)) static void settle(hz_end *end, hz_sleepers *all, hz_wake *told) {
    for (;; hz_channel_pay(end, told)) {
        if (told->threads)
            take_out(all, NULL, told->place);
        if (!told->owes)
            return;
    }
}

/* Makes a call until it is done. */
static uint32_t finish(uint32_t (*call)(hz_end *, hz_wake *), hz_end *end, hz_sleepers *all) {
    for (unsigned tries = 0;; pause_after(tries++, HZ_AGAIN)) {
        hz_wake told;
        uint32_t code = call(end, &told);
        settle(end, all, &told);
        if (code != HZ_AGAIN)
            return code;
    }
}

static uint32_t receive(hz_receiver *from, struct sleeper *self, uint64_t *value, const struct timespec *deadline) {
    bool was_listed = false, is_new = false; /* is_new: it came into the list, and has not slept there */
    for (unsigned tries = 0;;) {
        hz_wake told = {0, 0, 0};
        uint32_t code = hz_channel_receive(&from->end, value, &told);
        if (was_listed && code != HZ_SLEEPS)
            leave(from->sleepers, self, code == HZ_TOOK && !is_new);
        was_listed = code == HZ_SLEEPS;
        if (code == HZ_SLEEPS && !is_new) {
            enlist(from->sleepers, self, told.place);
        } else if (code == HZ_SLEEPS && !sleep_by(from->sleepers, self, deadline)) {
            finish(hz_channel_pay, &from->end, from->sleepers);
            leave(from->sleepers, self, false);
            return HZ_NOTHING;
        }
        is_new = was_listed && !is_new;
        settle(&from->end, from->sleepers, &told);
        if (code == HZ_AGAIN)
            pause_after(tries++, code);
        else if (code != HZ_SLEEPS)
            return code;
    }
}

static void init(struct sleeper *self) {
    pthread_condattr_t monotonic;
    pthread_condattr_init(&monotonic);
    pthread_condattr_setclock(&monotonic, CLOCK_MONOTONIC);
    pthread_cond_init(&self->woken, &monotonic);
    pthread_condattr_destroy(&monotonic);
}

WEAK uint32_t hz_recv_by(hz_receiver *from, uint64_t *value, const struct timespec *deadline) {
    uint32_t code;
    for (unsigned tries = 0; tries < LOOKS; pause_after(tries++, code))
        if ((code = hz_try_recv(from, value)) != HZ_NOTHING && code != HZ_AGAIN)
            return code;
    struct sleeper self;
    init(&self);
    code = receive(from, &self, value, deadline);
    pthread_cond_destroy(&self.woken);
    if (code == HZ_TOOK && from->bound)
        hz_give_permit(from->sleepers);
    return code;
}

/* HZ_DONE: it has a permit. HZ_FULL. HZ_CLOSED. */
static uint32_t take_permit(hz_sender *sender) {
    int64_t out = atomic_load(&sender->sleepers->permits);
    while (out >= 0 && (uint64_t)out < sender->bound)
        if (atomic_compare_exchange_weak(&sender->sleepers->permits, &out, out + 1))
            return HZ_DONE;
    return out < 0 ? HZ_CLOSED : HZ_FULL;
}

/* One that waits keeps its permit while other ends are first: else one that is behind could lose it each time. */
static inline uint32_t send_once(hz_sender *sender, uint64_t value, bool waits) {
    uint32_t code = sender->bound ? take_permit(sender) : HZ_DONE;
    if (code != HZ_DONE)
        return code;
    hz_wake told;
    for (unsigned tries = 0; (code = hz_channel_send(&sender->end, value, &told)) == HZ_AGAIN && waits; pause_after(tries++, code))
        settle(&sender->end, sender->sleepers, &told);
    if (told.threads || told.owes)
        settle(&sender->end, sender->sleepers, &told);
    if (code != HZ_DONE && sender->bound)
        hz_give_permit(sender->sleepers);
    return code;
}

WEAK uint32_t hz_try_send(hz_sender *sender, uint64_t value) {
    return send_once(sender, value, false);
}

WEAK uint32_t hz_send_by(hz_sender *sender, uint64_t value, const struct timespec *deadline) {
    uint32_t code;
    for (unsigned tries = 0; (code = send_once(sender, value, true)) == HZ_FULL && tries < LOOKS; pause_after(tries++, code)) {}
    if (code != HZ_FULL)
        return code;
    hz_sleepers *all = sender->sleepers;
    struct sleeper self;
    init(&self);
    atomic_fetch_add(&all->waiting, 1);
    do {
        enlist(all, &self, FOR_PERMITS);
    } while ((code = send_once(sender, value, true)) == HZ_FULL && sleep_by(all, &self, deadline));
    leave(all, &self, false);
    atomic_fetch_sub(&all->waiting, 1);
    pthread_cond_destroy(&self.woken);
    return code;
}

static uint32_t channel(hz_sender *sender, hz_receiver *receiver, uint64_t bound) {
    hz_sleepers *all = malloc(sizeof *all);
    uint32_t code = all ? hz_channel_new(&sender->end, &receiver->end) : HZ_NO_MEMORY;
    if (code == HZ_DONE) {
        *all = (hz_sleepers){.owners = 2, .receivers = 1, .lock = PTHREAD_MUTEX_INITIALIZER};
        *sender = (hz_sender){sender->end, all, bound};
        *receiver = (hz_receiver){receiver->end, all, bound};
    } else
        free(all);
    return code;
}

WEAK uint32_t hz_channel(hz_sender *sender, hz_receiver *receiver) {
    return channel(sender, receiver, 0);
}

WEAK uint32_t hz_bounded_channel(hz_sender *sender, hz_receiver *receiver, uint64_t bound) {
    return bound ? channel(sender, receiver, bound) : HZ_BAD_BOUND;
}

WEAK uint32_t hz_sender_clone(hz_sender *sender, hz_sender *other) {
    uint32_t code = hz_channel_another(&sender->end, &other->end);
    if (code == HZ_DONE) {
        *other = (hz_sender){other->end, sender->sleepers, sender->bound};
        atomic_fetch_add(&other->sleepers->owners, 1);
    }
    return code;
}

WEAK uint32_t hz_receiver_clone(hz_receiver *receiver, hz_receiver *other) {
    uint32_t code = hz_channel_another(&receiver->end, &other->end);
    if (code == HZ_DONE) {
        *other = (hz_receiver){other->end, receiver->sleepers, receiver->bound};
        atomic_fetch_add(&other->sleepers->receivers, 1);
    }
    return code;
}

static uint32_t count(hz_end *end, uint64_t *len) {
    uint32_t code;
    for (unsigned tries = 0; (code = hz_channel_len(end, len)) == HZ_AGAIN; pause_after(tries++, code)) {}
    return code;
}

WEAK uint32_t hz_sender_len(hz_sender *sender, uint64_t *len) {
    return count(&sender->end, len);
}

WEAK uint32_t hz_receiver_len(hz_receiver *receiver, uint64_t *len) {
    return count(&receiver->end, len);
}

static void shut(hz_sleepers *all) {
    atomic_fetch_or(&all->permits, INT64_MIN);
    while (take_out(all, NULL, FOR_PERMITS)) {}
}

WEAK uint32_t hz_close(hz_sender *sender) {
    if (sender->bound)
        shut(sender->sleepers);
    return finish(hz_channel_close, &sender->end, sender->sleepers);
}

static uint32_t free_end(hz_end *end, hz_sleepers *all, bool receives) {
    uint32_t code = finish(hz_channel_free, end, all);
    if (code != HZ_DONE || (receives && atomic_fetch_sub(&all->receivers, 1) > 1))
        return code;
    if (receives)
        shut(all);
    if (atomic_fetch_sub(&all->owners, 1) == 1) {
        pthread_mutex_destroy(&all->lock);
        free(all);
    }
    return code;
}

WEAK uint32_t hz_sender_free(hz_sender *sender) {
    sender->bound = 0; /* (so no later call uses the sleepers) */
    return free_end(&sender->end, sender->sleepers, false);
}

WEAK uint32_t hz_receiver_free(hz_receiver *receiver) {
    return free_end(&receiver->end, receiver->sleepers, true);
}
