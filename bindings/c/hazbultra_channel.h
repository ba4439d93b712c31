/* A channel for threads. Any number of senders and receivers share it. Values are numbers of 64 bits, which may be pointers. All
 * values are in one order, and at most one receiver takes each. Receivers sleep while nothing waits. A channel may have a bound.
 * Then senders sleep while it is full.
 *
 * Link libhazbultra_channel.a, heap.c and channel.c: gcc -pthread your.c heap.c channel.c libhazbultra_channel.a
 * The library that `make` builds has all three in it.
 *
 * WHAT IS PROVED. The archive decides: who takes which value, who has to be woken, and when a receiver may sleep. Its calls are
 * in the second part of this page. They never wait. docs/CONTRACTS.md says what is proved of them. channel.c sleeps and wakes by
 * them, and keeps the bound. It is only tested.
 *
 * WHAT A CALLER OWES. Nothing checks a C caller. What is proved holds only if the caller keeps these five rules:
 *
 *  1. Each hz_sender and hz_receiver begins as HZ_NO_SENDER or HZ_NO_RECEIVER. After that only calls of this library write it. It
 *     is not copied: after a copy, only one of the two may be used. It may be moved, as a struct is moved by memcpy, but not
 *     during a call.
 *  2. No pointer is null but a deadline, and each leads to an object of its type. Two pointers of one call lead to different objects.
 *  3. An end is in one call at a time. Between two calls it may go to another thread, if the first call happens before the
 *     second. Different ends of one channel may be in calls at the same time: that is what a channel is for.
 *  4. malloc, realloc and free are of one allocator, and malloc and realloc align as the C standard says.
 *  5. No call is made from a signal handler, or from the forked child of a process with threads. A child that was forked while
 *     no call was running may use the channels that it makes itself. No thread is cancelled (pthread_cancel) during a call.
 *
 * Each end that was made has to be freed, by hz_sender_free or hz_receiver_free. A channel is closed once its last sender is
 * freed, or by hz_close. If there is a bound, the last receiver closes it, too. Without a bound, senders do not learn that all
 * receivers are gone. Its memory is freed with its last end.
 *
 * A VALUE MAY BE A POINTER. Each access to a shared word is seq_cst. So what a thread wrote before it sent a value is seen by the
 * thread that receives it. ThreadSanitizer does not see these accesses: call HZ_BEFORE_PUT(p) before p is sent, and
 * HZ_AFTER_TAKE(p) after it was received.
 */
#ifndef HAZBULTRA_CHANNEL_H
#define HAZBULTRA_CHANNEL_H

#include "hazbultra.h"

#include <time.h>

#ifdef __cplusplus
extern "C" {
#endif

/* An end of a channel as the archive knows it: a sender or a receiver, or nothing. */
typedef struct {
    bool full; /* whether it leads to something */
    void *at;
} hz_end;

/* Who sleeps in a channel. All its ends share one. */
typedef struct hz_sleepers hz_sleepers;

typedef struct {
    hz_end end;
    hz_sleepers *sleepers;
    uint64_t bound; /* 0 if the channel has none */
} hz_sender;

typedef struct {
    hz_end end;
    hz_sleepers *sleepers;
    uint64_t bound;
} hz_receiver;

#ifdef __cplusplus
#define HZ_NO_SENDER (hz_sender())
#define HZ_NO_RECEIVER (hz_receiver())
#else
#define HZ_NO_SENDER ((hz_sender){ { false, NULL }, NULL, 0 })
#define HZ_NO_RECEIVER ((hz_receiver){ { false, NULL }, NULL, 0 })
#endif

/* Makes a channel with a sender and a receiver. HZ_DONE. HZ_BAD_HANDLE: one of the two leads to something already.
 * HZ_NO_MEMORY. After the last two nothing has changed. */
HZ_CHECKED HZ_NONNULL
uint32_t hz_channel(hz_sender *sender, hz_receiver *receiver);

/* The same with a bound: at most so many values wait. HZ_BAD_BOUND: it is 0, and a send that waits for its receiver is not offered.
 * There are as many permits as the bound says. A value has one of them from before it is sent until after it was received. */
HZ_CHECKED HZ_NONNULL
uint32_t hz_bounded_channel(hz_sender *sender, hz_receiver *receiver, uint64_t bound);

/* Makes another end of the same channel. HZ_DONE. HZ_BAD_HANDLE: the first leads to nothing, or the second to something already.
 * HZ_NO_MEMORY. HZ_CROWDED: so many ends were made that they cannot be counted. */
HZ_CHECKED HZ_NONNULL
uint32_t hz_sender_clone(hz_sender *sender, hz_sender *other);
HZ_CHECKED HZ_NONNULL
uint32_t hz_receiver_clone(hz_receiver *receiver, hz_receiver *other);

/* Sends a value. HZ_DONE: it was sent, and a receiver is woken if one sleeps. Else it was not sent. HZ_CLOSED: the channel is
 * closed, for ever. HZ_NO_MEMORY: there is none for the next values. HZ_CROWDED: so many ends are at one place that they cannot
 * be counted. HZ_BAD_HANDLE: the sender leads to nothing. hz_send waits while other ends are always first, or while one of them
 * adds memory. Then hz_try_send returns HZ_AGAIN.
 * If there is a bound, hz_send sleeps while all permits are out. hz_send_by sleeps until the deadline, which is as that of
 * hz_recv_by. It returns HZ_FULL if that came first: at a moment of the call all permits were out. hz_try_send does not sleep, and
 * returns HZ_FULL at once. */
HZ_CHECKED HZ_NONNULL
static inline uint32_t hz_send(hz_sender *sender, uint64_t value);
HZ_CHECKED
uint32_t hz_send_by(hz_sender *sender, uint64_t value, const struct timespec *deadline);
HZ_CHECKED HZ_NONNULL
uint32_t hz_try_send(hz_sender *sender, uint64_t value);

/* Receives the next value. HZ_TOOK: it was received, and *value is written. HZ_CLOSED: no value can come any more, for ever.
 * HZ_CROWDED. HZ_BAD_HANDLE.
 * hz_recv sleeps until there is a value. hz_recv_by sleeps until the deadline, which is a time of CLOCK_MONOTONIC, and returns
 * HZ_NOTHING if that came first: at a moment of the call nothing waited. Its deadline may be null: then it does what hz_recv
 * does. It goes on past the deadline while a value is being sent, while another end is first, or while there is no memory.
 * hz_try_recv does not sleep. It returns HZ_NOTHING if at a moment of the call nothing waited, and HZ_AGAIN if that is not known,
 * since a value is just being sent or received. */
HZ_CHECKED
uint32_t hz_recv_by(hz_receiver *receiver, uint64_t *value, const struct timespec *deadline);
HZ_CHECKED HZ_NONNULL
static inline uint32_t hz_recv(hz_receiver *receiver, uint64_t *value);
HZ_CHECKED HZ_NONNULL
static inline uint32_t hz_try_recv(hz_receiver *receiver, uint64_t *value);

/* How many values wait in the channel. HZ_DONE: *len is written. HZ_BAD_HANDLE. The call waits while others receive, or while one
 * of them adds memory. */
HZ_CHECKED HZ_NONNULL
uint32_t hz_sender_len(hz_sender *sender, uint64_t *len);
HZ_CHECKED HZ_NONNULL
uint32_t hz_receiver_len(hz_receiver *receiver, uint64_t *len);

/* Closes the channel, for ever: nothing can be sent any more, and all ends that sleep are woken. What waits can still be
 * received. HZ_DONE. HZ_BAD_HANDLE. */
HZ_NONNULL
uint32_t hz_close(hz_sender *sender);

/* Frees an end. The last sender closes the channel, and so does the last receiver if there is a bound. HZ_DONE: the end leads to
 * nothing then. HZ_BAD_HANDLE: it did before. */
HZ_NONNULL
uint32_t hz_sender_free(hz_sender *sender);
HZ_NONNULL
uint32_t hz_receiver_free(hz_receiver *receiver);

/* ---- THE PROVED CALLS, by which channel.c does all this. None of them waits, and each makes a few accesses.
 *
 * A receiver sleeps in a place, and is woken there. Each call tells what its caller has to do for those that sleep. */
typedef struct {
    uint64_t place;   /* where the threads sleep, or where the receiver is to sleep */
    uint32_t threads; /* how many threads to wake that sleep there: 0 or 1. It is 1 exactly once for each token given */
    uint32_t owes;    /* 1 if the end still owes something. Then call hz_channel_pay until it is 0 */
} hz_wake;

/* HZ_DONE: sender leads to a sender, and receiver to a receiver of the same channel, which did nothing yet. HZ_BAD_HANDLE: one of
 * the two led to something. HZ_NO_MEMORY. After the last two nothing has changed. */
HZ_CHECKED HZ_NONNULL
uint32_t hz_channel_new(hz_end *sender, hz_end *receiver);

/* HZ_DONE: other leads to a new end of the same kind and channel. HZ_AGAIN: the end owes something, sleeps, or goes. HZ_CROWDED.
 * HZ_NO_MEMORY. HZ_BAD_HANDLE: end leads to nothing, or other to something. Only HZ_DONE makes an end. What the end sent and
 * received stays. At the last two codes nothing has changed. */
HZ_CHECKED HZ_NONNULL
uint32_t hz_channel_another(hz_end *end, hz_end *other);

/* HZ_DONE: the value stands behind all that the sender sent before, and nothing else was sent. At each other code nothing was
 * sent. HZ_AGAIN: another sender was first, or the sender still owed something. HZ_CLOSED, and then for ever: the channel is
 * closed. HZ_NO_MEMORY. HZ_CROWDED. HZ_BAD_HANDLE: the handle leads to no sender, and stays as it was. */
HZ_CHECKED HZ_NONNULL
uint32_t hz_channel_send(hz_end *sender, uint64_t value, hz_wake *wake);

/* HZ_TOOK: the receiver took this one value more. At each other code it took none. HZ_SLEEPS: the receiver is in the list of those
 * that wait. If it was not before, nothing waited at a moment of this call. List the thread under this place, and call again. Let
 * it sleep only if the code is HZ_SLEEPS again. Once it is woken, call again. Until then the receiver can do nothing else but
 * hz_channel_pay and hz_channel_free, which end its sleep. HZ_AGAIN: a value is just being sent, another was first, there is no
 * memory, or the receiver still owed something. HZ_CLOSED, and then for ever: no value can come any more. HZ_CROWDED.
 * HZ_BAD_HANDLE: the handle leads to no receiver, and stays as it was. value is written at HZ_TOOK only.
 *
 * Suppose that somebody woke a thread, and its receiver does not go on sleeping. Then the token may still be in the list, beside
 * another receiver that sleeps. So the thread has to wake another one at its place. It need not if it was woken before a call that
 * returned HZ_TOOK, since that call took a token. */
HZ_CHECKED HZ_NONNULL
uint32_t hz_channel_receive(hz_end *receiver, uint64_t *value, hz_wake *wake);

/* The same, and it never goes to sleep. HZ_NOTHING: at a moment of this call nothing waited. HZ_AGAIN: that is not known, or the
 * receiver sleeps or owes something. */
HZ_CHECKED HZ_NONNULL
uint32_t hz_channel_try_receive(hz_end *receiver, uint64_t *value);

/* HZ_DONE: *len is how many values wait: in all parts of the channel, the number sent, less the number received. HZ_AGAIN: it is not
 * known now. Another end has the lock, others receive, or the end goes, or is a receiver that sleeps or owes something.
 * HZ_BAD_HANDLE: the handle leads to nothing. The end stays as it was, and len is written at HZ_DONE only. */
HZ_CHECKED HZ_NONNULL
uint32_t hz_channel_len(hz_end *end, uint64_t *len);

/* Pays what the end owes, a step at a time. A receiver that sleeps stops waiting. HZ_DONE: it owes nothing, and does not sleep.
 * HZ_AGAIN: it still owes something, and does not sleep. HZ_BAD_HANDLE: the handle leads to nothing, and stays as it was. */
HZ_NONNULL
uint32_t hz_channel_pay(hz_end *end, hz_wake *wake);

/* Closes the channel, a step at a time. HZ_DONE: it is closed, and each later send of this end is told so. HZ_AGAIN: call again.
 * HZ_BAD_HANDLE: the handle leads to no sender. */
HZ_CHECKED HZ_NONNULL
uint32_t hz_channel_close(hz_end *sender, hz_wake *wake);

/* Frees the end, a step at a time. HZ_DONE: it owed nothing, and the handle leads to nothing. The last sender has closed the
 * channel by then. HZ_AGAIN: it owes something, or has not yet gone. Call this again. Before that, only hz_channel_pay may be
 * called. HZ_BAD_HANDLE: the handle led to nothing. */
HZ_CHECKED HZ_NONNULL
uint32_t hz_channel_free(hz_end *end, hz_wake *wake);

/* Gives back the permit of a value that was received. If there is a bound, each receive above calls it, and nobody else has to. */
HZ_NONNULL
void hz_give_permit(hz_sleepers *sleepers);

static inline uint32_t hz_send(hz_sender *sender, uint64_t value) {
    uint32_t code = hz_try_send(sender, value);
    return code == HZ_AGAIN || code == HZ_FULL ? hz_send_by(sender, value, NULL) : code;
}

static inline uint32_t hz_try_recv(hz_receiver *receiver, uint64_t *value) {
    uint32_t code = hz_channel_try_receive(&receiver->end, value);
    if (code == HZ_TOOK && receiver->bound)
        hz_give_permit(receiver->sleepers);
    return code;
}

static inline uint32_t hz_recv(hz_receiver *receiver, uint64_t *value) {
    uint32_t code = hz_try_recv(receiver, value);
    return code == HZ_AGAIN || code == HZ_NOTHING ? hz_recv_by(receiver, value, NULL) : code;
}

#ifdef __cplusplus
}
#endif
#endif
