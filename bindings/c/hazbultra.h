/* A mailbox for threads. Each producer puts items, which are numbers, into a lane of its own. All consumers compete for each
 * item, and at most one of them takes it. A report at the end says who took what. The library takes no lock, and no call
 * waits for anything but the allocator.
 *
 * Link libhazbultra.a and heap.c, which has its allocation functions: gcc -pthread your.c heap.c libhazbultra.a
 * The library that `make install` installs has heap.c in it. Both are for Linux with glibc or musl, on x86-64 of level
 * x86-64-v2 or on little-endian 64-bit ARM. A C++ program may take hazbultra.hpp.
 *
 * WHAT A CALLER OWES. Nothing checks a C caller. What is proved holds only if the caller keeps these six rules:
 *
 *  1. Each hz_handle begins as HZ_NONE. After that only calls of this library write it. It is not copied: after a copy,
 *     only one of the two may be used. It may be moved, as a struct is moved by memcpy.
 *  2. No pointer is null: not that of hz_free, and not items or notes if room is 0. Each leads to an object of its type,
 *     or to as many objects as the length beside it says. A handle, a setup and a seed are initialised. What a call is to
 *     write need not be initialised: no call reads what a pointer lane, number, value, missing, lanes, consumers, out,
 *     items, notes or copied leads to. A bool is 0 or 1. Two pointers of one call lead to different objects.
 *  3. A handle is in one call at a time. Between two calls it may go to another thread, if the first call happens before
 *     the second: a lock, the start or the join of a thread, an atomic, or something else has to order them. Different
 *     handles of one mailbox may be in calls at the same time: that is what a mailbox is for.
 *  4. Each mailbox has a number (id) that no other mailbox of the process was given, also none of another copy of this
 *     library: take the number that hz_next_id returns. The library does not notice equal numbers. With them a hub takes
 *     back producers and consumers of the other mailbox, and its report may be wrong.
 *  5. malloc, realloc and free are of one allocator, and malloc and realloc align as the C standard says.
 *  6. No call is made from a signal handler, or from the forked child of a process with threads.
 *
 * AN ITEM MAY BE A POINTER. Each access to a shared word is seq_cst. So what a thread wrote before it put an item is seen
 * by the thread whose call returns HZ_TOOK. ThreadSanitizer does not see these accesses, and reports races that are none. So
 * call HZ_BEFORE_PUT(p) before p is put, and HZ_AFTER_TAKE(p) after it was taken, as demo.c does. Two puts of one number
 * are two items, and each may be taken.
 *
 * WHAT A CALL CHECKS ITSELF. It returns HZ_BAD_HANDLE if a handle leads to nothing (HZ_NONE), or to another kind of thing
 * than the call wants, or leads to something though the call is to fill it. HZ_NO_MEMORY: there is not enough memory. A call
 * that returns HZ_CLOSED or a greater code has changed nothing, unless a line below says otherwise. No call loses what a
 * handle leads to, even if memory is refused.
 *
 * STACK. hz_mailbox_new takes up to 24 kB of stack, and no other call takes more than 8 kB. A backtrace ends at the library's
 * functions: they have no unwind tables, and keep no frame pointer.
 */
#ifndef HAZBULTRA_H
#define HAZBULTRA_H

/* The name of the target whose archive is for this machine. */
#if defined(__linux__) && defined(__x86_64__) && defined(__LP64__)
#define HZ_TARGET "x86_64-unknown-linux-gnu"
#elif defined(__linux__) && defined(__AARCH64EL__) && defined(__LP64__)
#define HZ_TARGET "aarch64-unknown-linux-gnu"
#else
#error "hazbultra has proved archives for x86_64-unknown-linux-gnu and aarch64-unknown-linux-gnu, and none for this machine"
#endif

#include <stdbool.h>
#include <stddef.h>
#include <stdint.h>

#define HZ_VERSION_MAJOR 0
#define HZ_VERSION_MINOR 1
#define HZ_VERSION_PATCH 0

/* HZ_CHECKED: the compiler warns if the code is ignored. HZ_NONNULL: it warns of a null pointer, which rule 2 forbids. */
#if defined(__GNUC__)
#define HZ_CHECKED __attribute__((warn_unused_result))
#define HZ_NONNULL __attribute__((nonnull))
#else
#define HZ_CHECKED
#define HZ_NONNULL
#endif

#if defined(__SANITIZE_THREAD__)
#define HZ_THREAD_SANITIZER
#elif defined(__has_feature)
#if __has_feature(thread_sanitizer)
#define HZ_THREAD_SANITIZER
#endif
#endif

#ifdef __cplusplus
extern "C" {
#endif

/* A handle leads to a hub, a producer, a consumer or a report, or to nothing. */
typedef struct {
    bool full; /* whether it leads to something */
    void *at;
} hz_handle;

/* A handle that leads to nothing. Write `hz_handle hub = HZ_NONE;`. A static handle, which needs a constant in C, takes no
 * initial value: a handle of zeros leads to nothing too. */
#ifdef __cplusplus
#define HZ_NONE (hz_handle())
#else
#define HZ_NONE ((hz_handle){ false, NULL })
#endif

/* The codes that calls return. A code has the same meaning in all calls. The lines above each call say when it comes. */
typedef enum {
    HZ_DONE = 0, /* the call did what it is for */

    /* returned by hz_poll, and all but HZ_LOST by hz_take too; the first three are also the kinds of a note */
    HZ_TOOK = 1,
    HZ_LOST = 2,
    HZ_UNDECIDED = 3,
    HZ_NOTHING = 4,
    HZ_ENDED = 5,
    HZ_SPENT = 6,
    HZ_NO_LANE = 7,

    /* returned by hz_put, and the last by hz_finish too */
    HZ_LINKED = 8,
    HZ_FULL = 9,
    HZ_CLOSED = 10,

    /* returned by calls of a channel (hazbultra_channel.h) */
    HZ_AGAIN = 12,
    HZ_SLEEPS = 13,

    /* why a call was refused */
    HZ_NO_MEMORY = 16,
    HZ_BAD_HANDLE = 17,
    HZ_ALL_GIVEN = 18,
    HZ_MISSING = 19,
    HZ_OTHER_MAILBOX = 20,
    HZ_NOT_THERE = 21,
    HZ_CROWDED = 22,
    HZ_BAD_BOUND = 23, /* the bound of a channel is 0 */

    /* why hz_mailbox_new refused a setup: the first of these that holds */
    HZ_BAD_TABLE = 32,     /* table is no hz_table */
    HZ_BAD_PRODUCERS = 33, /* producers is not 1 to 16 */
    HZ_BAD_CONSUMERS = 34, /* consumers is not 1 to 64 */
    HZ_BAD_CELLS = 35,     /* cells is above 2^24 */
    HZ_BAD_PAIRS = 36      /* pairs is above 8, or it is 0 while last is false or fast is true */
} hz_code;

/* Returns the name of a code, as "HZ_BAD_PAIRS" of 36, or "no hz_code". */
static inline const char *hz_code_name(uint32_t code) {
#define HZ_NAME(it) case it: return #it;
    switch (code) {
        HZ_NAME(HZ_DONE) HZ_NAME(HZ_TOOK) HZ_NAME(HZ_LOST) HZ_NAME(HZ_UNDECIDED) HZ_NAME(HZ_NOTHING) HZ_NAME(HZ_ENDED)
        HZ_NAME(HZ_SPENT) HZ_NAME(HZ_NO_LANE) HZ_NAME(HZ_LINKED) HZ_NAME(HZ_FULL) HZ_NAME(HZ_CLOSED)
        HZ_NAME(HZ_AGAIN) HZ_NAME(HZ_SLEEPS) HZ_NAME(HZ_CROWDED) HZ_NAME(HZ_BAD_BOUND)
        HZ_NAME(HZ_NO_MEMORY) HZ_NAME(HZ_BAD_HANDLE) HZ_NAME(HZ_ALL_GIVEN) HZ_NAME(HZ_MISSING)
        HZ_NAME(HZ_OTHER_MAILBOX) HZ_NAME(HZ_NOT_THERE) HZ_NAME(HZ_BAD_TABLE) HZ_NAME(HZ_BAD_PRODUCERS)
        HZ_NAME(HZ_BAD_CONSUMERS) HZ_NAME(HZ_BAD_CELLS) HZ_NAME(HZ_BAD_PAIRS)
    default:
        return "no hz_code";
    }
#undef HZ_NAME
}

/* The quorum table of the ratifiers in each cell. Take HZ_MIDDLE for more than four consumers, else HZ_BITS. */
typedef enum {
    HZ_UNARY = 0, /* a ratifier has one register for each consumer */
    HZ_BITS = 1,  /* two registers for each bit of a consumer's number */
    HZ_MIDDLE = 2 /* the fewest registers that can do */
} hz_table;

/* How large a mailbox is, and by what objects consumers compete in each cell. The fastest setup has 0 pairs, last true and
 * fast false: each claim on an item is one compare-exchange then, and table may be any of the three. Else take 4 pairs and
 * last true, if nothing speaks against it. Set fast too if mostly one consumer comes to an item.
 * docs/GUIDE.md says which setup does what, and how much memory it takes. */
typedef struct {
    uint64_t producers; /* 1 to 16. Each has a lane of its own, and lanes have numbers from 0 on */
    uint64_t consumers; /* 1 to 64 */
    uint64_t cells;     /* 0 to 2^24. Each takes one item, so all lanes together take as many items */
    uint64_t pairs;     /* pairs of a conciliator and a ratifier in each cell: 1 to 8, or 0 with last true and fast false */
    uint32_t table;     /* an hz_table */
    bool fast;          /* whether two ratifiers come before the pairs: fewer accesses if one consumer comes alone */
    bool last;          /* whether an object that always decides comes after the pairs: no poll is HZ_UNDECIDED then */
} hz_setup;

/* What a report says of one lane. */
typedef struct {
    uint64_t put;  /* how many items were put */
    uint64_t left; /* how many of them nobody took */
    bool ended;    /* whether its producer ended it by hz_finish */
} hz_lane;

/* What a report says of one consumer on one lane. */
typedef struct {
    uint64_t notes; /* how many notes there are: note j is on item j of the lane, both counted from 0 */
    bool begun;     /* whether it made an access of a claim on the next item, on which it has no note */
} hz_diary;

/* A note: how a consumer's claim on an item ended. */
typedef struct {
    uint64_t value; /* HZ_TOOK: the item. HZ_LOST: the number of the one consumer that may have won it. HZ_UNDECIDED: 0 */
    uint32_t kind;  /* HZ_TOOK, HZ_LOST or HZ_UNDECIDED */
} hz_note;

/* How many producers and consumers a hub issued and did not take back. */
typedef struct {
    uint32_t producers;
    uint32_t consumers;
} hz_missing;

/* Returns a number that no other mailbox of the process has. heap.c defines it and counts from 2^63 on, since the Rust crate
 * counts from 0. One copy of heap.c returns no number twice, whichever threads call it. Shared libraries that hide their names
 * may have a copy each. Their equal numbers do no harm if none of these libraries is given a handle of another one. */
extern uint64_t hz_next_id(void);

/* Makes a mailbox with this number and setup, and its hub. It takes up to 24 kB of stack: 16 kB, the least of a thread, is too
 * little. HZ_DONE: hub leads to the hub. HZ_BAD_HANDLE: hub was not HZ_NONE. HZ_NO_MEMORY. HZ_BAD_TABLE .. HZ_BAD_PAIRS. */
HZ_CHECKED HZ_NONNULL
uint32_t hz_mailbox_new(uint64_t id, const hz_setup *setup, hz_handle *hub);

/* Issues the producer of the next lane, in order from lane 0 on.
 * HZ_DONE: producer leads to it, and lane is the number of its lane. HZ_BAD_HANDLE. HZ_ALL_GIVEN: the producers of all lanes
 * were issued. HZ_NO_MEMORY. lane is written at HZ_DONE only. */
HZ_CHECKED HZ_NONNULL
uint32_t hz_producer_new(hz_handle *hub, hz_handle *producer, uint64_t *lane);

/* Issues the consumer of the next number, in order from 0 on. It draws its random words from ChaCha8 with this seed, out of a
 * stream of its own. So all consumers of a mailbox may have one seed. If each claim is one exchange, the seed does not
 * matter.
 * HZ_DONE: consumer leads to it, and number is its number. HZ_BAD_HANDLE. HZ_ALL_GIVEN: all consumers of the setup were
 * issued. HZ_NO_MEMORY. number is written at HZ_DONE only. */
HZ_CHECKED HZ_NONNULL
uint32_t hz_consumer_new(hz_handle *hub, const uint8_t seed[32], hz_handle *consumer, uint64_t *number);

/* Puts an item, any number, at the end of the producer's lane. It makes at most three accesses of shared words, and asks for
 * no memory. HZ_LINKED: the item is on the lane. HZ_FULL: no cell is left, the item was not put, and each further put before
 * hz_finish returns HZ_FULL too.
 * HZ_CLOSED: the lane has ended. HZ_BAD_HANDLE. */
HZ_CHECKED HZ_NONNULL
uint32_t hz_put(hz_handle *producer, uint64_t item);

/* Ends the producer's lane: no item can be put on it any more. The code may be ignored, since the lane has ended after HZ_DONE
 * and after HZ_CLOSED. HZ_DONE. HZ_CLOSED: the lane had ended before. HZ_BAD_HANDLE. */
HZ_NONNULL
uint32_t hz_finish(hz_handle *producer);

/* Competes for the next item of a lane until there is a result, with at most `budget` accesses of shared words. It asks for
 * no memory.
 * HZ_TOOK: this consumer took the item, and value is the item. HZ_LOST: no consumer but the one with the number value can win
 * the item. HZ_UNDECIDED: the claim ended, and does not show who has won the item, if anybody has. It never comes if last is
 * true in the setup. HZ_NOTHING: at one moment of the call this consumer had met all items linked on the lane, and the lane
 * had not ended. If each claim is one exchange, all of them were taken or won by then. HZ_ENDED: the lane has ended, and has
 * no further item.
 * HZ_SPENT: the budget is used up, which UINT64_MAX never is, and the next poll of the lane goes on from there.
 * HZ_NO_LANE: there is no such lane. HZ_BAD_HANDLE. value is written at HZ_TOOK and HZ_LOST only. */
HZ_CHECKED HZ_NONNULL
uint32_t hz_poll(hz_handle *consumer, uint64_t lane, uint64_t budget, uint64_t *value);

/* Takes the next item of a lane that this consumer wins, past the items that it loses. It does what calls of hz_poll do one
 * after another, until one does not return HZ_LOST. All together make at most `most` accesses. It asks for no memory.
 * HZ_TOOK: this consumer took the item, and value is the item. HZ_UNDECIDED, HZ_NOTHING, HZ_ENDED, HZ_NO_LANE,
 * HZ_BAD_HANDLE: as in hz_poll. HZ_SPENT: `most` accesses were made, and the next call for the lane goes on from there. With
 * UINT64_MAX it never comes.
 * value is written at HZ_TOOK only. */
HZ_CHECKED HZ_NONNULL
uint32_t hz_take(hz_handle *consumer, uint64_t lane, uint64_t most, uint64_t *value);

/* Takes a producer or a consumer back, also a producer whose lane has not ended, and a consumer in the middle of a claim. The
 * report will have what it did. Its number is not issued again.
 * HZ_DONE: returned is HZ_NONE then. HZ_BAD_HANDLE: hub leads to no hub, or returned to no producer or consumer.
 * HZ_OTHER_MAILBOX: returned belongs to a mailbox with another id. */
HZ_CHECKED HZ_NONNULL
uint32_t hz_take_back(hz_handle *hub, hz_handle *returned);

/* Ends the mailbox, and makes the report. All producers and consumers that were issued have to be taken back before.
 * HZ_DONE: hub is HZ_NONE then, and report leads to the report. HZ_BAD_HANDLE. HZ_MISSING: some were not taken back. missing
 * says how many, and is written at this code only. HZ_NO_MEMORY: hub is as it was, and the call may be made again. */
HZ_CHECKED HZ_NONNULL
uint32_t hz_gather(hz_handle *hub, hz_handle *report, hz_missing *missing);

/* Writes how many lanes and consumers the report has: as many as the setup had producers and consumers.
 * HZ_DONE. HZ_BAD_HANDLE. */
HZ_CHECKED HZ_NONNULL
uint32_t hz_report_size(hz_handle *report, uint64_t *lanes, uint64_t *consumers);

/* Writes to out what the report says of this lane.
 * HZ_DONE. HZ_BAD_HANDLE. HZ_NOT_THERE: there is no such lane. */
HZ_CHECKED HZ_NONNULL
uint32_t hz_report_lane(hz_handle *report, uint64_t lane, hz_lane *out);

/* Writes to out what the report says of this consumer on this lane.
 * HZ_DONE. HZ_BAD_HANDLE. HZ_NOT_THERE: there is no such consumer or lane. */
HZ_CHECKED HZ_NONNULL
uint32_t hz_report_diary(hz_handle *report, uint64_t consumer, uint64_t lane, hz_diary *out);

/* Copies items of a lane to items, in the order put: if left is true those that nobody took, else all that were put. It skips
 * the first `from` of them. copied is how many were copied, at most room. The rest of items stays as it was.
 * HZ_DONE. HZ_BAD_HANDLE. HZ_NOT_THERE: there is no such lane. */
HZ_CHECKED HZ_NONNULL
uint32_t hz_report_items(hz_handle *report, uint64_t lane, bool left, uint64_t from, uint64_t *items, size_t room,
                         uint64_t *copied);

/* Copies the notes of this consumer on this lane to notes, in their order. It skips the first `from` of them.
 * copied is how many were copied, at most room. The rest of notes stays as it was.
 * HZ_DONE. HZ_BAD_HANDLE. HZ_NOT_THERE: there is no such consumer or lane. */
HZ_CHECKED HZ_NONNULL
uint32_t hz_report_notes(hz_handle *report, uint64_t consumer, uint64_t lane, uint64_t from, hz_note *notes, size_t room,
                         uint64_t *copied);

/* Frees what the handle leads to, and makes the handle HZ_NONE. If it is HZ_NONE already, nothing happens. If a producer or
 * consumer is freed and was not taken back, each hz_gather of its mailbox returns HZ_MISSING. */
HZ_NONNULL
void hz_free(hz_handle *handle);

/* In a build with ThreadSanitizer these tell it that a put happens before the take of the item. Else they do nothing. */
#ifdef HZ_THREAD_SANITIZER
void __tsan_release(void *at);
void __tsan_acquire(void *at);
#define HZ_BEFORE_PUT(p) __tsan_release((void *)(p))
#define HZ_AFTER_TAKE(p) __tsan_acquire((void *)(p))
#else
#define HZ_BEFORE_PUT(p) ((void)(p))
#define HZ_AFTER_TAKE(p) ((void)(p))
#endif

#ifdef __cplusplus
}
#endif
#endif
