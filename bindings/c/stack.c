/* Measures how much stack the calls take, in a thread whose stack is filled with one byte first. The header has bounds. */
#define _POSIX_C_SOURCE 200112L
#include "hazbultra.h"

#include <pthread.h>
#include <stdio.h>
#include <string.h>

enum { PAINT = 0xA5, SIZE = 1 << 17, OWN = 512 };

static _Alignas(4096) unsigned char stack[SIZE];
static hz_handle hub, producer, consumer, report;

static hz_setup setup = {.producers = 16, .consumers = 64, .cells = 1024, .table = HZ_MIDDLE, .last = true};

static bool make(void) {
    return hz_mailbox_new(hz_next_id(), &setup, &hub) == HZ_DONE;
}

/* The calls in the life of a mailbox after hz_mailbox_new. Returns whether each of them returned the code of success. */
static bool live(void) {
    static hz_note notes[4];
    const uint8_t seed[32] = {1};
    uint64_t value, items[4], copied;
    hz_missing missing;
    hz_lane lane;
    hz_diary diary;
    bool done = hz_producer_new(&hub, &producer, &value) == HZ_DONE
        && hz_consumer_new(&hub, seed, &consumer, &value) == HZ_DONE
        && hz_put(&producer, 7) == HZ_LINKED && hz_poll(&consumer, 0, 1, &value) == HZ_SPENT
        && hz_poll(&consumer, 0, UINT64_MAX, &value) == HZ_TOOK && hz_finish(&producer) == HZ_DONE
        && hz_take_back(&hub, &producer) == HZ_DONE && hz_take_back(&hub, &consumer) == HZ_DONE
        && hz_gather(&hub, &report, &missing) == HZ_DONE && hz_report_size(&report, &value, &copied) == HZ_DONE
        && hz_report_lane(&report, 0, &lane) == HZ_DONE && hz_report_diary(&report, 0, 0, &diary) == HZ_DONE
        && hz_report_items(&report, 0, false, 0, items, 4, &copied) == HZ_DONE
        && hz_report_notes(&report, 0, 0, 0, notes, 4, &copied) == HZ_DONE;
    hz_free(&report);
    return done;
}

/* Returns how many bytes of the stack below this frame the call changes, or 0 if it fails. */
static size_t depth_of(bool (*call)(void)) {
    unsigned char *here = __builtin_frame_address(0);
    memset(stack, PAINT, (size_t)(here - stack) - OWN);
    if (!call())
        return 0;
    size_t low = 0;
    while (stack[low] == PAINT)
        low++;
    return (size_t)(here - stack) - low;
}

/* Measures first with a mailbox in which each claim is one exchange, then with one that has all objects of a cell. */
static void *measure(void *depths) {
    ((size_t *)depths)[0] = depth_of(make);
    hz_free(&hub);
    setup.pairs = 8;
    setup.fast = true;
    ((size_t *)depths)[1] = depth_of(make);
    ((size_t *)depths)[2] = depth_of(live);
    return NULL;
}

int main(void) {
    size_t depths[3] = {0, 0, 0};
    pthread_attr_t wanted;
    pthread_t thread;
    if (pthread_attr_init(&wanted) || pthread_attr_setstack(&wanted, stack, SIZE)
        || pthread_create(&thread, &wanted, measure, depths) || pthread_join(thread, NULL))
        return 1;
    printf("hz_mailbox_new takes %d or %d bytes of stack, and the other calls %d at most\n", (int)depths[0], (int)depths[1],
           (int)depths[2]);
    for (int it = 0; it < 3; it++)
        if (!(0 < depths[it] && depths[it] < (it < 2 ? 24000 : 8000)))
            return 1;
    return 0;
}
