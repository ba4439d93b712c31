/* by_cells [CELLS]: the life of a mailbox with so many cells, or 256. Each gets an item, which one consumer takes. */
#include "hazbultra.h"

#include <stdio.h>
#include <stdlib.h>

static void want(uint32_t wanted, uint32_t answer) {
    if (answer != wanted)
        exit(1);
}

int main(int count, char **words) {
    uint64_t cells = count > 1 ? strtoull(words[1], NULL, 10) : 256, value = 0, lanes = 0, consumers = 0;
    hz_setup setup = {.producers = 2, .consumers = 2, .cells = cells, .pairs = 4, .table = HZ_BITS};
    hz_handle hub = HZ_NONE, producer = HZ_NONE, consumer = HZ_NONE, report = HZ_NONE;
    hz_missing missing = {0};
    hz_lane lane = {0};
    hz_diary diary = {0};
    const uint8_t seed[32] = {1};
    want(HZ_DONE, hz_mailbox_new(1, &setup, &hub));
    want(HZ_DONE, hz_producer_new(&hub, &producer, &value));
    want(HZ_DONE, hz_consumer_new(&hub, seed, &consumer, &value));
    for (uint64_t item = 0; item < cells; item++) {
        want(HZ_LINKED, hz_put(&producer, item));
        want(HZ_TOOK, hz_poll(&consumer, 0, UINT64_MAX, &value));
    }
    want(HZ_DONE, hz_finish(&producer));
    want(HZ_DONE, hz_take_back(&hub, &producer));
    want(HZ_DONE, hz_take_back(&hub, &consumer));
    want(HZ_DONE, hz_gather(&hub, &report, &missing));
    want(HZ_DONE, hz_report_size(&report, &lanes, &consumers));
    want(HZ_DONE, hz_report_lane(&report, 0, &lane));
    want(HZ_DONE, hz_report_diary(&report, 0, 0, &diary));
    hz_free(&report);
    return 0;
}
