/* Puts and polls in one thread, to count instructions: cost [ITEMS [BUDGET]]. A poll that is HZ_SPENT is made again. */
#include "hazbultra.h"

#include <stdio.h>
#include <stdlib.h>
#include <string.h>

int main(int count, char **words) {
    uint64_t items = count > 1 ? strtoull(words[1], NULL, 10) : 1000, taken = 0, value = 0;
    uint64_t budget = count > 2 ? strtoull(words[2], NULL, 10) : UINT64_MAX;
    hz_setup setup = {.producers = 1, .consumers = 4, .cells = 65536, .pairs = 4, .table = HZ_BITS};
    hz_handle hub = HZ_NONE, producer = HZ_NONE, consumer = HZ_NONE;
    uint8_t seed[32];
    memset(seed, 1, sizeof seed);
    if (hz_mailbox_new(1, &setup, &hub) || hz_producer_new(&hub, &producer, &value)
        || hz_consumer_new(&hub, seed, &consumer, &value))
        return 1;
    for (uint64_t item = 0; item < items; item++) {
        if (hz_put(&producer, item) != HZ_LINKED)
            return 1;
        uint32_t answer;
        while ((answer = hz_poll(&consumer, 0, budget, &value)) == HZ_SPENT)
            ;
        taken += answer == HZ_TOOK;
    }
    hz_free(&producer);
    hz_free(&consumer);
    hz_free(&hub);
    printf("%d taken\n", (int)taken);
    return 0;
}
