/* A program with a mailbox and a channel of its own, and a Rust library with others. Both use one copy of the archives' code. */
#include "hazbultra_channel.h"

#include <stdio.h>

uint64_t through_rust(uint64_t number);

static uint64_t through_mailbox(uint64_t number) {
    hz_setup setup = {.producers = 1, .consumers = 1, .cells = 1, .pairs = 4, .table = HZ_BITS, .last = true};
    hz_handle hub = HZ_NONE, producer = HZ_NONE, consumer = HZ_NONE;
    const uint8_t seed[32] = {1};
    uint64_t value = 0;
    bool done = hz_mailbox_new(hz_next_id(), &setup, &hub) == HZ_DONE
        && hz_producer_new(&hub, &producer, &value) == HZ_DONE && hz_consumer_new(&hub, seed, &consumer, &value) == HZ_DONE
        && hz_put(&producer, number) == HZ_LINKED && hz_poll(&consumer, 0, UINT64_MAX, &value) == HZ_TOOK;
    hz_free(&producer);
    hz_free(&consumer);
    hz_free(&hub);
    return done ? value : 0;
}

static uint64_t through_channel(uint64_t number) {
    hz_sender sender = HZ_NO_SENDER;
    hz_receiver receiver = HZ_NO_RECEIVER;
    uint64_t value = 0;
    bool done = hz_channel(&sender, &receiver) == HZ_DONE && hz_send(&sender, number) == HZ_DONE
        && hz_recv(&receiver, &value) == HZ_TOOK;
    hz_sender_free(&sender);
    hz_receiver_free(&receiver);
    return done ? value : 0;
}

int main(void) {
    if (through_mailbox(7) != 7 || through_channel(8) != 8 || through_rust(9) != 9 || hz_next_id() == hz_next_id())
        return 1;
    puts("a mailbox and a channel in C, and both in Rust, in one program");
    return 0;
}
