/* Tests which codes the proved calls of hazbultra_channel.h return, in one thread. Each allocation is refused in turn, by a heap
 * in place of heap.c. */
#include "hazbultra_channel.h"
#include "refusing.h"

#include <string.h>

static const hz_end NONE;
static uint64_t value;
static hz_wake wake;

static bool is_none(hz_end end) {
    return !end.full;
}

/* Frees an end that has nothing to wait for. */
static void gone(hz_end *end) {
    uint32_t code;
    while ((code = hz_channel_free(end, &wake)) == HZ_AGAIN) {
    }
    EXPECT(code == HZ_DONE);
    EXPECT(is_none(*end));
}

/* The code of a receive. At the end of a segment a receiver has to ask again. */
static uint32_t receive(hz_end *receiver) {
    uint32_t code;
    while ((code = hz_channel_receive(receiver, &value, &wake)) == HZ_AGAIN) {
    }
    return code;
}

static void values_come_in_order(void) {
    hz_end sender = NONE, receiver = NONE;
    EXPECT(hz_channel_new(&sender, &receiver) == HZ_DONE);
    EXPECT(hz_channel_try_receive(&receiver, &value) == HZ_NOTHING);
    for (uint64_t i = 0; i < 5000; i++) {
        EXPECT(hz_channel_send(&sender, i, &wake) == HZ_DONE);
        EXPECT(wake.threads == 0 && wake.owes == 0);
    }
    for (uint64_t i = 0; i < 5000; i++) {
        uint32_t code = i % 2 ? hz_channel_try_receive(&receiver, &value) : HZ_AGAIN;
        EXPECT((code == HZ_AGAIN ? receive(&receiver) : code) == HZ_TOOK && value == i);
    }
    EXPECT(hz_channel_try_receive(&receiver, &value) == HZ_NOTHING);
    gone(&sender);
    EXPECT(hz_channel_try_receive(&receiver, &value) == HZ_CLOSED);
    EXPECT(receive(&receiver) == HZ_CLOSED);
    gone(&receiver);
    EXPECT(blocks == 0);
}

static void a_sleeper_is_woken(void) {
    hz_end sender = NONE, receiver = NONE, other = NONE;
    EXPECT(hz_channel_new(&sender, &receiver) == HZ_DONE);
    EXPECT(hz_channel_send(&sender, 7, &wake) == HZ_DONE);
    EXPECT(hz_channel_receive(&receiver, &value, &wake) == HZ_TOOK && value == 7);
    EXPECT(hz_channel_receive(&receiver, &value, &wake) == HZ_SLEEPS);
    uint64_t place = wake.place;
    /* While it sleeps it can do nothing else. */
    EXPECT(hz_channel_receive(&receiver, &value, &wake) == HZ_SLEEPS);
    EXPECT(hz_channel_try_receive(&receiver, &value) == HZ_AGAIN);
    EXPECT(hz_channel_another(&receiver, &other) == HZ_AGAIN && is_none(other));
    EXPECT(hz_channel_len(&receiver, &value) == HZ_AGAIN && value == 7);
    EXPECT(hz_channel_len(&sender, &value) == HZ_DONE && value == 0);
    EXPECT(hz_channel_send(&sender, 8, &wake) == HZ_DONE);
    EXPECT(wake.threads == 1 && wake.place == place && wake.owes == 0);
    EXPECT(hz_channel_send(&sender, 9, &wake) == HZ_DONE);
    EXPECT(wake.threads == 0);
    EXPECT(hz_channel_receive(&receiver, &value, &wake) == HZ_TOOK && value == 8);
    EXPECT(hz_channel_try_receive(&receiver, &value) == HZ_TOOK && value == 9);
    /* Whoever stops waiting hands its token on. */
    EXPECT(hz_channel_another(&receiver, &other) == HZ_DONE);
    EXPECT(hz_channel_receive(&receiver, &value, &wake) == HZ_SLEEPS);
    EXPECT(hz_channel_receive(&other, &value, &wake) == HZ_SLEEPS);
    EXPECT(hz_channel_send(&sender, 10, &wake) == HZ_DONE && wake.threads == 1);
    EXPECT(hz_channel_pay(&receiver, &wake) == HZ_DONE && wake.threads == 0);
    EXPECT(hz_channel_receive(&other, &value, &wake) == HZ_TOOK && value == 10);
    /* A receiver that sleeps is freed in two steps. */
    EXPECT(hz_channel_receive(&other, &value, &wake) == HZ_SLEEPS);
    EXPECT(hz_channel_free(&other, &wake) == HZ_AGAIN && wake.owes == 0);
    EXPECT(hz_channel_free(&other, &wake) == HZ_DONE && is_none(other));
    /* The last sender wakes whoever sleeps. */
    EXPECT(hz_channel_receive(&receiver, &value, &wake) == HZ_SLEEPS);
    EXPECT(hz_channel_free(&sender, &wake) == HZ_AGAIN && wake.threads == 0);
    EXPECT(hz_channel_free(&sender, &wake) == HZ_AGAIN && wake.threads == 1);
    gone(&sender);
    EXPECT(receive(&receiver) == HZ_CLOSED);
    gone(&receiver);
    EXPECT(blocks == 0);
}

static void a_closed_channel_is_told(void) {
    hz_end sender = NONE, receiver = NONE, other = NONE;
    EXPECT(hz_channel_new(&sender, &receiver) == HZ_DONE);
    EXPECT(hz_channel_another(&sender, &other) == HZ_DONE);
    EXPECT(hz_channel_send(&sender, 1, &wake) == HZ_DONE);
    uint32_t code = hz_channel_close(&sender, &wake);
    while (code == HZ_AGAIN)
        code = hz_channel_close(&sender, &wake);
    EXPECT(code == HZ_DONE);
    EXPECT(hz_channel_close(&sender, &wake) == HZ_DONE);
    EXPECT(hz_channel_send(&sender, 2, &wake) == HZ_CLOSED);
    code = hz_channel_send(&other, 2, &wake);
    EXPECT(code == HZ_CLOSED);
    EXPECT(receive(&receiver) == HZ_TOOK && value == 1);
    EXPECT(receive(&receiver) == HZ_CLOSED);
    gone(&other);
    gone(&receiver);
    gone(&sender);
    EXPECT(blocks == 0);
}

static void bad_handles_have_a_code(void) {
    hz_end sender = NONE, receiver = NONE, other = NONE, another = NONE;
    EXPECT(hz_channel_send(&other, 1, &wake) == HZ_BAD_HANDLE);
    EXPECT(hz_channel_receive(&other, &value, &wake) == HZ_BAD_HANDLE);
    EXPECT(hz_channel_try_receive(&other, &value) == HZ_BAD_HANDLE);
    EXPECT(hz_channel_len(&other, &value) == HZ_BAD_HANDLE);
    EXPECT(hz_channel_pay(&other, &wake) == HZ_BAD_HANDLE);
    EXPECT(hz_channel_close(&other, &wake) == HZ_BAD_HANDLE);
    EXPECT(hz_channel_free(&other, &wake) == HZ_BAD_HANDLE);
    EXPECT(hz_channel_another(&other, &another) == HZ_BAD_HANDLE);
    EXPECT(hz_channel_new(&sender, &receiver) == HZ_DONE);
    EXPECT(hz_channel_new(&sender, &other) == HZ_BAD_HANDLE);
    EXPECT(hz_channel_new(&other, &receiver) == HZ_BAD_HANDLE);
    EXPECT(hz_channel_another(&sender, &receiver) == HZ_BAD_HANDLE);
    EXPECT(hz_channel_send(&receiver, 1, &wake) == HZ_BAD_HANDLE);
    EXPECT(hz_channel_close(&receiver, &wake) == HZ_BAD_HANDLE);
    EXPECT(hz_channel_receive(&sender, &value, &wake) == HZ_BAD_HANDLE);
    EXPECT(hz_channel_try_receive(&sender, &value) == HZ_BAD_HANDLE);
    EXPECT(is_none(other));
    gone(&sender);
    EXPECT(hz_channel_free(&sender, &wake) == HZ_BAD_HANDLE);
    gone(&receiver);
    EXPECT(blocks == 0);
}

/* Values for several segments. Returns whether memory was refused. */
static bool life(void) {
    hz_end sender = NONE, receiver = NONE, other = NONE;
    uint32_t code = hz_channel_new(&sender, &receiver);
    if (code != HZ_DONE) {
        EXPECT(code == HZ_NO_MEMORY && is_none(sender) && is_none(receiver));
        return true;
    }
    bool refused = false;
    code = hz_channel_another(&receiver, &other);
    if (code == HZ_NO_MEMORY) {
        refused = true;
        EXPECT(is_none(other) && hz_channel_another(&receiver, &other) == HZ_DONE);
    }
    for (uint64_t i = 0; i < 3000; i++) {
        code = hz_channel_send(&sender, i, &wake);
        if (code == HZ_NO_MEMORY) {
            refused = true;
            code = hz_channel_send(&sender, i, &wake);
        }
        EXPECT(code == HZ_DONE);
    }
    for (uint64_t i = 0; i < 3000; i++)
        EXPECT(receive(i % 3 ? &receiver : &other) == HZ_TOOK && value == i);
    gone(&other);
    gone(&sender);
    gone(&receiver);
    return refused;
}

static void each_allocation_is_refused_in_turn(void) {
    long tries = 0;
    for (bool refused = true; refused; tries++) {
        granted = tries;
        refused = life();
        EXPECT(blocks == 0);
    }
    granted = -1;
    EXPECT(tries > 8);
    printf("channel: %ld allocations refused in turn\n", tries - 1);
}

int main(void) {
    values_come_in_order();
    a_sleeper_is_woken();
    a_closed_channel_is_told();
    bad_handles_have_a_code();
    each_allocation_is_refused_in_turn();
    return 0;
}
