/* Tests which codes the calls of hazbultra.h return. Each allocation is refused in turn, by a heap in place of heap.c. */
#include "hazbultra.h"
#include "refusing.h"

#include <string.h>

static const uint8_t SEED[32] = {1};

static hz_setup setup_of(uint64_t producers, uint64_t consumers, uint64_t cells, uint64_t pairs, uint32_t table) {
    return (hz_setup){producers, consumers, cells, pairs, table, true, true};
}

/* A setup in which each claim is one exchange. */
static hz_setup exchanges(uint64_t producers, uint64_t consumers, uint64_t cells, uint32_t table) {
    return (hz_setup){producers, consumers, cells, 0, table, false, true};
}

static uint32_t made(hz_setup setup) {
    hz_handle hub = HZ_NONE;
    uint32_t answer = hz_mailbox_new(1, &setup, &hub);
    EXPECT(hub.full == (answer == HZ_DONE));
    hz_free(&hub);
    EXPECT(!hub.full);
    return answer;
}

/* Setups that are refused, each for the first reason in the order of the codes, and some that are not. */
static void setups(void) {
    EXPECT(made(setup_of(0, 0, 1 << 25, 0, 3)) == HZ_BAD_TABLE);
    EXPECT(made(setup_of(0, 0, 1 << 25, 0, HZ_MIDDLE)) == HZ_BAD_PRODUCERS);
    EXPECT(made(setup_of(17, 65, 1 << 25, 9, HZ_BITS)) == HZ_BAD_PRODUCERS);
    EXPECT(made(setup_of(16, 0, 1 << 25, 0, HZ_BITS)) == HZ_BAD_CONSUMERS);
    EXPECT(made(setup_of(1, 65, 1 << 25, 9, HZ_BITS)) == HZ_BAD_CONSUMERS);
    EXPECT(made(setup_of(1, 64, (1 << 24) + 1, 0, HZ_BITS)) == HZ_BAD_CELLS);
    EXPECT(made(setup_of(1, 64, 0, 0, HZ_BITS)) == HZ_BAD_PAIRS);
    EXPECT(made(setup_of(1, 64, 0, 9, HZ_BITS)) == HZ_BAD_PAIRS);
    EXPECT(made(setup_of(16, 64, 0, 8, HZ_UNARY)) == HZ_DONE);
    EXPECT(made(exchanges(0, 0, 1 << 25, 3)) == HZ_BAD_TABLE);
    EXPECT(made(exchanges(0, 0, 1 << 25, HZ_MIDDLE)) == HZ_BAD_PRODUCERS);
    EXPECT(made(exchanges(1, 65, 1 << 25, HZ_BITS)) == HZ_BAD_CONSUMERS);
    EXPECT(made(exchanges(1, 64, (1 << 24) + 1, HZ_BITS)) == HZ_BAD_CELLS);
    EXPECT(made(exchanges(16, 64, 0, HZ_UNARY)) == HZ_DONE);
    EXPECT(made((hz_setup){1, 1, 1, 0, HZ_BITS, false, false}) == HZ_BAD_PAIRS);
    EXPECT(made((hz_setup){1, 1, 1, 0, HZ_BITS, true, false}) == HZ_BAD_PAIRS);
}

/* COMES_TO makes a call that asks for memory. If that is refused, which `told` counts, it makes the call once more. */
static long told;
#define COMES_TO(wanted, call) (comes_to(wanted, call) || comes_to(wanted, call))

static bool comes_to(uint32_t wanted, uint32_t answer) {
    EXPECT(answer == wanted || (answer == HZ_NO_MEMORY && told == 0));
    told += answer == HZ_NO_MEMORY;
    return answer == wanted;
}

/* Gives a handle of one kind to each call that wants another kind. */
static void kinds(hz_handle *part, bool is_hub, bool is_producer, bool is_consumer, bool is_report) {
    hz_setup setup = setup_of(1, 1, 1, 1, HZ_BITS);
    hz_handle none = HZ_NONE;
    hz_missing missing = {7, 7};
    uint64_t word = 7, other = 7;
    hz_lane lane = {0};
    hz_diary diary = {0};
    hz_note note = {0};
    if (part->full)
        EXPECT(COMES_TO(HZ_BAD_HANDLE, hz_mailbox_new(9, &setup, part)));
    if (!is_hub) {
        EXPECT(COMES_TO(HZ_BAD_HANDLE, hz_producer_new(part, &none, &word)));
        EXPECT(COMES_TO(HZ_BAD_HANDLE, hz_consumer_new(part, SEED, &none, &word)));
        EXPECT(hz_take_back(part, &none) == HZ_BAD_HANDLE);
        EXPECT(hz_gather(part, &none, &missing) == HZ_BAD_HANDLE);
    }
    if (!is_producer) {
        EXPECT(hz_put(part, 1) == HZ_BAD_HANDLE);
        EXPECT(hz_finish(part) == HZ_BAD_HANDLE);
    }
    if (!is_consumer)
        EXPECT(hz_poll(part, 0, 9, &word) == HZ_BAD_HANDLE && hz_take(part, 0, 9, &word) == HZ_BAD_HANDLE);
    if (!is_report) {
        EXPECT(hz_report_size(part, &word, &other) == HZ_BAD_HANDLE);
        EXPECT(hz_report_lane(part, 0, &lane) == HZ_BAD_HANDLE);
        EXPECT(hz_report_diary(part, 0, 0, &diary) == HZ_BAD_HANDLE);
        EXPECT(hz_report_items(part, 0, false, 0, &word, 1, &other) == HZ_BAD_HANDLE);
        EXPECT(hz_report_notes(part, 0, 0, 0, &note, 1, &other) == HZ_BAD_HANDLE);
    }
    EXPECT(!none.full && missing.producers == 7 && missing.consumers == 7 && word == 7 && other == 7);
}

static void report_of_one(hz_handle *report) {
    uint64_t lanes, consumers, copied, items[4] = {9, 9, 9, 9};
    hz_lane lane;
    hz_diary diary;
    hz_note notes[4] = {{9, 9}, {9, 9}, {9, 9}, {9, 9}};
    kinds(report, false, false, false, true);
    EXPECT(hz_report_size(report, &lanes, &consumers) == HZ_DONE && lanes == 2 && consumers == 2);
    EXPECT(hz_report_lane(report, 2, &lane) == HZ_NOT_THERE);
    EXPECT(hz_report_lane(report, 0, &lane) == HZ_DONE && lane.put == 3 && lane.left == 2 && lane.ended);
    EXPECT(hz_report_lane(report, 1, &lane) == HZ_DONE && lane.put == 0 && lane.left == 0 && !lane.ended);
    EXPECT(hz_report_diary(report, 0, 2, &diary) == HZ_NOT_THERE);
    EXPECT(hz_report_diary(report, 2, 0, &diary) == HZ_NOT_THERE);
    EXPECT(hz_report_diary(report, 0, 0, &diary) == HZ_DONE && diary.notes == 1 && diary.begun);
    EXPECT(hz_report_diary(report, 1, 0, &diary) == HZ_DONE && diary.notes == 1 && !diary.begun);

    /* Two items from place 1 on, and then the items that are left. */
    EXPECT(hz_report_items(report, 2, false, 0, items, 4, &copied) == HZ_NOT_THERE);
    EXPECT(hz_report_items(report, 0, false, 1, items, 2, &copied) == HZ_DONE && copied == 2);
    EXPECT(items[0] == 20 && items[1] == 30 && items[2] == 9);
    EXPECT(hz_report_items(report, 0, true, 0, items, 4, &copied) == HZ_DONE && copied == 2);
    EXPECT(items[0] == 20 && items[1] == 30 && items[2] == 9);
    EXPECT(hz_report_items(report, 0, true, 1, items, 4, &copied) == HZ_DONE && copied == 1 && items[0] == 30);
    EXPECT(hz_report_items(report, 0, true, UINT64_MAX, items, 4, &copied) == HZ_DONE && copied == 0);
    EXPECT(hz_report_items(report, 0, true, 0, items, 0, &copied) == HZ_DONE && copied == 0);

    EXPECT(hz_report_notes(report, 0, 2, 0, notes, 4, &copied) == HZ_NOT_THERE);
    EXPECT(hz_report_notes(report, 0, 0, 0, notes, 4, &copied) == HZ_DONE && copied == 1);
    EXPECT(notes[0].kind == HZ_TOOK && notes[0].value == 10 && notes[1].kind == 9);
    EXPECT(hz_report_notes(report, 1, 0, 0, notes, 4, &copied) == HZ_DONE && copied == 1);
    EXPECT(notes[0].kind == HZ_LOST && notes[0].value == 0);
    EXPECT(hz_report_notes(report, 1, 0, 1, notes, 4, &copied) == HZ_DONE && copied == 0);
}

/* The life of a mailbox with two lanes and two consumers. One takes the first item, and stops midway at the second. */
static void life(hz_setup setup) {
    hz_handle hub = HZ_NONE, other = HZ_NONE, one = HZ_NONE, two = HZ_NONE, three = HZ_NONE, report = HZ_NONE;
    hz_handle stranger = HZ_NONE;
    hz_missing missing = {7, 7};
    uint64_t value = 7, number = 7;
    EXPECT(COMES_TO(HZ_DONE, hz_mailbox_new(1, &setup, &hub)));
    EXPECT(COMES_TO(HZ_DONE, hz_mailbox_new(2, &setup, &other)));
    EXPECT(COMES_TO(HZ_DONE, hz_producer_new(&hub, &one, &number)) && number == 0);
    EXPECT(COMES_TO(HZ_DONE, hz_consumer_new(&hub, SEED, &two, &number)) && number == 0);
    EXPECT(COMES_TO(HZ_DONE, hz_consumer_new(&hub, SEED, &three, &number)) && number == 1);
    EXPECT(COMES_TO(HZ_ALL_GIVEN, hz_consumer_new(&hub, SEED, &stranger, &number)) && !stranger.full);
    EXPECT(COMES_TO(HZ_BAD_HANDLE, hz_producer_new(&hub, &one, &number)) && number == 1);
    kinds(&hub, true, false, false, false);
    kinds(&one, false, true, false, false);
    kinds(&two, false, false, true, false);

    EXPECT(hz_put(&one, 10) == HZ_LINKED && hz_put(&one, 20) == HZ_LINKED && hz_put(&one, 30) == HZ_LINKED);
    EXPECT(hz_put(&one, 40) == HZ_FULL && hz_put(&one, 40) == HZ_FULL);
    EXPECT(hz_finish(&one) == HZ_DONE && hz_finish(&one) == HZ_CLOSED && hz_put(&one, 40) == HZ_CLOSED);
    EXPECT(hz_poll(&two, 2, 9, &value) == HZ_NO_LANE && hz_poll(&two, 1, 9, &value) == HZ_NOTHING && value == 7);
    EXPECT(hz_poll(&two, 0, 0, &value) == HZ_SPENT && value == 7);
    EXPECT(hz_poll(&two, 0, UINT64_MAX, &value) == HZ_TOOK && value == 10);
    EXPECT(hz_poll(&three, 0, UINT64_MAX, &value) == HZ_LOST && value == 0);
    EXPECT(hz_poll(&two, 0, 2, &value) == HZ_SPENT);

    EXPECT(COMES_TO(HZ_DONE, hz_producer_new(&other, &stranger, &number)) && number == 0);
    EXPECT(hz_take_back(&hub, &stranger) == HZ_OTHER_MAILBOX && stranger.full);
    EXPECT(hz_take_back(&hub, &other) == HZ_BAD_HANDLE && other.full);
    EXPECT(hz_take_back(&other, &stranger) == HZ_DONE && !stranger.full);
    EXPECT(hz_take_back(&hub, &one) == HZ_DONE && !one.full);
    EXPECT(hz_gather(&hub, &report, &missing) == HZ_MISSING && missing.producers == 0 && missing.consumers == 2);
    EXPECT(hz_take_back(&hub, &two) == HZ_DONE && hz_take_back(&hub, &three) == HZ_DONE);
    EXPECT(hz_gather(&hub, &other, &missing) == HZ_BAD_HANDLE && hub.full && other.full);
    EXPECT(COMES_TO(HZ_DONE, hz_gather(&hub, &report, &missing)));
    EXPECT(!hub.full && hz_gather(&hub, &report, &missing) == HZ_BAD_HANDLE);
    report_of_one(&report);
    hz_free(&report);
    hz_free(&report);
    hz_free(&other);
}

/* Two consumers take items in turn, past those that they lose. */
static void takes(hz_setup setup) {
    hz_handle hub = HZ_NONE, producer = HZ_NONE, one = HZ_NONE, two = HZ_NONE, report = HZ_NONE;
    hz_missing missing;
    hz_note notes[4];
    uint64_t value = 7, copied;
    EXPECT(hz_mailbox_new(1, &setup, &hub) == HZ_DONE && hz_producer_new(&hub, &producer, &value) == HZ_DONE);
    EXPECT(hz_consumer_new(&hub, SEED, &one, &value) == HZ_DONE && hz_consumer_new(&hub, SEED, &two, &value) == HZ_DONE);
    EXPECT(hz_put(&producer, 10) == HZ_LINKED && hz_put(&producer, 20) == HZ_LINKED && hz_put(&producer, 30) == HZ_LINKED);
    value = 7;
    EXPECT(hz_take(&one, setup.producers, 9, &value) == HZ_NO_LANE && hz_take(&one, 0, 0, &value) == HZ_SPENT && value == 7);
    EXPECT(hz_take(&one, 0, UINT64_MAX, &value) == HZ_TOOK && value == 10);
    EXPECT(hz_take(&two, 0, UINT64_MAX, &value) == HZ_TOOK && value == 20);
    EXPECT(hz_take(&one, 0, UINT64_MAX, &value) == HZ_TOOK && value == 30);
    EXPECT(hz_take(&two, 0, UINT64_MAX, &value) == HZ_NOTHING && hz_finish(&producer) == HZ_DONE);
    EXPECT(hz_take(&one, 0, UINT64_MAX, &value) == HZ_ENDED && hz_take(&two, 0, 1, &value) == HZ_ENDED && value == 30);
    EXPECT(hz_take_back(&hub, &producer) == HZ_DONE && hz_take_back(&hub, &one) == HZ_DONE);
    EXPECT(hz_take_back(&hub, &two) == HZ_DONE && hz_gather(&hub, &report, &missing) == HZ_DONE);
    EXPECT(hz_report_notes(&report, 0, 0, 0, notes, 4, &copied) == HZ_DONE && copied == 3 && notes[0].kind == HZ_TOOK);
    EXPECT(notes[1].kind == HZ_LOST && notes[1].value == 1 && notes[2].kind == HZ_TOOK && notes[2].value == 30);
    EXPECT(hz_report_notes(&report, 1, 0, 0, notes, 4, &copied) == HZ_DONE && copied == 3 && notes[0].kind == HZ_LOST);
    EXPECT(notes[1].kind == HZ_TOOK && notes[1].value == 20 && notes[2].kind == HZ_LOST && notes[2].value == 0);
    hz_free(&report);
    EXPECT(blocks == 0);
}

/* The accesses of a take in which each claim is one exchange: the link, the exchange, and the item if it is won. */
static void spends(void) {
    hz_setup setup = exchanges(1, 2, 2, HZ_BITS);
    hz_handle hub = HZ_NONE, producer = HZ_NONE, one = HZ_NONE, two = HZ_NONE;
    uint64_t value;
    EXPECT(hz_mailbox_new(1, &setup, &hub) == HZ_DONE && hz_producer_new(&hub, &producer, &value) == HZ_DONE);
    EXPECT(hz_consumer_new(&hub, SEED, &one, &value) == HZ_DONE && hz_consumer_new(&hub, SEED, &two, &value) == HZ_DONE);
    EXPECT(hz_put(&producer, 70) == HZ_LINKED && hz_put(&producer, 71) == HZ_LINKED);
    EXPECT(hz_take(&two, 0, 3, &value) == HZ_TOOK && value == 70);
    for (int access = 0; access < 4; access++)
        EXPECT(hz_take(&one, 0, 1, &value) == HZ_SPENT && value == 70);
    EXPECT(hz_take(&one, 0, 1, &value) == HZ_TOOK && value == 71);
    EXPECT(hz_take(&two, 0, 3, &value) == HZ_NOTHING && value == 71);
    hz_free(&one);
    hz_free(&two);
    hz_free(&producer);
    hz_free(&hub);
    EXPECT(blocks == 0);
}

/* The most producers and consumers: 16 and 64 are issued, and no more. The mailbox's id is the largest, too. */
static void numbers(void) {
    hz_setup setup = setup_of(16, 64, 1, 1, HZ_BITS);
    hz_handle hub = HZ_NONE, report = HZ_NONE, more = HZ_NONE, parts[80] = {HZ_NONE};
    hz_missing missing = {7, 7};
    uint64_t number = 7;
    EXPECT(hz_mailbox_new(UINT64_MAX, &setup, &hub) == HZ_DONE);
    for (uint64_t i = 0; i < 16; i++)
        EXPECT(hz_producer_new(&hub, &parts[i], &number) == HZ_DONE && number == i);
    for (uint64_t i = 0; i < 64; i++)
        EXPECT(hz_consumer_new(&hub, SEED, &parts[16 + i], &number) == HZ_DONE && number == i);
    EXPECT(hz_producer_new(&hub, &more, &number) == HZ_ALL_GIVEN);
    EXPECT(hz_consumer_new(&hub, SEED, &more, &number) == HZ_ALL_GIVEN && number == 63);
    EXPECT(hz_gather(&hub, &report, &missing) == HZ_MISSING && missing.producers == 16 && missing.consumers == 64);
    for (int i = 0; i < 80; i++)
        EXPECT(hz_take_back(&hub, &parts[i]) == HZ_DONE);
    EXPECT(hz_gather(&hub, &report, &missing) == HZ_DONE);
    hz_free(&report);
    EXPECT(blocks == 0);
}

int main(void) {
    hz_handle none = HZ_NONE;
    kinds(&none, false, false, false, false);
    hz_free(&none);
    setups();
    numbers();
    spends();
    hz_setup both[] = {setup_of(2, 2, 3, 4, HZ_BITS), exchanges(2, 2, 3, HZ_BITS)};
    for (int i = 0; i < 2; i++) {
        takes(both[i]);
        long refused = 0;
        do {
            told = 0;
            granted = refused++;
            life(both[i]);
            EXPECT(blocks == 0);
            EXPECT(told == (granted < 0));
        } while (granted < 0);
        EXPECT(refused > 5);
        granted = -1;
    }
    puts("each answer is as the header says, also if memory is refused");
    return 0;
}
