// Workers on a channel, and a producer and two consumers of a mailbox, by the types of hazbultra.hpp: who owns a handle, and
// what a refusal says.
#include <hazbultra.hpp>

#include <cstdio>
#include <cstdlib>
#include <cstring>
#include <thread>
#include <type_traits>

using namespace hazbultra;

#define EXPECT(so) ((so) ? (void)0 : (std::fprintf(stderr, "demo.cpp:%d: not so: %s\n", __LINE__, #so), std::exit(1)))

template <class T> constexpr bool can_only_be_moved() {
    return !std::is_copy_constructible_v<T> && !std::is_copy_assignable_v<T> && std::is_nothrow_move_constructible_v<T>
        && std::is_nothrow_move_assignable_v<T>;
}
static_assert(can_only_be_moved<sender>() && can_only_be_moved<receiver>() && can_only_be_moved<hub>() && can_only_be_moved<producer>() && can_only_be_moved<consumer>()
              && can_only_be_moved<report>());

template <class Call> static refusal refused(Call call) {
    try {
        call();
    } catch (const refusal &why) {
        return why;
    }
    std::fputs("a call was not refused\n", stderr);
    std::exit(1);
}

constexpr uint64_t ITEMS = 1000;

// Receives until the channel is closed, and returns the sum. It sleeps meanwhile, for the longest time there is.
static uint64_t received_by(receiver jobs) {
    for (uint64_t sum = 0;;) {
        answer found = jobs.recv_for(std::chrono::nanoseconds::max());
        if (found.code == HZ_CLOSED)
            return sum;
        EXPECT(found.code == HZ_TOOK);
        sum += found.value;
    }
}

static void channels() {
    auto [jobs, worker] = channel();
    EXPECT(worker.try_recv().code == HZ_NOTHING && worker.recv_for(std::chrono::milliseconds(1)).code == HZ_NOTHING);
    uint64_t sums[2];
    std::thread workers[2] = {std::thread([&sums, it = worker.clone()]() mutable { sums[0] = received_by(std::move(it)); }),
                              std::thread([&sums, it = std::move(worker)]() mutable { sums[1] = received_by(std::move(it)); })};
    EXPECT(!worker && worker.recv().code == HZ_BAD_HANDLE && refused([&] { worker.clone(); }).code == HZ_BAD_HANDLE);
    EXPECT(jobs.len() == 0 && refused([&] { worker.len(); }).code == HZ_BAD_HANDLE);
    sender other = jobs.clone();
    std::this_thread::sleep_for(std::chrono::milliseconds(20)); // (the workers sleep by now)
    for (uint64_t job = 1; job <= ITEMS; job++)
        EXPECT((job % 2 ? jobs : other).send(job) == HZ_DONE);
    jobs = std::move(other); // the first sender is freed
    EXPECT(jobs && !other && jobs.try_send(0) == HZ_DONE && jobs.close() == HZ_DONE && jobs.send(0) == HZ_CLOSED);
    for (auto &it : workers)
        it.join();
    EXPECT(sums[0] + sums[1] == ITEMS * (ITEMS + 1) / 2);
}

static void bounds() {
    EXPECT(refused([] { bounded_channel(0); }).code == HZ_BAD_BOUND);
    auto [jobs, worker] = bounded_channel(2);
    EXPECT(jobs.send(1) == HZ_DONE && jobs.send_for(2, std::chrono::seconds(1)) == HZ_DONE && jobs.try_send(3) == HZ_FULL);
    EXPECT(jobs.send_for(3, std::chrono::milliseconds(1)) == HZ_FULL && jobs.len() == 2);
    EXPECT(worker.try_recv().value == 1 && jobs.try_send(3) == HZ_DONE && worker.recv().value == 2);
    sender moved = std::move(jobs);
    EXPECT(jobs.try_send(4) == HZ_BAD_HANDLE && moved.try_send(4) == HZ_DONE && moved.try_send(5) == HZ_FULL);
    std::thread last([it = std::move(worker)]() mutable { EXPECT(it.recv().value == 3); }); // (it is destroyed with the thread)
    last.join();
    EXPECT(moved.send(5) == HZ_CLOSED);
}

// Takes all that it wins of lane 0, and returns the sum.
static uint64_t sum_of(consumer &one) {
    for (uint64_t sum = 0;;) {
        answer found = one.take(0);
        if (found.code == HZ_ENDED)
            return sum;
        EXPECT(found.code == HZ_TOOK || found.code == HZ_NOTHING);
        sum += found.code == HZ_TOOK ? found.value : 0;
    }
}

static void threads() {
    hub mailbox(exchange_setup(1, 2, ITEMS));
    producer lane = mailbox.issue_producer();
    consumer some[2] = {mailbox.issue_consumer(), mailbox.issue_consumer()};
    EXPECT(lane.lane() == 0 && some[1].index() == 1);
    EXPECT(refused([&] { mailbox.issue_producer(); }).code == HZ_ALL_GIVEN);

    uint64_t sums[2];
    std::thread workers[2] = {std::thread([&] { sums[0] = sum_of(some[0]); }), std::thread([&] { sums[1] = sum_of(some[1]); })};
    for (uint64_t item = 1; item <= ITEMS; item++)
        EXPECT(lane.put(item) == HZ_LINKED);
    EXPECT(lane.put(0) == HZ_FULL && lane.finish() == HZ_DONE && lane.put(0) == HZ_CLOSED);
    for (auto &it : workers)
        it.join();
    EXPECT(sums[0] + sums[1] == ITEMS * (ITEMS + 1) / 2);

    refusal why = refused([&] { mailbox.gather(); });
    EXPECT(why.code == HZ_MISSING && why.missing.producers == 1 && why.missing.consumers == 2);
    mailbox.take_back(std::move(lane));
    EXPECT(!lane && lane.put(1) == HZ_BAD_HANDLE);
    for (auto &it : some)
        mailbox.take_back(std::move(it));
    report found = mailbox.gather();
    EXPECT(!mailbox && found.lane(0).put == ITEMS && found.lane(0).ended && found.items(0, true).empty());
    EXPECT(found.items(0, false).size() == ITEMS && found.items(0, false)[1] == 2);
    uint64_t taken = 0;
    for (uint64_t it = 0; it < 2; it++)
        for (hz_note note : found.notes(it, 0))
            taken += note.kind == HZ_TOOK;
    EXPECT(taken == ITEMS && refused([&] { found.lane(1); }).code == HZ_NOT_THERE);
    EXPECT(refused([&] { found.notes(2, 0); }).code == HZ_NOT_THERE && !found.diary(0, 0).begun);
}

// A value that was moved from leads to nothing, and one that is assigned to gives up what it had.
static void moves() {
    hub first(exchange_setup(2, 1, 4)), second(exchange_setup(1, 1, 4));
    producer one = first.issue_producer();
    producer moved = std::move(one);
    EXPECT(!one && moved && one.put(1) == HZ_BAD_HANDLE && moved.put(1) == HZ_LINKED);
    EXPECT(refused([&] { second.take_back(std::move(moved)); }).code == HZ_OTHER_MAILBOX && moved);
    moved = first.issue_producer();
    EXPECT(moved.lane() == 1 && moved.put(2) == HZ_LINKED);
    first.take_back(std::move(moved));
    EXPECT(refused([&] { first.gather(); }).missing.producers == 1);
    second = std::move(first);
    EXPECT(!first && refused([&] { second.issue_producer(); }).code == HZ_ALL_GIVEN);
}

int main() {
    hz_setup bad = exchange_setup(1, 1, 1);
    bad.last = false;
    EXPECT(std::strcmp(refused([&] { hub made(bad); }).what(), "HZ_BAD_PAIRS") == 0);
    channels();
    bounds();
    threads();
    moves();
    std::puts("each value and item was taken once, and each handle had one owner");
}
