/* Owning C++17 types over hazbultra_channel.h and hazbultra.h, whose heads say what a caller owes. A value here owns what its
 * handle leads to. It can be moved and cannot be copied, and its destructor frees what it owns. So of the mailbox's rules, 1 and 4
 * are kept, and 2 but for a setup that is not initialised. Of the channel's, 1 and 2 are. The others are yours: above all, that a
 * value is in one call at a time (rule 3 of both).
 *
 * After a value was moved from, its calls return HZ_BAD_HANDLE, or throw it.
 */
#ifndef HAZBULTRA_HPP
#define HAZBULTRA_HPP

#include "hazbultra_channel.h"

#include <array>
#include <chrono>
#include <stdexcept>
#include <utility>
#include <vector>

namespace hazbultra {

/* A call that has to succeed was refused. what() is the name of the code. */
struct refusal : std::runtime_error {
    explicit refusal(uint32_t why, hz_missing out = {}) : runtime_error(hz_code_name(why)), code(hz_code(why)), missing(out) {}
    hz_code code;
    hz_missing missing; /* at HZ_MISSING how many producers and consumers were not taken back, else 0 */
};

inline void expect_done(uint32_t code) {
    if (code != HZ_DONE)
        throw refusal(code);
}

/* What a receive, poll or take returned: value is what it took at HZ_TOOK, and a consumer's number at HZ_LOST. */
struct answer {
    hz_code code;
    uint64_t value;
};

/* ---- The channel. */

/* An end of a channel: a sender or a receiver. */
template <class End, uint32_t (*make)(End *, End *), uint32_t (*count)(End *, uint64_t *), uint32_t (*free_end)(End *)>
class channel_end {
  public:
    channel_end() = default;
    channel_end(channel_end &&other) noexcept : end(std::exchange(other.end, End{})) {}
    channel_end &operator=(channel_end &&other) noexcept {
        End moved = std::exchange(other.end, End{});
        free_end(&end);
        end = moved;
        return *this;
    }
    ~channel_end() { free_end(&end); }
    /* Whether it leads to a channel. */
    explicit operator bool() const noexcept { return end.end.full; }
    /* How many values wait. It throws HZ_BAD_HANDLE. */
    uint64_t len() {
        uint64_t found = 0;
        expect_done(count(&end, &found));
        return found;
    }

  protected:
    void clone_into(channel_end &other) { expect_done(make(&end, &other.end)); }
    static timespec in_c(std::chrono::steady_clock::time_point deadline) noexcept {
        auto since = std::chrono::nanoseconds(deadline.time_since_epoch()).count();
        return {time_t(since / 1000000000), long(since % 1000000000)};
    }
    /* So long after now, or the last time there is. */
    static std::chrono::steady_clock::time_point in(std::chrono::nanoseconds time) noexcept {
        auto now = std::chrono::steady_clock::now(), last = std::chrono::steady_clock::time_point::max();
        return time < last - now ? now + time : last;
    }
    End end = {};
};

/* It sends. The channel is closed once its last sender is destroyed. */
class sender : public channel_end<hz_sender, hz_sender_clone, hz_sender_len, hz_sender_free> {
  public:
    /* Another sender of the same channel. It throws HZ_NO_MEMORY or HZ_CROWDED. */
    sender clone() {
        sender made;
        clone_into(made);
        return made;
    }
    /* Sleeps until there is room, and returns HZ_DONE. Else the value was not sent: HZ_CLOSED, HZ_NO_MEMORY or HZ_CROWDED. */
    [[nodiscard]] hz_code send(uint64_t value) noexcept { return hz_code(hz_send(&end, value)); }
    /* The same, or HZ_FULL: there was no room before the deadline. */
    [[nodiscard]] hz_code send_until(uint64_t value, std::chrono::steady_clock::time_point deadline) noexcept {
        timespec at = in_c(deadline);
        return hz_code(hz_send_by(&end, value, &at));
    }
    [[nodiscard]] hz_code send_for(uint64_t value, std::chrono::nanoseconds time) noexcept {
        return send_until(value, in(time));
    }
    /* It does not sleep. HZ_FULL: there is no room. HZ_AGAIN: other ends were first. */
    [[nodiscard]] hz_code try_send(uint64_t value) noexcept { return hz_code(hz_try_send(&end, value)); }
    /* Closes the channel, for ever. */
    hz_code close() noexcept { return hz_code(hz_close(&end)); }

  private:
    friend std::pair<sender, class receiver> channel();
    friend std::pair<sender, class receiver> bounded_channel(uint64_t);
};

/* It receives. */
class receiver : public channel_end<hz_receiver, hz_receiver_clone, hz_receiver_len, hz_receiver_free> {
  public:
    /* Another receiver of the same channel. It throws HZ_NO_MEMORY or HZ_CROWDED. */
    receiver clone() {
        receiver made;
        clone_into(made);
        return made;
    }
    /* Sleeps until there is a value. Its code is HZ_TOOK, HZ_CLOSED or HZ_CROWDED. */
    [[nodiscard]] answer recv() noexcept { return recv_by(nullptr); }
    /* The same, or HZ_NOTHING: the deadline came first. */
    [[nodiscard]] answer recv_until(std::chrono::steady_clock::time_point deadline) noexcept {
        timespec at = in_c(deadline);
        return recv_by(&at);
    }
    [[nodiscard]] answer recv_for(std::chrono::nanoseconds time) noexcept {
        return recv_until(in(time));
    }
    /* It does not sleep. HZ_NOTHING: at a moment of the call nothing waited. HZ_AGAIN: that is not known. */
    [[nodiscard]] answer try_recv() noexcept {
        answer found = {HZ_BAD_HANDLE, 0};
        found.code = hz_code(hz_try_recv(&end, &found.value));
        return found;
    }

  private:
    friend std::pair<sender, receiver> channel();
    friend std::pair<sender, receiver> bounded_channel(uint64_t);
    answer recv_by(const timespec *deadline) noexcept {
        answer found = {HZ_BAD_HANDLE, 0};
        found.code = hz_code(hz_recv_by(&end, &found.value, deadline));
        return found;
    }
};

/* A new channel. It throws HZ_NO_MEMORY. */
inline std::pair<sender, receiver> channel() {
    std::pair<sender, receiver> made;
    expect_done(hz_channel(&made.first.end, &made.second.end));
    return made;
}

/* A new channel in which at most `bound` values wait. It throws HZ_BAD_BOUND or HZ_NO_MEMORY. */
inline std::pair<sender, receiver> bounded_channel(uint64_t bound) {
    std::pair<sender, receiver> made;
    expect_done(hz_bounded_channel(&made.first.end, &made.second.end, bound));
    return made;
}

/* ---- The mailbox. */

/* A handle with one owner. */
class owner {
  public:
    owner(owner &&other) noexcept : handle(std::exchange(other.handle, HZ_NONE)) {}
    owner &operator=(owner &&other) noexcept {
        hz_handle moved = std::exchange(other.handle, HZ_NONE);
        hz_free(&handle);
        handle = moved;
        return *this;
    }
    ~owner() { hz_free(&handle); }
    /* Whether it leads to something. */
    explicit operator bool() const noexcept { return handle.full; }

  protected:
    friend class hub;
    owner() = default;
    hz_handle handle = HZ_NONE;
};

/* The producer of one lane. Give it back to its hub by take_back. If it is destroyed before that, gather throws HZ_MISSING. */
class producer : public owner {
  public:
    uint64_t lane() const noexcept { return number; }
    /* Returns HZ_LINKED, HZ_FULL or HZ_CLOSED. */
    [[nodiscard]] hz_code put(uint64_t item) noexcept { return hz_code(hz_put(&handle, item)); }
    /* Returns HZ_DONE or HZ_CLOSED. */
    hz_code finish() noexcept { return hz_code(hz_finish(&handle)); }

  private:
    friend class hub;
    producer() = default;
    uint64_t number = 0;
};

/* A consumer. Give it back to its hub, too. */
class consumer : public owner {
  public:
    uint64_t index() const noexcept { return number; }
    [[nodiscard]] answer poll(uint64_t lane, uint64_t budget = UINT64_MAX) noexcept { return ask(hz_poll, lane, budget); }
    /* It never returns HZ_LOST. */
    [[nodiscard]] answer take(uint64_t lane, uint64_t most = UINT64_MAX) noexcept { return ask(hz_take, lane, most); }

  private:
    friend class hub;
    consumer() = default;
    answer ask(decltype(&hz_poll) call, uint64_t lane, uint64_t most) noexcept {
        answer found = {HZ_BAD_HANDLE, 0};
        found.code = hz_code(call(&handle, lane, most, &found.value));
        return found;
    }
    uint64_t number = 0;
};

/* What was put, taken and left. Each call throws HZ_NOT_THERE if there is no such lane or consumer. */
class report : public owner {
  public:
    hz_lane lane(uint64_t number) {
        hz_lane found = {};
        expect_done(hz_report_lane(&handle, number, &found));
        return found;
    }
    hz_diary diary(uint64_t by, uint64_t of_lane) {
        hz_diary found = {};
        expect_done(hz_report_diary(&handle, by, of_lane, &found));
        return found;
    }
    /* All items that were put, or those that nobody took, in the order put. */
    std::vector<uint64_t> items(uint64_t of_lane, bool left) {
        /* (an empty vector may have a null pointer, which the call does not take) */
        std::vector<uint64_t> found(lane(of_lane).put + 1);
        uint64_t copied = 0;
        expect_done(hz_report_items(&handle, of_lane, left, 0, found.data(), found.size(), &copied));
        found.resize(copied);
        return found;
    }
    std::vector<hz_note> notes(uint64_t by, uint64_t of_lane) {
        std::vector<hz_note> found(diary(by, of_lane).notes + 1);
        uint64_t copied = 0;
        expect_done(hz_report_notes(&handle, by, of_lane, 0, found.data(), found.size(), &copied));
        found.resize(copied);
        return found;
    }

  private:
    friend class hub;
    report() = default;
};

/* The fastest setup: each claim on an item is one compare-exchange. */
inline hz_setup exchange_setup(uint64_t producers, uint64_t consumers, uint64_t cells) {
    return {producers, consumers, cells, 0, HZ_BITS, false, true};
}

/* A mailbox: it issues producers and consumers, takes them back, and makes the report. */
class hub : public owner {
  public:
    /* It throws HZ_BAD_TABLE .. HZ_BAD_PAIRS, or HZ_NO_MEMORY. */
    explicit hub(const hz_setup &setup) { expect_done(hz_mailbox_new(hz_next_id(), &setup, &handle)); }

    /* Both throw HZ_ALL_GIVEN or HZ_NO_MEMORY. */
    producer issue_producer() {
        producer made;
        expect_done(hz_producer_new(&handle, &made.handle, &made.number));
        return made;
    }
    consumer issue_consumer(const std::array<uint8_t, 32> &seed = {}) {
        consumer made;
        expect_done(hz_consumer_new(&handle, seed.data(), &made.handle, &made.number));
        return made;
    }
    /* Both throw HZ_OTHER_MAILBOX or HZ_BAD_HANDLE. Then the producer or consumer is as it was. */
    void take_back(producer &&one) { expect_done(hz_take_back(&handle, &one.handle)); }
    void take_back(consumer &&one) { expect_done(hz_take_back(&handle, &one.handle)); }

    /* Ends the mailbox. It throws HZ_MISSING or HZ_NO_MEMORY. Then the hub is as it was. */
    report gather() {
        report made;
        hz_missing missing = {};
        uint32_t code = hz_gather(&handle, &made.handle, &missing);
        if (code != HZ_DONE)
            throw refusal(code, missing);
        return made;
    }
};

} // namespace hazbultra
#endif
