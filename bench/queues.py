#!/usr/bin/env python3
"""The mailbox beside what a user would pick instead: nanoseconds, instructions and bytes an item, in one table.

usage: bench/queues.py [--rounds 7] [--items 65536] [--keep]

The mailbox stands in each shape, with cheap random words and with those of ChaCha8, inside Rattle and from plain Rust.
Beside it stand SegQueue and ArrayQueue of crossbeam, the channel of std with a lock round its receiver, and a locked
VecDeque. Nanoseconds are medians of interleaved rounds, without making: in one thread, and with A x B threads, of which
A put and B take. Instructions are callgrind's, in one thread, by the number of consumers. Bytes are those that were resident at the peak of a
whole run, less those of a run with few items. In a second table consumers share all lanes, or have a lane or a mailbox each. With --keep the
programs of the last run are taken as they are. It wants rt, cargo, valgrind and crossbeam-queue of Debian.
"""
import argparse
import re

import measuring
from measuring import BESIDE, LARGE, LOOPS

SHAPES = ("plain", "fast", "last", "fastlast")
THREADS = ((1, 1), (2, 2), (2, 4), (4, 16))
CONSUMERS = (1, 2, 4, 16)
STORED = ((1, 1), (2, 4), (4, 16))
# How many items two runs have whose memory is compared. Both take more than this script: a child begins with its memory.
KEPT, KEPT_IN_QUEUES = (1 << 17, 1 << 18), (1 << 21, 1 << 22)
COUNTED = (1000, 5000)
# How often two runs that are compared do a loop in Rattle, each time with a mailbox of so many cells.
TIMES, COUNTED_TIMES, CELLS = (100, 1100), (2, 6), 256
MAILBOXES = (*SHAPES, "exchange", "boxes", "exchange_boxes")
# Numbers of producers, with as many consumers.
PAIRED = (2, 4, 8)


class Rattle:
    """The mailbox in a Rattle program: `bench_loops` in one thread, and `bench_large` in many."""

    def __init__(self, shape, words):
        self.name = f"mailbox, `{shape}`, {'ChaCha8' if words == 'chacha' else 'cheap words'}"
        self.shape, self.words = shape, words

    def loop(self, consumers, times, tell):
        """What an item takes in one thread, without the making of its mailbox."""
        def told(loop):
            return measuring.by_item(*times, lambda count: tell((LOOPS, loop, "bits", consumers, count, self.shape)))
        return (told("mailbox" if self.words == "cheap" else "chacha") - told("mailboxes")) / CELLS

    def alone(self, _):
        return self.loop(1, TIMES, lambda words: measuring.used(words)[0])

    def threads(self, producers, consumers, items):
        said = self.large(producers, consumers, items)[2]
        return measuring.nanoseconds(re.search(r"worked: ([^ ,]+)", said)[1]) / items

    def large(self, producers, consumers, items):
        """A run of `bench_large`: its nanoseconds, its bytes, and what it printed."""
        pairs, seed = 4, 1
        return measuring.used((LARGE, producers, consumers, pairs, items, seed, self.shape, self.words))

    def instructions(self, consumers):
        return self.loop(consumers, COUNTED_TIMES, measuring.instructions)

    def stored(self, producers, consumers):
        return measuring.by_item(*KEPT, lambda items: self.large(producers, consumers, items)[1])


class Beside:
    """What `beside_queues` runs: a mailbox of the plain Rust crate, or a queue of others."""

    def __init__(self, name, what):
        self.name, self.what = name, what

    def words(self, way, producers, consumers, items, cells):
        return BESIDE, self.what, way, producers, consumers, items, cells

    def took(self, way, producers, consumers, items):
        return int(measuring.used(self.words(way, producers, consumers, items, items))[2]) / items

    def alone(self, items):
        return self.took("turns", 1, 1, items)

    def threads(self, producers, consumers, items):
        return self.took("threads", producers, consumers, items)

    def instructions(self, consumers):
        return measuring.by_item(
            *COUNTED, lambda items: measuring.instructions(self.words("turns", 1, consumers, items, COUNTED[1]))
        )

    def stored(self, producers, consumers):
        kept = KEPT if self.what in MAILBOXES else KEPT_IN_QUEUES
        return measuring.by_item(
            *kept, lambda items: measuring.used(self.words("turns", producers, consumers, items, items))[1]
        )


SHARING = [Beside(f"plain Rust, `{shape}`, `u64`", shape) for shape in (*SHAPES, "exchange")]
WAYS = [
    *(Rattle(shape, words) for words in ("cheap", "chacha") for shape in SHAPES),
    *SHARING,
    Beside("plain Rust, `fastlast`, a box each", "boxes"),
    Beside("plain Rust, `exchange`, a box each", "exchange_boxes"),
    Beside("`SegQueue`", "seg"),
    Beside("`SegQueue`, a box each", "seg_boxes"),
    Beside("`ArrayQueue`", "array"),
    Beside("`std::sync::mpsc`, a lock round the receiver", "channel"),
    Beside("`VecDeque` behind a `Mutex`", "deque"),
]
SHARED = {"all lanes": "threads", "a lane each": "lanes", "a mailbox each": "apart"}


def build():
    measuring.proved(LOOPS, LARGE)
    measuring.cargo("bench/beside_queues")


def times(rounds, items):
    """The medians of all timed runs, by way and by the column of the table."""
    runs = {}
    for way in WAYS:
        runs[way.name, "alone"] = lambda way=way: way.alone(items)
        for threads in THREADS:
            runs[way.name, threads] = lambda way=way, threads=threads: way.threads(*threads, items)
    for way in SHARING:
        for count in PAIRED:
            for label, how in SHARED.items():
                runs[way.name, label, count] = lambda way=way, how=how, count=count: way.took(how, count, count, items)
    return measuring.medians(rounds, runs)


def main():
    parser = argparse.ArgumentParser()
    parser.add_argument("--rounds", type=int, default=7)
    parser.add_argument("--items", type=int, default=65536)
    parser.add_argument("--keep", action="store_true")
    options = parser.parse_args()
    if not options.keep:
        build()
    took = times(options.rounds, options.items)
    print(measuring.machine(), end="\n\n")
    head = ["An item", "ns: one thread", *(f"{p} x {c}" for p, c in THREADS)]
    head += [f"instructions: {CONSUMERS[0]}", *map(str, CONSUMERS[1:])]
    head += [f"bytes: {STORED[0][0]} x {STORED[0][1]}", *(f"{p} x {c}" for p, c in STORED[1:])]
    rows = []
    for way in WAYS:
        figures = [took[way.name, it] for it in ("alone", *THREADS)]
        figures += [way.instructions(consumers) for consumers in CONSUMERS]
        figures += [way.stored(*threads) for threads in STORED]
        rows.append((way.name, *figures))
    print(measuring.table(head, rows), end="\n\n")
    head = ["ns an item", *(f"{count} x {count}, {label}" for count in PAIRED for label in SHARED)]
    rows = [(way.name, *(took[way.name, label, count] for count in PAIRED for label in SHARED)) for way in SHARING]
    print(measuring.table(head, rows))


if __name__ == "__main__":
    main()
