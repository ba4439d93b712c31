#!/usr/bin/env python3
"""What a put and a poll cost inside Rattle, through C and through plain Rust, and a push and a pop of crossbeam's SegQueue.

usage: bench/boundary.py [--rounds 41] [--keep]

One thread puts each item and takes it before it puts the next. The mailbox has one producer, four consumers of whom one
polls, 65,536 plain cells over `bits` with 4 pairs, and ChaCha8 of one seed in all ways. Each figure is a difference of two runs, so that
making and start fall out. Instructions are callgrind's. Nanoseconds are of processor time, the medians of interleaved rounds.
With --keep the programs of the last run are taken as they are. It wants rt, cc, cargo, valgrind and crossbeam-queue of Debian.
"""
import argparse

import measuring

CELLS = 65536
COUNTED = (1000, 5000)
TIMED = (0, CELLS)
COST_IN_C = measuring.ROOM / "cost"
WAYS = {
    "inside Rattle": lambda items: (measuring.LOOPS, "relay", "bits", 4, items, "plain", CELLS),
    "from C": lambda items: (COST_IN_C, items),
    "from C, with a budget of 1": lambda items: (COST_IN_C, items, 1),
    "from plain Rust, `u64`": lambda items: (measuring.BESIDE, "plain", "relay", 1, 4, items, CELLS),
    "from plain Rust, a box each": lambda items: (measuring.BESIDE, "plain_boxes", "relay", 1, 4, items, CELLS),
    "`SegQueue`, `u64`": lambda items: (measuring.BESIDE, "seg", "relay", 1, 1, items, CELLS),
    "`SegQueue`, a box each": lambda items: (measuring.BESIDE, "seg_boxes", "relay", 1, 1, items, CELLS),
}


def build():
    measuring.proved(measuring.LOOPS)
    measuring.compiled(measuring.TOP / "bench" / "cost.c")
    measuring.cargo("bench/beside_queues")


def main():
    parser = argparse.ArgumentParser()
    parser.add_argument("--rounds", type=int, default=41)
    parser.add_argument("--keep", action="store_true")
    options = parser.parse_args()
    if not options.keep:
        build()
    counted = {name: measuring.by_item(*COUNTED, lambda items: measuring.instructions(way(items))) for name, way in WAYS.items()}
    # (each round makes both runs of each way)
    runs = {(name, items): lambda way=way, items=items: measuring.used(way(items))[0] for name, way in WAYS.items() for items in TIMED}
    took = measuring.medians(options.rounds, runs)
    rows = [(name, counted[name], measuring.by_item(*TIMED, lambda items: took[name, items])) for name in WAYS]
    print(measuring.machine(), end="\n\n")
    print(measuring.table(("A put and a poll", "Instructions", "Nanoseconds"), rows))


if __name__ == "__main__":
    main()
