#!/usr/bin/env python3
"""Large mailboxes, each from its making to the audit of its report: memory at the peak, and time.

usage: bench/large.py [--limit WORDS] [--keep] [--shape SHAPE] [PRODUCERS,CONSUMERS,PAIRS,ITEMS ...]

Each run has 2^20 items in as many cells if nothing is said: with 1 producer and 1 consumer, 2 and 4, and 16 and 16, each with 4
pairs (none of the shape `exchange`). "Touched" is the most memory that was resident, in words of 8 bytes a cell. `--limit` gives a
run no more address space than so many words a cell and what its threads' stacks take. With --keep the program of the last run is
taken as it is. It fails if a run does.
"""
import argparse
import re

import measuring

PROGRAM = measuring.LARGE
RUNS = ["1,1,4,1048576", "2,4,4,1048576", "16,16,4,1048576"]
STACK = 1 << 23


def one_run(producers, consumers, pairs, items, shape, limit):
    """Makes one run, and returns its row of the table."""
    words = (PROGRAM, producers, consumers, pairs, items, 1, shape)
    if limit is not None:
        most = int(limit * 8 * items) + (producers + consumers) * STACK
        words = ("prlimit", f"--as={most}", *words)
    _, resident, said = measuring.used(words)
    times = re.findall(r"(?:made|worked|gathered|written): ([0-9.]+\w+)", said)
    return [*map(str, (producers, consumers, pairs, items)), f"{resident / (8 * items):.1f}", f"{resident / 1e6:.0f} MB", *times]


def main():
    parser = argparse.ArgumentParser()
    parser.add_argument("--limit", type=float)
    parser.add_argument("--keep", action="store_true")
    parser.add_argument("--shape", default="plain")
    parser.add_argument("runs", nargs="*", default=RUNS)
    options = parser.parse_args()
    if not options.keep:
        measuring.proved(PROGRAM)
    rows = [one_run(*map(int, run.split(",")), options.shape, options.limit) for run in options.runs]
    head = ("Producers", "Consumers", "Pairs", "Items", "Touched", "Resident", "made", "worked", "gathered", "written")
    print(measuring.table(head, rows))


if __name__ == "__main__":
    main()
