#!/usr/bin/env python3
"""Counts the instructions of the libraries' loops and of the same loops by hand, and prints a table of them all.

usage: bench/count.py [--loops mailbox,polled,puts] [--shapes plain,exchange,..] [--tables bits,unary,middle]
                      [--consumers 1,2,4,16,64] [--keep]

Both programs are built first: `bench_loops` by `rt run`, which proves it, and `by_hand` by rustc. Then callgrind counts the
instructions of each at two sizes, so that the start of the program falls out; the counts repeat exactly. Both have to print
the same lines. By hand there is no `chacha`, and `taken` and `passed` want the shape `exchange`. With --keep the programs
of the last run are taken as they are. It wants rt, rustc and valgrind.
"""
import argparse
import itertools
import re
import subprocess
import sys

import measuring

BY_HAND = measuring.ROOM / "by_hand"
UNITS = {"mailbox": "an item", "polled": "an item", "puts": "a put", "chacha": "an item", "taken": "an item", "passed": "an item"}
# `polled` is the loop `mailbox`, counted without the making of its mailbox and producer.
SAME = {"polled": "mailbox"}
# A count is the difference of two runs. This is how often each of them does the loop.
SIZES = (2, 6)


def build():
    """Builds both programs."""
    measuring.proved(measuring.LOOPS)
    measuring.ROOM.mkdir(exist_ok=True)
    flags = ["--edition", "2024", "-C", "opt-level=3", "-C", "target-cpu=x86-64-v2", "-C", "codegen-units=1", "-C", "panic=abort"]
    subprocess.run(["rustc", *flags, measuring.TOP / "bench" / "by_hand" / "main.rs", "-o", BY_HAND], check=True)


def difference(program, loop, what):
    """The instructions and the items of doing the loop once, and what was printed at both sizes."""
    table, consumers, shape = what
    ran = [measuring.counted((program, loop, table, consumers, times, shape)) for times in SIZES]
    (few, first), (many, last) = ran
    items = [int(line.split(" ")[0]) for line in (first, last)]
    return (many - few) / (SIZES[1] - SIZES[0]), (items[1] - items[0]) / (SIZES[1] - SIZES[0]), first + last


def row(loop, what):
    """What a unit of the loop takes by the libraries and, if there is such a loop, by hand."""
    taken, lines = [], set()
    for program in (measuring.LOOPS, BY_HAND)[: 1 if loop == "chacha" else 2]:
        instructions, items, said = difference(program, SAME.get(loop, loop), what)
        if loop in ("polled", "puts", "taken", "passed"):
            instructions -= difference(program, "mailboxes", what)[0]
        taken.append(instructions / items)
        lines.add(said)
    if len(lines) > 1:
        sys.exit("the programs differ:\n" + "\n".join(lines))
    return "/".join(f"{it:.1f}" if it < 100 else f"{it:,.0f}" for it in taken)


def main():
    parser = argparse.ArgumentParser()
    parser.add_argument("--loops", default="mailbox,polled,puts", help="which, or taken, passed, chacha (mailbox,polled,puts)")
    parser.add_argument("--shapes", default="plain")
    parser.add_argument("--tables", default="bits,unary,middle")
    parser.add_argument("--consumers", default="1,2,4,16,64")
    parser.add_argument("--keep", action="store_true", help="count the programs of the last run, with no build")
    options = parser.parse_args()
    if not options.keep:
        build()
    print(f"{measuring.machine()}\n\nThe libraries/by hand, with so many consumers:\n")
    columns = options.consumers.split(",")
    print(f"| Loop, unit | Table | {' | '.join(columns)} |\n" + "|---" * (len(columns) + 2) + "|")
    choices = (options.loops, options.shapes, options.tables)
    for loop, shape, table in itertools.product(*(words.split(",") for words in choices)):
        name = loop if shape == "plain" else f"{loop} {shape}"
        print(f"| {name}, {UNITS[loop]} | {table} |", end="", flush=True)
        for consumers in columns:
            print(f" {row(loop, (table, consumers, shape))} |", end="", flush=True)
        print()


if __name__ == "__main__":
    main()
