#!/usr/bin/env python3
"""The channel beside those that people know: nanoseconds and instructions a value.

usage: bench/channels.py [--rounds 11] [--values 500000] [--counts] [--only hazbultra,proved,crossbeam]

Nanoseconds are medians of interleaved rounds, without the making of a channel. A x B is A threads that send and B that
receive. With 4 x 16 there is also the 99th percentile of the time from send to receive. A row divides our figures by those
of crossbeam-channel.
Instructions are callgrind's, of a send and a receive, in one thread. With --counts there are no nanoseconds. With --only there
are these channels and no others, crossbeam among them. On four idle processors it takes three minutes. It wants cargo, cc,
valgrind, and crossbeam-channel, flume and async-channel of Debian.

Of all channels it first prints the last rows of the README's table. One has the bytes that one more `u64` takes while it waits, by the memory
resident at the peaks of two runs that send all values before they receive one. The others divide the nanoseconds of each
channel by those of crossbeam-channel, and have the least and the largest ratio over all A x B.
"""
import argparse

import measuring

PROGRAM = measuring.ROOM / "release" / "beside_channels"
CHANNELS = {"hazbultra": "`hazbultra::channel`", "proved": "the channel for C", "crossbeam": "`crossbeam-channel`", "flume": "`flume`",
            "async": "`async-channel`", "std": "`std::sync::mpsc`, a lock",
            "hazbultra-100": "`hazbultra::channel`, bound 100", "crossbeam-100": "`crossbeam-channel`, bound 100"}
# Whose figures each of ours are divided by.
BESIDE = {"hazbultra": "crossbeam", "proved": "crossbeam", "hazbultra-100": "crossbeam-100"}
# Those of the README's table.
SHOWN = ("hazbultra", "crossbeam", "flume", "async", "std")
# What is sent: a number, four numbers, or a number in a box.
SENT = ("u64", "quad", "box")
THREADS = ((1, 1), (2, 2), (4, 4), (1, 4), (4, 1), (4, 16))
COUNTED = (2000, 12000)
# How many values two runs keep whose memory is compared. Both take more than this script: a child begins with its memory.
KEPT = (1 << 21, 1 << 22)


def told(*words):
    return [int(it) for it in measuring.used((PROGRAM, *words))[2].split()]


def counts(what, sent):
    """The instructions of a value that is received before the next is sent, and of one of many that are sent first."""
    for way in ("relay", "turns"):
        if way == "turns" and what.endswith("-100"):
            yield "–"  # (there is no room for all)
            continue
        yield measuring.by_item(*COUNTED, lambda values: measuring.instructions((PROGRAM, what, sent, way, 1, 1, values)))


def kept(what):
    """The bytes of a `u64` that waits."""
    return measuring.by_item(*KEPT, lambda values: measuring.used((PROGRAM, what, "u64", "turns", 1, 1, values))[1])


def ratios(took, what, sent, base="crossbeam"):
    """The least and the largest ratio of a channel's time to that of another, over all numbers of threads."""
    if what == base:
        return "1"
    each = [took[what, sent, it] / took[base, sent, it] for it in THREADS]
    return " to ".join(f"{it:.1f}" if it < 10 else f"{it:.0f}" for it in (min(each), max(each)))


def front(took):
    """The rows of the README."""
    bytes_row = ["bytes for each `u64` that waits", *map(kept, SHOWN)]
    named = {"u64": "time, `u64`", "quad": "time, `[u64; 4]`", "box": "time, each value a `Box`"}
    rows = [[named[sent], *(ratios(took, it, sent) for it in SHOWN)] for sent in SENT]
    return measuring.table(["", *map(CHANNELS.get, SHOWN)], [bytes_row, *rows])


def main():
    parser = argparse.ArgumentParser()
    parser.add_argument("--rounds", type=int, default=11)
    parser.add_argument("--values", type=int, default=500_000)
    parser.add_argument("--counts", action="store_true")
    parser.add_argument("--only", default=",".join(CHANNELS))
    options = parser.parse_args()
    channels = [it for it in CHANNELS if it in options.only.split(",")]
    measuring.cargo("bench/beside_channels")
    print(measuring.machine(), end="\n\n")
    runs, late = {}, {}
    for what in channels if not options.counts else ():
        for sent in SENT:
            for threads in THREADS:
                def run(what=what, sent=sent, threads=threads):
                    took, way = told(what, sent, "threads", *threads, options.values)
                    late.setdefault((what, sent, threads), []).append(way)
                    return took / options.values
                runs[what, sent, threads] = run
    took = measuring.medians(options.rounds, runs)
    if not options.counts and {*SHOWN} <= {*channels}:
        print(front(took), end="\n\n", flush=True)
    head, rows = ["A value", "instructions: one at a time", "all sent first"], []
    if not options.counts:
        head += [f"ns: {senders} x {receivers}" for senders, receivers in THREADS] + ["µs: 99th percentile of 4 x 16"]
    for sent in SENT:
        for what in channels:
            row = [f"{CHANNELS[what]}, {sent}", *counts(what, sent)]
            if not options.counts:
                row += [took[what, sent, it] for it in THREADS]
                row.append(sorted(late[what, sent, THREADS[-1]])[options.rounds // 2] / 1000)
            rows.append(row)
        figures = {row[0]: row[1:] for row in rows}
        for what, other in BESIDE.items():
            ours, theirs = (figures.get(f"{CHANNELS[it]}, {sent}") for it in (what, other))
            if ours and theirs:
                by = ["–" if isinstance(it, str) else f"{it / other:.2f}" for it, other in zip(ours, theirs)]
                rows.append([f"{CHANNELS[what]}, {sent}, by crossbeam's", *by])
    print(measuring.table(head, rows))


if __name__ == "__main__":
    main()
