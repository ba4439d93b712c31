#!/usr/bin/env python3
"""What each call costs in mailboxes of 2^8, 2^14 and 2^20 cells, in instructions.

usage: bench/by_cells.py [--cells 256,16384,1048576] [--keep]

`by_cells.c` fills a mailbox of 2 producers and 2 consumers, plain cells, `bits` and 4 pairs, and polls each item. callgrind counts each call of
the library with all that it calls. A call that is made again and again has its mean. With --keep the program of the last run is taken
as it is. It wants cc and valgrind.
"""
import argparse
import re
import subprocess

import measuring

PROGRAM = measuring.ROOM / "by_cells"
CALLS = {
    "hz_mailbox_new": "`new`", "hz_producer_new": "a producer is issued", "hz_consumer_new": "a consumer is issued", "hz_put": "a put",
    "hz_poll": "a poll that takes", "hz_finish": "`finish`", "hz_take_back": "a producer or consumer is returned", "hz_gather": "`gather`",
    "hz_report_size": "the size of a report", "hz_report_lane": "a lane of a report", "hz_report_diary": "a diary of a report",
}


def means(annotated):
    """The mean instructions of each call of the library, from what callgrind_annotate prints of the caller's lines."""
    told = {}
    for cost, call, times in re.findall(r"^\s*([\d,]+) .*=> \S*:(hz_\w+) \(([\d,]+)x\)", annotated, re.M):
        made, taken = told.get(call, (0, 0))
        told[call] = made + int(times.replace(",", "")), taken + int(cost.replace(",", ""))
    return {call: taken / made for call, (made, taken) in told.items()}


def calls(cells):
    """The mean instructions of each call in the life of a mailbox."""
    found = measuring.ROOM / "callgrind.out"
    valgrind = ["valgrind", "--tool=callgrind", f"--callgrind-out-file={found}", PROGRAM, str(cells)]
    subprocess.run(valgrind, check=True, capture_output=True)
    told = ["callgrind_annotate", "--inclusive=yes", "--threshold=100", found]
    return means(subprocess.run(told, check=True, capture_output=True, text=True).stdout)


def main():
    parser = argparse.ArgumentParser()
    parser.add_argument("--cells", default="256,16384,1048576")
    parser.add_argument("--keep", action="store_true")
    options = parser.parse_args()
    if not options.keep:
        measuring.compiled(measuring.TOP / "bench" / "by_cells.c")
    sizes = [int(word) for word in options.cells.split(",")]
    told = {cells: calls(cells) for cells in sizes}
    rows = [(name, *(told[cells][call] for cells in sizes)) for call, name in CALLS.items()]
    for call in ("hz_mailbox_new", "hz_gather"):
        rows.append((f"{CALLS[call]}, a cell", *(told[cells][call] / cells for cells in sizes)))
    print(measuring.table(("Instructions", *(f"{cells:,} cells" for cells in sizes)), rows))


if __name__ == "__main__":
    main()
