#!/usr/bin/env python3
"""Runs builds of test_channel in little memory: ci/channel_memory.py PROGRAM..

Memory has to stay flat: with ten times as many values a build's peak is a little higher at most. The least of several peaks
counts, since a thread that the system stops inside a segment keeps those behind it. Then each build runs in so few addresses that
threads or memory are refused, in steps from the first in which it can begin. Each run has to end, with all values accounted for or
for want of memory. One has to lack memory, and the last one not. The last line is `N passed, N failed`.
"""
import os
import re
import resource
import subprocess
import sys
import time

FEW, MANY, RUNS, HIGHER = 100_000, 1_000_000, 5, 2 << 20  # values, runs with each, and bytes
# Bytes of a thread's stack, bytes that each run has more, how many runs have too little, and bytes that are enough.
STACK, STEP, STEPS, ENOUGH = 256 << 10, 128 << 10, 24, 64 << 20
LIMIT = 60  # seconds for one run
QUIET = {"stdin": subprocess.DEVNULL, "stdout": subprocess.DEVNULL, "stderr": subprocess.DEVNULL}
WELL, USAGE, NO_MEMORY = 0, 2, 3  # what the program ends with


def peak(program, values):
    """The most bytes that were resident in a soak of so many values, as was last seen, or nothing if it failed."""
    most = 0
    with subprocess.Popen([program, "1", str(values), "0"], **QUIET) as ran:
        while ran.poll() is None:
            with open(f"/proc/{ran.pid}/status", encoding="utf-8") as file:
                seen = re.search(r"^VmHWM:\s*(\d+) kB", file.read(), re.M)
            most = int(seen[1]) << 10 if seen else most
            time.sleep(0.005)
    return most if ran.returncode == WELL else None


def ends(program, addresses, *words):
    """With what a run in so many bytes of addresses ends, if it does."""
    # (with one arena the C library reserves no addresses for the memory of single threads)
    env = {**os.environ, "MALLOC_ARENA_MAX": "1"}
    limits = ((resource.RLIMIT_STACK, STACK), (resource.RLIMIT_AS, addresses))
    put = lambda: [resource.setrlimit(kind, (size, resource.getrlimit(kind)[1])) for kind, size in limits]
    try:
        return subprocess.run([program, *words], **QUIET, env=env, preexec_fn=put, timeout=LIMIT, check=False).returncode
    except subprocess.TimeoutExpired:
        return f"not after {LIMIT} seconds"


def faults(program):
    """What went wrong with a build, in words."""
    few, many = ([peak(program, values) for _ in range(RUNS)] for values in (FEW, MANY))
    if not all(few + many) or min(few) + HIGHER < min(many):
        yield f"peaks of {MANY} values are {many} bytes, and of {FEW} values {few}"
    least = next((it for it in range(1 << 20, 1 << 26, STEP) if ends(program, it) == USAGE), None)
    if not least:
        yield "it cannot begin"
        return
    limits = [*(least + it * STEP for it in range(STEPS)), ENOUGH]
    ended = [ends(program, it, "1", "20000", "20") for it in limits]
    if set(ended) != {WELL, NO_MEMORY} or ended[-1] != WELL:
        yield f"in {STEPS} steps of {STEP} bytes, and then with enough, it ends with {', '.join(map(str, ended))}"


def main(programs):
    told = [(os.path.basename(it), *faults(it)) for it in programs]
    print("".join(f"{name}: {fault}\n" for name, *found in told for fault in found), end="")
    failed = sum(len(it) > 1 for it in told)
    print(f"{len(told) - failed} passed, {failed} failed")
    return failed != 0


if __name__ == "__main__":
    sys.exit(main(sys.argv[1:]) if sys.argv[1:] else "ci/channel_memory.py PROGRAM..")
