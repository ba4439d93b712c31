#!/usr/bin/env python3
"""Refuses each growth of memory, and then each start of a thread, of whole runs of the program, in turn.

    bench/refuse_growths.py                     # after ./mailbox --build; wants a C compiler
    bench/refuse_growths.py --program PATH

A small library stands before the C library's `malloc`, `realloc` and `pthread_create` (`LD_PRELOAD`). It refuses the call of
one number, or all calls from one number on. So clap's growths are refused too, and those inside the start of a thread, which
no test of the gate can reach. Each run has to end, and either do what it does with memory, or have status 3, nothing on
standard output, and on standard error one line or none. The ends are counted, by what stood on standard error.
"""
import argparse
import collections
import os
import subprocess
import sys
import tempfile

TOP = os.path.dirname(os.path.dirname(os.path.abspath(__file__)))
LIMIT = 60  # seconds for one run
SERVED_IN_A_ROW = 50  # so many runs are served in a row before a sweep ends
ONE_CONSUMER = ["run", "--producers", "1", "--consumers", "1", "--items", "2", "--pairs", "1"]
FOUR_CONSUMERS = ["run", "--producers", "4", "--consumers", "4", "--items", "4"]
HELP = ["run", "--help"]
# How many first words of a line are the same in each run, by the line's first word. Of a `lane` all are.
FIXED = {"lane": None, "left": 2, "diary": 3}
LIBRARY = """
#define _GNU_SOURCE
#include <dlfcn.h>
#include <errno.h>
#include <pthread.h>
#include <stdatomic.h>
#include <stdlib.h>

static atomic_long asked, started;

static int is_named(const char *name, long number, int later) {
    const char *text = getenv(name);
    return text && (number == atol(text) || (later && number > atol(text)));
}

static int is_refused(void) {
    long number = atomic_fetch_add(&asked, 1) + 1;
    return is_named("REFUSE_ONLY", number, 0) || is_named("REFUSE_FROM", number, 1);
}

void *malloc(size_t size) {
    void *(*below)(size_t) = dlsym(RTLD_NEXT, "malloc");
    return is_refused() ? NULL : below(size);
}

void *realloc(void *old, size_t size) {
    void *(*below)(void *, size_t) = dlsym(RTLD_NEXT, "realloc");
    return is_refused() ? NULL : below(old, size);
}

int pthread_create(pthread_t *thread, const pthread_attr_t *attr, void *(*run)(void *), void *arg) {
    int (*below)(pthread_t *, const pthread_attr_t *, void *(*)(void *), void *) = dlsym(RTLD_NEXT, "pthread_create");
    long number = atomic_fetch_add(&started, 1) + 1;
    return is_named("REFUSE_THREAD", number, 0) ? EAGAIN : below(thread, attr, run, arg);
}
"""


def built(folder):
    """Builds the small library, and returns its path."""
    with open(f"{folder}/refuse.c", "w", encoding="utf-8") as file:
        file.write(LIBRARY)
    subprocess.run(["cc", "-O1", "-shared", "-fPIC", "-o", f"{folder}/refuse.so", f"{folder}/refuse.c", "-ldl"], check=True)
    return f"{folder}/refuse.so"


def fixed_part(text):
    """The report without the words that say who took what: with more consumers than one they differ from run to run."""
    return [words[:FIXED[words[0]]] for words in map(str.split, text.splitlines())]


def sweep(program, words, library, name, is_served):
    """How the runs end in which request 1, 2 and so on is refused, until so many in a row are served."""
    ends, served, number = collections.Counter(), 0, 0
    while served < SERVED_IN_A_ROW:
        number += 1
        env = {**os.environ, "LD_PRELOAD": library, name: str(number)}
        run = subprocess.run([program, *words], env=env, capture_output=True, text=True, timeout=LIMIT)
        if run.returncode == 0 and run.stderr == "" and is_served(run.stdout):
            served += 1
            continue
        if run.returncode != 3 or run.stdout or len(run.stderr.splitlines()) > 1:
            sys.exit(f"{name}={number}: status {run.returncode}, {run.stdout!r}, {run.stderr!r}")
        ends[run.stderr.strip() or "no line"] += 1
        ends["served"] += served
        served = 0
    if not ends:
        sys.exit(f"{name}: no run was refused anything")
    return ends


def main():
    parser = argparse.ArgumentParser(description=__doc__.splitlines()[0])
    parser.add_argument("--program", default=f"{TOP}/crates/mailbox_main/out/mailbox_main")
    program = parser.parse_args().program
    with tempfile.TemporaryDirectory() as folder:
        library = built(folder)
        for words in (ONE_CONSUMER, FOUR_CONSUMERS, HELP):
            whole = subprocess.run([program, *words], capture_output=True, text=True, timeout=LIMIT, check=True).stdout
            part = fixed_part if words is FOUR_CONSUMERS else str
            for name in ("REFUSE_ONLY", "REFUSE_FROM", "REFUSE_THREAD")[:2 if words is HELP else 3]:
                ends = sweep(program, words, library, name, lambda text: part(text) == part(whole))
                said = ", ".join(f"{end}: {count}" for end, count in ends.items() if count)
                print(f"{' '.join(words)}: {name}: {said}")


if __name__ == "__main__":
    main()
