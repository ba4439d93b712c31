#!/usr/bin/env python3
"""Tests the fleet with real servers. Files of effects show which jobs ran. The parts run at a time.

Usage: test.py [JOBS OF THE LONG RUN [PART ..]]. With 100000 jobs or more the long run kills ten processes and the server.
"""
import os
import shutil
import signal
import subprocess
import sys
import tempfile
import threading
import time
import traceback

import operating
import truth
from harness import HELD, Server, end, expect_each, fill, fleet, rows, started, value, wait

HERE = os.path.dirname(os.path.abspath(__file__))
LONG = int(sys.argv[1]) if sys.argv[1:] else 20000


def long_run():
    """One of three processes is killed and started again. Then the server is away for ten seconds."""
    server = Server("long")
    fill(server, "LONG", range(LONG))
    processes = [fleet(server, "LONG", "--cells", cells, ack=15) for cells in (50, 1000, 4096)]
    wait(lambda: len(rows("LONG")) > LONG // 3)
    end(processes[0], signal.SIGKILL, -signal.SIGKILL)
    processes[0] = fleet(server, "LONG", ack=15)
    wait(lambda: len(rows("LONG")) > LONG * 2 // 3)
    server.kill(signal.SIGTERM)
    time.sleep(10)
    server.start()
    wait(lambda: server.left("LONG") == 0)
    for said in map(end, processes):
        assert "the server is away" in said and "the server is back" in said, said
    print(f"fleet: of {LONG} jobs {expect_each('LONG', range(LONG), 4 * HELD)} ran again in another process")


def many_kills():
    """Ten kills of processes, each at another moment, and one of the server. The table of effects has each job."""
    server = Server("kills")
    fill(server, "KILLS", range(LONG))
    processes = [fleet(server, "KILLS", "--max-tries", 5, ack=5) for _ in range(3)]
    kills = [LONG * (at + 1) // 13 for at in range(12)]
    for number, at in enumerate(kills):
        wait(lambda at=at: len(rows("KILLS")) > at, 60)
        if number == 6:
            server.kill()
            time.sleep(1)
            server.start()
        elif number < 11:
            end(processes[number % 3], signal.SIGKILL, -signal.SIGKILL)
            processes[number % 3] = fleet(server, "KILLS", "--max-tries", 5, ack=5)
    wait(lambda: server.left("KILLS") == 0, 60)
    said = [end(it) for it in processes]
    again = expect_each("KILLS", range(LONG), LONG)
    assert server.left("KILLS-dead") == 0, "a job that was only killed with its process is dead"
    print(f"fleet: of {LONG} jobs {again} ran again in another process, after ten kills and one of the server")
    print(f"fleet: {sum('had stayed in the stream' in it for it in said)} processes removed jobs that stayed")


def handed_out_again():
    """Jobs longer than --ack run once. If their process is stopped for so long, it drops them when they come again."""
    server = Server("again")
    fill(server, "AGAIN", range(20))
    process = fleet(server, "AGAIN", "--pause", 1300, ack=1)
    wait(lambda: len(rows("AGAIN")) >= 4)
    process.send_signal(signal.SIGSTOP)
    time.sleep(2.5)
    process.send_signal(signal.SIGCONT)
    wait(lambda: server.left("AGAIN") == 0)
    dropped = value(end(process), "dropped")
    assert 0 < dropped <= 20, f"{dropped} jobs were handed out again, and not those that it had when it was stopped"
    expect_each("AGAIN", range(20))


def stop_in_the_middle():
    """A process gives back what fails, and all it has if it is stopped or gets no memory. The next gets it at once."""
    server = Server("stop")
    fill(server, "STOP", range(9000))
    full = fleet(server, "STOP", "--effects", "/dev/full")
    wait(lambda: "is given back" in full.stderr.readline())
    end(full)
    stopped = fleet(server, "STOP", "--pause", 1)
    wait(lambda: len(rows("STOP")) >= 50)
    end(stopped)
    lacking = fleet(server, "STOP", "--cells", 4000, "--pause", 1)
    wait(lambda: lacking.pid in (it for _, it in rows("STOP")))
    subprocess.run(["prlimit", f"--pid={lacking.pid}", f"--data={1 << 20}"], check=True)
    said = end(lacking, 0, 1)
    assert "no memory" in said.lower() and value(said, "given back") > 0 and len(rows("STOP")) < 9000, said
    assert value(said, "unsettled") == 0, said
    last = fleet(server, "STOP")
    wait(lambda: server.left("STOP") == 0, 10)
    end(last)
    expect_each("STOP", range(9000))


def refusals():
    """At a wrong option, a fault or too little memory a process prints one line on standard error, and its status says so."""
    server = Server("refusals")
    fill(server, "STOP", range(10))
    cases = [(1, "No server available", "--server", it) for it in ("nats://127.0.0.1:1", "nonsense:")]
    cases += [(2, "give 1 to 64", "--workers", it) for it in ("0", "65", "many", "-1", "", "99999999999999999999")]
    cases += [(2, "give 1 to 1024", "--batch"), (2, "there is no such option", "--colour", "red")]
    cases += [(1, "stream not found", "--stream", "NONE"), (2, "no such name", "--stream", "A.B")]
    cases += [(1, "No such file or directory", "--effects", "no/folder"), (2, "give 2 to 1000", "--max-tries", 1)]
    cases += [(1, "No such file or directory", "--user", "i", "--password", "none"), (1, "", "--ca", "none")]
    for status, line, *words in cases:
        said = end(fleet(server, "STOP", *words), 0, status)
        assert line in said and said.count("\n") == 1, f"{words}: {said}"
    for kind, size in (("as", 24), ("as", 64), ("data", 16)):
        said = end(fleet(server, "STOP", before=("prlimit", f"--{kind}={size << 20}")), 0, 1)
        assert said.startswith("fleet: ") and said.count("\n") == 1, f"{size} MB: {said}"
    for program in "fleet", "fill", "dead":
        for word, line in ("--help", "--server "), ("--version", f"{program} 0.1.0, with libnats 3."):
            said = subprocess.run([f"./{program}", word], check=True, capture_output=True, text=True).stdout
            assert line in said, said


def run_parts(parts):
    """Runs all parts at a time. Returns whether all passed."""
    failed = []

    def run_one(part):
        began = time.monotonic()
        try:
            part()
            print(f"fleet: {part.__name__}: passed, {time.monotonic() - began:.0f} s", flush=True)
        except BaseException:  # (also those of asserts: the other parts go on)
            failed.append(part.__name__)
            print(f"fleet: {part.__name__}: FAILED\n{traceback.format_exc()}", flush=True)

    threads = [threading.Thread(target=run_one, args=(it,)) for it in parts]
    for it in threads:
        it.start()
    for it in threads:
        it.join()
    return not failed


def main():
    os.environ["PATH"] += ":/usr/sbin"  # (where Debian has the server)
    if not shutil.which("nats-server") or not os.path.exists("/usr/include/nats/nats.h"):
        print(f"fleet: SKIPPED: there is no {'libnats-dev' if shutil.which('nats-server') else 'nats-server'}")
        return 0
    parts = [long_run, handed_out_again, stop_in_the_middle, refusals, *truth.parts, *operating.parts]
    parts += [many_kills] if LONG >= 100000 else []
    with tempfile.TemporaryDirectory() as room:
        subprocess.run(["make", "-s", "-C", HERE, f"BUILD={room}"], check=True)
        os.chdir(room)
        try:
            return not run_parts([it for it in parts if it.__name__ in (sys.argv[2:] or it.__name__)])
        finally:
            for process in started:
                process.kill()
                process.wait()


if __name__ == "__main__":
    sys.exit(main())
