"""What fleet and fill say is so: of jobs that the server refused, servers without JetStream, and streams that go."""
import re
import shutil
import signal
import time

from harness import Server, end, expect_each, fill, fleet, rows, start_fill, table, value, wait


def fill_counts():
    """`fill` counts what the server stored, says why the rest was not, and ends with status 1."""
    server = Server("fill", jets="max_file_store: 1000000")
    said = fill(server, "STORE", range(50000), status=1)
    stored = server.left("STORE")
    assert 0 < stored < 50000 and f"of 50000 jobs {stored} went into" in said, said
    assert f"{50000 - stored} jobs are not stored: " in said and "resource" in said, said
    server.ask("STREAM.DELETE.STORE")
    limits = ("max_msgs", 100, "maximum messages"), ("max_bytes", 5000, "maximum bytes"), ("max_msg_size", 60, "message size")
    for limit, size, reason in limits:
        server.make(limit, **{limit: size, "max_file_store": 0})
        said = fill(server, limit, ["short", "x" * 60] * 100, status=1)
        stored = server.left(limit)
        assert 0 < stored < 200 and f"of 200 jobs {stored} went into" in said, (stored, said)
        assert f"{200 - stored} jobs are not stored: {reason}" in said, said
    server.make("OLD", discard="old", max_msgs=10)
    said = fill(server, "OLD", range(20), status=1)
    assert "drops old jobs when it is full" in said and server.left("OLD") == 0, said


def fill_again():
    """A second fill of a name adds nothing twice, also after the server was killed midway. Two equal jobs are two."""
    server = Server("ids")
    server.make("IDS", duplicate_window=120 * 10**9)
    assert "of 3 jobs 3 went into" in fill(server, "IDS", [5, 5, 6])
    assert "0 went into the stream IDS, and 3 were known\n" in fill(server, "IDS", [5, 5, 6])
    assert "of 1 jobs 1 went into" in fill(server, "IDS", [5], name="two")
    assert server.left("IDS") == 4 and server.ask("STREAM.INFO.IDS")["config"]["duplicate_window"] == 86400 * 10**9
    fill(server, "IDS", [7], "--window", 100000, name="three")
    assert server.ask("STREAM.INFO.IDS")["config"]["duplicate_window"] == 100000 * 10**9
    process = fleet(server, "IDS")
    wait(lambda: server.left("IDS") == 0)
    server.kill(signal.SIGTERM)
    server.start()
    for name, jobs in ("one", [5, 5, 6, 8]), ("two", [5]):
        fill(server, "IDS", jobs, name=name)
    wait(lambda: server.left("IDS") == 0)
    end(process)
    assert sorted(job for job, _ in rows("IDS")) == [5, 5, 5, 6, 7, 8], "jobs that are done were added again"
    process = start_fill(server, "BROKEN")
    text = "".join(f"{it}\n" for it in range(150000))
    process.stdin.write(text[: len(text) // 2])
    process.stdin.flush()
    server.kill()
    process.stdin.close()
    process.stdin = None
    said = end(process, 0, 1)
    sent, known = map(int, re.search(r"of (\d+) jobs (\d+) went into", said).groups())
    assert 0 < sent < 150000 and known <= sent and "the server went away" in said, said
    server.start()
    assert server.left("BROKEN") >= known
    fill(server, "BROKEN", range(150000))
    assert server.left("BROKEN") == 150000


def no_jetstream():
    """Without JetStream there is one line, and status 1. So it is if the server comes back without."""
    server = Server("plain", jets=None)
    said = end(fleet(server, "JOBS"), 0, 1)
    assert "has no JetStream" in said and said.count("\n") == 1, said
    said = fill(server, "JOBS", [1], status=1)
    assert "has no JetStream" in said and said.count("\n") == 1, said
    whole = Server("whole")
    fill(whole, "WHOLE", [1])
    process = fleet(whole, "WHOLE", ack=2)
    wait(lambda: whole.left("WHOLE") == 0)
    whole.kill()
    Server("halved", jets=None, port=whole.port)
    assert "has no JetStream any more" in end(process, 0, 1)


def consumer_of_others():
    """A consumer that is not as the fleet needs it is found at start: one line, and status 1. Without it all jobs run."""
    server = Server("consumer")
    server.make("OTHER", subjects=["OTHER", "MORE"], retention="limits")
    fill(server, "OTHER", range(3))
    settings = [("ack_policy", "none"), ("ack_policy", "all"), ("deliver_policy", "new"), ("filter_subject", "MORE")]
    settings += [("max_deliver", 5), ("headers_only", True), ("deliver_subject", "here"), ("replay_policy", "original")]
    settings += [("max_batch", 5), ("max_expires", 10**9), ("max_bytes", 1000), ("ack_wait", 7 * 10**9)]
    for name, setting in settings:
        config = {"durable_name": "fleet", "ack_policy": "explicit", "deliver_policy": "all", name: setting}
        answer = server.ask("CONSUMER.DURABLE.CREATE.OTHER.fleet", stream_name="OTHER", config=config)
        assert "error" not in answer, answer
        if name != "ack_wait":  # (which the fleet changes)
            said = end(fleet(server, "OTHER"), 0, 1)
            assert f"has a {name} that will not do" in said and said.count("\n") == 1, said
            server.ask("CONSUMER.DELETE.OTHER.fleet")
    process = fleet(server, "OTHER")
    wait(lambda: len(rows("OTHER")) == 3)
    end(process)


def stream_goes():
    """A stream that is deleted while the process has jobs: one line, and status 1."""
    server = Server("goes")
    fill(server, "GOES", range(5000))
    process = fleet(server, "GOES", "--pause", 100, "--batch", 1024, ack=4)
    wait(lambda: len(rows("GOES")) > 20)
    server.ask("STREAM.DELETE.GOES")
    lines = [it for it in end(process, 0, 1).splitlines() if it.startswith("fleet: ")]
    assert lines == ["fleet: the stream GOES or its consumer fleet is gone"], lines[:5]


def jobs_of_any_bytes():
    """Bad jobs are ended. A job is as long as it is, also if a byte is NUL, and the runner gets delivery and id."""
    server = Server("bytes")
    bad = ["banana", "-1", "+1", " 1", "1.5", "", "18446744073709551616", "x" * 900, "\x1b[1m", "7\0garbage", "7\0", "\0"]
    fill(server, "BAD", [7, *bad, 8, "9" * 5000])
    process = fleet(server, "BAD", ack=2)
    wait(lambda: server.left("BAD") == 0)
    said = end(process)
    expect_each("BAD", (7, 8))
    assert said.count("a job is no number") == len(bad) + 1 and value(said, "bad") == len(bad) + 1, said
    assert sorted(it[3:] for it in table("BAD")) == [["1", "one:1"], ["1", f"one:{len(bad) + 2}"]]


def server_killed():
    """After a SIGKILL of the server each job ran, and none stays. A change of --ack needs no new consumer."""
    server = Server("killed")
    fill(server, "KILLED", range(15000))
    processes = [fleet(server, "KILLED", ack=4) for _ in range(2)]
    wait(lambda: len(rows("KILLED")) > 7000)
    server.kill()
    time.sleep(1)
    server.start()
    wait(lambda: server.left("KILLED") == 0, 60)
    made = server.consumer("KILLED")["created"]
    other = fleet(server, "KILLED", ack=7)
    wait(lambda: server.consumer("KILLED")["config"]["ack_wait"] == 7 * 10**9, 10)
    assert server.consumer("KILLED")["created"] == made
    said = "".join(end(it) for it in (*processes, other))
    again, stayed = expect_each("KILLED", range(15000), 15000), "had stayed in the stream" in said
    print(f"fleet: after a kill of the server {again} of 15000 jobs ran again in another process, {stayed = }")


def numbers_again():
    """A server lost its newest jobs, and not that they were acknowledged. Jobs with their numbers stay, until they run."""
    server, messages = Server("numbers"), "numbers.store/jetstream/$G/streams/NUMBERS/msgs"
    fill(server, "NUMBERS", range(5))
    process = fleet(server, "NUMBERS", ack=1)
    wait(lambda: server.left("NUMBERS") == 0)
    server.kill(signal.SIGTERM)
    shutil.copytree(messages, "numbers.older")
    server.start()
    fill(server, "NUMBERS", range(5, 10), name="two")
    wait(lambda: server.left("NUMBERS") == 0)
    server.kill(signal.SIGTERM)
    shutil.rmtree(messages)
    shutil.copytree("numbers.older", messages)
    server.start()
    fill(server, "NUMBERS", range(10, 13), name="three")
    time.sleep(2)
    end(process)
    assert server.left("NUMBERS") == 3, "jobs that did not run were removed"
    server.ask("CONSUMER.DELETE.NUMBERS.fleet")
    process = fleet(server, "NUMBERS")
    wait(lambda: server.left("NUMBERS") == 0)
    end(process)
    expect_each("NUMBERS", range(13))


def drain():
    """A process that is to stop gives back what waits at once. It ends in time, and says what the server was not told."""
    server = Server("drain")
    fill(server, "DRAIN", range(300))
    slow = fleet(server, "DRAIN", "--pause", 4000)
    wait(lambda: server.held("DRAIN") == 64)
    time.sleep(0.5)  # (until four of them run)
    slow.send_signal(signal.SIGTERM)
    other = fleet(server, "DRAIN")
    wait(lambda: len(rows("DRAIN")) >= 296, 3)
    assert len(rows("DRAIN")) == 296  # (all but the four that still run)
    said = end(slow, 0)
    assert value(said, "done") == 4 and value(said, "unsettled") == 0 and value(said, "given back") == 60, said
    end(other)
    expect_each("DRAIN", range(300))
    for stream, most, line in ("TIME", 2, "the time to drain is over"), ("SECOND", 0.5, "a second signal"):
        fill(server, stream, range(100))
        process = fleet(server, stream, "--pause", 2000, "--drain", 2)
        wait(lambda: server.held(stream) == 64)
        time.sleep(0.3)  # (until the process has them)
        server.process.send_signal(signal.SIGSTOP)
        time.sleep(0.3)  # (until all threads of the server have stopped)
        began = time.monotonic()
        process.send_signal(signal.SIGTERM)
        time.sleep(0.3)
        said = end(process, signal.SIGTERM if stream == "SECOND" else 0, 3)
        assert time.monotonic() - began < most + 1 and line in said, said
        assert value(said, "unsettled") == 64 and value(said, "given back") == 0, said
        server.process.send_signal(signal.SIGCONT)


parts = [fill_counts, fill_again, no_jetstream, consumer_of_others, stream_goes, jobs_of_any_bytes, server_killed, numbers_again, drain]
