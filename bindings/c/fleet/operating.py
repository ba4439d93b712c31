"""What an operator asks for: a limit of tries, backoff, metrics, several addresses, TLS, and that the page is right."""
import base64
import collections
import os
import re
import shutil
import signal
import subprocess
import time

from harness import HELD, Server, dead, end, expect_each, fill, fleet, is_free, rows, table, value, wait

HERE = os.path.dirname(os.path.abspath(__file__))


def dead_letters(server, stream):
    """Of each dead letter its job, and its headers."""
    state = server.ask(f"STREAM.INFO.{stream}-dead")["state"]
    for number in range(state["first_seq"], state["last_seq"] + 1):
        message = server.ask(f"STREAM.MSG.GET.{stream}-dead", seq=number)["message"]
        job, headers = (base64.b64decode(message.get(it, "")).decode() for it in ("data", "hdrs"))
        yield job, dict(it.split(": ", 1) for it in headers.split("\r\n")[1:] if it)


def limit_of_tries():
    """Of 1,000 jobs 20 always fail, and two abort the process. The others are done, and the 22 dead letters say why. No job
    ends more processes than it has tries, by the line that each of these wrote about it."""
    server = Server("tries")
    failing, aborting = [f"fail {it}" for it in range(1, 21)], ["abort 21", "abort 22"]
    jobs = [*range(100, 100 + 978)]
    for at, job in enumerate([*failing, *aborting]):
        jobs.insert(40 + 43 * at, job)
    fill(server, "TRIES", jobs)
    more, processes, deaths = ("--max-tries", 3, "--backoff", 200), [], collections.Counter()
    while server.left("TRIES") > 0:
        running = sum(it.poll() is None for it in processes)
        processes += [fleet(server, "TRIES", *more, ack=1) for _ in range(3 - running)]
        time.sleep(0.05)
    for it in processes:
        it.terminate()
    said = ["".join(it.communicate(timeout=60)) for it in processes]
    for process, text in zip(processes, said):
        aborts = re.findall(r"job (\d+) aborts the process", text)
        assert (process.returncode, len(aborts)) in ((0, 0), (-6, 1)), f"{process.returncode}: {text}"
        deaths.update(aborts)
    expect_each("TRIES", range(100, 1078), 2 * HELD)  # (each of the two may end a process in the midst of others)
    assert {*deaths} == {"21", "22"} and max(deaths.values()) <= 3, f"processes ended by each job: {deaths}"
    letters = dict(dead_letters(server, "TRIES"))
    assert set(letters) == {*failing, *aborting} and server.left("TRIES-dead") == 22, letters
    for job, headers in letters.items():
        line = jobs.index(job) + 1
        reason = f"job {job[5:]} failed: as it says" if job in failing else "a job ended its process each time"
        assert headers["Fleet-Reason"] == reason and headers["Fleet-Tries"] == "3", headers
        assert headers["Fleet-Id"] == f"one:{line}" and headers["Fleet-Sequence"] == str(line), headers
    failures = collections.Counter(re.findall(r"job (\d+) failed", "".join(said)))
    # (a process may abort between the end of a run and the line about it)
    assert set(failures) == {str(it) for it in range(1, 21)} and 58 <= sum(failures.values()) <= 62, failures
    assert server.left("TRIES-tries") == 0, "records stay of jobs that left the stream"


def put_back():
    """`dead` shows each letter, and puts jobs back. They run as others do, and are not stored twice if it breaks off."""
    server, odd = Server("back"), "a\tb\\\0\n"
    for letters, more in ("BACK", {}), ("KEPT", {"deny_delete": True}):
        server.make(f"{letters}-dead", retention="limits", **more)
        fill(server, letters, [1, 2, odd[:-1]])
        process = fleet(server, letters, "--max-tries", 2, "--backoff", 100, "--effects", "/dev/full")
        wait(lambda: server.left(letters) == 0)
        end(process)
    shown = {it.split("\t")[4]: it.split("\t") for it in dead(server, "BACK").splitlines()}
    reason = "failed: No space left on device"
    assert [shown[it][1:4] for it in "12"] == [[f"one:{it}", "2", f"job {it} {reason}"] for it in "12"], shown
    assert shown["a\\x09b\\x5c\\x00"][1:4] == ["one:3", "1", "a job is no number"] and len(shown) == 3, shown
    for _ in range(2):
        said = dead(server, "KEPT", "--again", 2, status=1)
        assert "1 jobs went back, and the last one's letter 2 stays" in said and server.left("KEPT") == 1, said
    server.ask("STREAM.UPDATE.BACK", **{**server.ask("STREAM.INFO.BACK")["config"], "max_msgs": 1})
    assert "1 jobs went back into" in dead(server, "BACK", "--again", shown["1"][0])
    said = dead(server, "BACK", "--again", "all", status=1)
    assert "0 jobs went back, and letter " in said and "maximum messages" in said and said.count("\n") == 1, said
    server.ask("STREAM.UPDATE.BACK", **{**server.ask("STREAM.INFO.BACK")["config"], "max_msgs": -1})
    assert "2 jobs went back into" in dead(server, "BACK", "--again", "all") and dead(server, "BACK") == ""
    process = fleet(server, "BACK", "--max-tries", 2)
    for round in range(2):
        wait(lambda: server.left("BACK") == 0)
        ((job, headers),) = dead_letters(server, "BACK")
        assert job == odd[:-1] and re.fullmatch(r"again:\d+:\d{19}:one:3", headers["Fleet-Id"]), headers
        assert "1 jobs went back" in dead(server, "BACK", "--again", "all")
    end(process)
    expect_each("BACK", (1, 2))
    assert all(re.fullmatch(r"again:\d+:\d{19}:one:[12]", it[4]) for it in table("BACK")), table("BACK")
    for status, line, *words in (2, "--again 0: give the", "BACK", "--again", 0), (1, "letter 99: Not Found", "BACK", "--again", 99):
        said = dead(server, *words, status=status)
        assert line in said and said.count("\n") == 1, said


def largest():
    """The largest job that `fill` takes becomes a dead letter, and goes back. One that is a byte larger is refused."""
    server, stream, most = Server("largest", "max_payload: 5000"), "L" * 240, 5000 - 1024
    said = fill(server, stream, ["x" * most, "y" * (most + 1)], name="n" * 200, status=1)
    assert "of 2 jobs 1 went into" in said and server.left(stream) == 1, said
    assert f"1 jobs are not stored: longer than {most} bytes, they could not become dead letters\n" in said, said
    process = fleet(server, stream, "--max-tries", 1000)
    for _ in range(2):
        wait(lambda: server.left(stream) == 0)
        ((job, headers),) = dead_letters(server, stream)
        assert job == "x" * most
        length = len("NATS/1.0\r\n\r\n") + sum(len(f"{it}: {headers[it]}\r\n") for it in headers)
        # (what the longest reason, tries, sequences, line, and name of a stream would have more)
        assert length + 255 - len(headers["Fleet-Reason"]) + 3 + 4 * 19 + 10 <= 1024, length
        assert "1 jobs went back" in dead(server, stream, "--again", "all")
    end(process)


def alone():
    """Jobs that were given back run beside others. Those of a process that was killed run alone, and are not counted."""
    server = Server("alone")
    fill(server, "ALONE", range(400))
    first = fleet(server, "ALONE", "--max-tries", 2, "--pause", 30, ack=1)
    wait(lambda: len(rows("ALONE")) >= 20)
    assert value(end(first), "given back") > 20
    second = fleet(server, "ALONE", "--max-tries", 2, "--pause", 30, ack=1)
    wait(lambda: len(rows("ALONE")) >= 150)
    end(second, 9, -9)
    third = fleet(server, "ALONE", "--max-tries", 2, ack=1)
    wait(lambda: server.left("ALONE") == 0)
    end(third)
    expect_each("ALONE", range(400), 4)
    found = collections.Counter((int(pid), worker == "4", delivery) for _, pid, worker, delivery, _ in table("ALONE"))
    assert found[second.pid, False, "2"] > 20 and not any(is_alone for pid, is_alone, _ in found if pid != third.pid), found
    assert sum(found[third.pid, True, it] for it in ("2", "3")) <= HELD and found[third.pid, True, "2"] > 20, found
    assert found[third.pid, False, "1"] > 100 and found[third.pid, True, "1"] == 0, found
    assert server.left("ALONE-dead") == 0


def backoff():
    """The times between the tries of a job that fails double, with and without a limit of tries."""
    server = Server("backoff")
    for stream, *more in ("UNLIMITED",), ("LIMITED", "--max-tries", 6):
        fill(server, stream, ["fail 1"])
        process, times = fleet(server, stream, "--backoff", 100, *more), []
        while len(times) < 6:
            assert "job 1 failed" in process.stderr.readline()
            times.append(time.monotonic())
        end(process)
        # 0.1, 0.2, 0.4, 0.8 and 1.6 seconds: 3.1 together. (on a busy machine a line may be read half a second late)
        assert 2.6 < times[-1] - times[0] < 4.6 and times[-1] - times[-2] > 1.1, f"{stream}: {times}"


def read_metrics(path):
    """The values of a whole file of metrics."""
    with open(path, encoding="ascii") as file:
        lines = [it for it in file.read().splitlines() if not it.startswith("#")]
    return {re.sub("hazbultra_fleet_|_total", "", it.split("{")[0]): int(it.split()[1]) for it in lines}


def metrics():
    """Metrics are those of the table of effects. They are whole each time, and there is a line each `--every` seconds."""
    server = Server("metrics")
    fill(server, "METRICS", [*range(600), "banana", *(f"fail {it}" for it in range(5))])
    more = ("--every", 1, "--max-tries", 2, "--backoff", 100, "--pause", 40)
    processes = [fleet(server, "METRICS", "--metrics", f"metrics.{it}", *more) for it in range(2)]
    seen = []
    while server.left("METRICS") > 0:
        seen += [read_metrics(f"metrics.{it}") for it in range(2) if os.path.exists(f"metrics.{it}")]
        time.sleep(0.01)
    said = [end(it) for it in processes]
    assert any(0 < it["running"] <= 4 and it["waiting"] > 0 and it["connected"] == 1 for it in seen), seen[-1:]
    at_end = [read_metrics(f"metrics.{it}") for it in range(2)]
    found, ran = rows("METRICS"), collections.Counter(pid for _, pid in rows("METRICS"))
    assert [it["done"] for it in at_end] == [ran[it.pid] for it in processes] and sum(ran.values()) == len({*found}) == 600
    sums = {name: sum(it[name] for it in at_end) for name in at_end[0]}
    assert sums["failed"] == 10 and sums["bad"] == 1 and sums["redelivered"] == 5, sums
    assert sums["dead"] == 6 == server.left("METRICS-dead") and sums["waiting"] == sums["running"] == 0, sums
    for line, values in zip(said, at_end):
        reports = re.findall(r"^process \d+: done .*", line, re.M)
        assert len(reports) >= 3 and value(reports[-1], "done") == values["done"], line
        assert value(reports[0], "running") == 4 and value(reports[0], "done") < values["done"], line


def addresses_and_tls():
    """The first of two addresses is dead. Then TLS with a password: with a wrong one, or without, there is one line."""
    plain = Server("address")
    fill(plain, "ADDRESS", [1])
    process = fleet(plain, "ADDRESS", "--server", f"nats://127.0.0.1:1,{plain.url}")
    wait(lambda: plain.left("ADDRESS") == 0, 10)
    end(process)
    if not shutil.which("openssl"):
        print("fleet: SKIPPED: TLS: there is no openssl")
        return
    request = "openssl req -x509 -newkey rsa:2048 -nodes -keyout tls.key -out tls.crt -days 2 -subj /CN=localhost"
    subprocess.run([*request.split(), "-addext", "subjectAltName=IP:127.0.0.1"], check=True, capture_output=True)
    tls = 'tls { cert_file: "tls.crt", key_file: "tls.key" }\nauthorization { user: "worker", password: "a secret" }'
    server = Server("tls", tls)
    for name, password in ("right", "a secret"), ("wrong", "none"):
        with open(name, "w", encoding="ascii") as file:
            file.write(f"{password}\n")
    words = ("--user", "worker", "--ca", "tls.crt", "--password")
    fill(server, "TLS", range(50), *words, "right")
    process = fleet(server, "TLS", *words, "right", "--max-tries", 3)
    wait(lambda: len(rows("TLS")) == 50, 20)
    server.kill(signal.SIGTERM)
    server.start()
    fill(server, "TLS", range(50, 100), *words, "right", name="more")
    wait(lambda: len(rows("TLS")) == 100, 20)
    end(process)
    other = subprocess.run([*request.replace("tls.", "other.").split()], check=False, capture_output=True)
    assert other.returncode == 0
    cases = [(words + ("wrong",), "uthorization"), (("--ca", "tls.crt"), "uthorization"), ((), "SSL")]
    cases += [(("--user", "worker", "--password", "right", "--ca", "other.crt"), "SSL")]
    for more, line in cases:
        said = end(fleet(server, "TLS", *more), 0, 1)
        assert line in said and said.count("\n") == 1, f"{more}: {said}"


def fresh_user(words, **more):
    """Runs words as a user who is not root, if we are, in an environment of its own without /usr/sbin."""
    user = ["setpriv", "--reuid=65534", "--regid=65534", "--clear-groups"] if os.getuid() == 0 else []
    home = os.path.abspath("user")
    words = [*user, "env", "-i", f"HOME={home}", "PATH=/usr/local/bin:/usr/bin:/bin", *words]
    return subprocess.run(words, capture_output=True, text=True, check=True, **more).stdout


def page():
    """The page's commands, word for word, in a fresh user's shell beside Debian's own server on port 4222."""
    with open(f"{HERE}/README.md", encoding="utf-8") as file:
        first, second = re.findall(r"\n\n((?: {4}.*\n)+)", file.read())
    copy, above = "user/c/fleet", os.path.dirname(HERE)
    shutil.copytree(HERE, copy, ignore=shutil.ignore_patterns("build", "__pycache__"))
    for name in "hazbultra.h", "heap.c":
        shutil.copy(f"{above}/{name}", "user/c")
    shutil.copytree(f"{above}/../rust/prebuilt", "user/rust/prebuilt", symlinks=False)
    os.chmod(".", 0o755)
    subprocess.run(["chmod", "-R", "a+rwX", "user"], check=True)
    if is_free(4222):  # (else such a server is there)
        Server("debian", jets=None, port=4222)
    said = []
    for block in first, second:
        wait(lambda: is_free(4333))  # (until other tests of this machine have ended)
        said.append(fresh_user(["bash", "-m"], input=block, cwd=copy, timeout=300))
    numbers = [int(it) for it in said[0].splitlines() if it.isdigit()]
    jobs = int(re.search(r"seq 1 (\d+)", first).group(1))
    assert jobs <= numbers[0] <= jobs + 4, said
    assert said[0].count(" unsettled 0\n") == 2 and f"of {jobs} jobs {jobs} went into" in said[0], said
    assert said[1].count("\t2\tjob ") == said[1].count("No space left on device") == 3, said
    assert "3 jobs went back into" in said[1], said


def installed():
    """What `make install` installs runs, and systemd takes the unit."""
    prefix = os.path.abspath("a prefix")
    subprocess.run(["make", "-s", "-C", HERE, f"BUILD={os.getcwd()}", f"PREFIX={prefix}", "install"], check=True)
    for program in "fleet", "fill", "dead":
        words = [f"{prefix}/bin/hazbultra-{program}", "--version"]
        assert "0.1.0" in subprocess.run(words, check=True, capture_output=True, text=True).stdout
    with open(f"{HERE}/hazbultra-fleet@.service", encoding="ascii") as file:
        unit = file.read()
    assert "ExecStart=/usr/local/bin/hazbultra-fleet" in unit
    if shutil.which("systemd-analyze"):
        with open("hazbultra-fleet@1.service", "w", encoding="ascii") as file:
            file.write(unit.replace("/usr/local", os.getcwd()).replace("bin/hazbultra-fleet", "fleet"))
        done = subprocess.run(["systemd-analyze", "verify", "./hazbultra-fleet@1.service"], capture_output=True, text=True)
        assert done.returncode == 0 and "hazbultra" not in done.stderr, done.stderr


def memory():
    """No memory is lost, by valgrind: of jobs that are done, that fail, that are bad, and that are dead."""
    if not shutil.which("valgrind"):
        print("fleet: SKIPPED: memory: there is no valgrind")
        return
    server = Server("memory")
    valgrind = ("valgrind", "-q", "--leak-check=full", "--errors-for-leak-kinds=definite,indirect", "--error-exitcode=9")
    valgrind += ("--show-leak-kinds=definite,indirect",)
    fill(server, "MEMORY", [*range(100), "fail 100", "banana"], before=valgrind)
    process = fleet(server, "MEMORY", "--max-tries", 2, "--backoff", 100, "--cells", 20, before=valgrind)
    wait(lambda: server.left("MEMORY-dead") == 2 and server.left("MEMORY") == 0)
    said = end(process) + dead(server, "MEMORY", "--again", "all", before=valgrind)
    assert value(said, "mailboxes") > 3 and "2 jobs went back" in said and "==" not in said, said


parts = [limit_of_tries, put_back, largest, alone, backoff, metrics, addresses_and_tls, page, installed, memory]
