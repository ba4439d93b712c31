"""What the tests of the fleet start: servers, processes and fills. All of them end with the tests."""
import itertools
import json
import os
import signal
import socket
import subprocess
import time

HELD = 4 + 64  # how many jobs a process has at most: one of each worker, and a batch that waits
started = []  # each process that was started


def wait(so, seconds=120):
    end_of_wait = time.monotonic() + seconds
    while not so():
        assert time.monotonic() < end_of_wait, f"not after {seconds} seconds"
        time.sleep(0.02)


def start(*words, **more):
    started.append(subprocess.Popen([str(it) for it in words], text=True, **more))
    return started[-1]


def end(process, number=signal.SIGTERM, status=0):
    """Ends a process by a signal (0 sends none), and checks its status. Returns what it printed."""
    process.send_signal(number)
    said = "".join(filter(None, process.communicate(timeout=60)))
    assert process.returncode == status, f"a process ended with {process.returncode}, not {status}: {said}"
    return said


ports = itertools.count(10000 + os.getpid() % 200 * 100)  # (below those of connections, which would take one meanwhile)


def is_free(port):
    try:
        socket.create_server(("127.0.0.1", port)).close()
    except OSError:
        return False
    return True


class Server:
    """A server with a port and a folder of its own. `more` are lines of its configuration."""

    def __init__(self, name, more="", jets="", port=0):
        self.name, self.port = name, port or next(filter(is_free, ports))
        self.url = f"nats://127.0.0.1:{self.port}"
        store = f'jetstream {{ store_dir: "{name}.store", {jets} }}' if jets is not None else ""
        with open(f"{name}.conf", "w", encoding="ascii") as file:
            file.write(f'host: "127.0.0.1"\nport: {self.port}\n{store}\n{more}\n')
        self.start()

    def start(self):
        self.process = start("nats-server", "-c", f"{self.name}.conf", "-l", f"{self.name}.log")
        wait(self.is_ready, 30)

    def is_ready(self):
        with open(f"{self.name}.log", "a+", encoding="utf-8") as file:
            file.seek(0)
            lines = [it for it in file if f"[{self.process.pid}]" in it]
        assert self.process.poll() is None, f"the server {self.name} does not start: {lines[-1:]}"
        return any("Server is ready" in it for it in lines)

    def kill(self, number=signal.SIGKILL):
        self.process.send_signal(number)
        self.process.wait()

    def ask(self, request, **body):
        """Asks JetStream by a request of its protocol. Returns the answer."""
        with socket.create_connection(("127.0.0.1", self.port), timeout=30) as it:
            text, lines = json.dumps(body) if body else "", it.makefile("rb")
            it.sendall(f"CONNECT {{}}\r\nSUB a 1\r\nPUB $JS.API.{request} a {len(text)}\r\n{text}\r\n".encode())
            line = lines.readline()
            while not line.startswith(b"MSG"):
                assert line, "the server closed the connection"
                line = lines.readline()
            return json.loads(lines.read(int(line.split()[-1])))

    def make(self, stream, **more):
        """Makes a stream."""
        words = {"name": stream, "subjects": [stream], "retention": "workqueue", "storage": "file", "num_replicas": 1}
        answer = self.ask(f"STREAM.CREATE.{stream}", **{**words, "discard": "new", "max_consumers": -1, **more})
        assert "error" not in answer, answer

    def left(self, stream):
        """How many jobs of the stream were neither acknowledged nor ended. There is no such stream: -1."""
        return self.ask(f"STREAM.INFO.{stream}").get("state", {"messages": -1})["messages"]

    def consumer(self, stream):
        return self.ask(f"CONSUMER.INFO.{stream}.fleet")

    def held(self, stream):
        """How many jobs of the stream processes have, or had when they were killed."""
        return self.consumer(stream).get("num_ack_pending", 0)


def start_fill(server, stream, *more, name="one", before=()):
    words = (*before, "./fill", "--server", server.url, "--stream", stream, "--name", name, *more)
    return start(*words, stdin=subprocess.PIPE, stdout=subprocess.PIPE, stderr=subprocess.PIPE)


def fill(server, stream, lines, *more, status=0, **how):
    """Puts jobs into a stream. Returns what `fill` printed."""
    process = start_fill(server, stream, *more, **how)
    said = "".join(process.communicate("".join(f"{it}\n" for it in lines), timeout=60))
    assert process.returncode == status, f"fill ended with {process.returncode}, not {status}: {said}"
    return said


def dead(server, stream, *more, status=0, before=()):
    """Runs `dead`. Returns what it printed."""
    words = (*before, "./dead", "--server", server.url, "--stream", stream, *more)
    return end(start(*words, stdout=subprocess.PIPE, stderr=subprocess.PIPE), 0, status)


def fleet(server, stream, *more, ack=30, before=()):
    words = (*before, "./fleet", "--server", server.url, "--stream", stream, "--ack", ack, "--effects", stream, *more)
    return start(*words, stdout=subprocess.PIPE, stderr=subprocess.PIPE)


def value(said, name):
    """A value of the last report in what a process printed."""
    return int(said.rsplit(f" {name} ", 1)[1].split(",")[0].split()[0])


def table(stream):
    """The effects on a stream: of each whole row its words."""
    with open(stream, "a+", encoding="ascii") as file:
        file.seek(0)
        return [it.split() for it in file if it.endswith("\n")]


def rows(stream):
    """The effects on a stream: of each whole row the job and the process."""
    return [(int(it[0]), int(it[1])) for it in table(stream)]


def expect_each(stream, jobs, most_again=0):
    """Checks that each job ran, none twice in one process, and not too many again in another. Returns how many did that."""
    found = rows(stream)
    ran = {job for job, _ in found}
    assert ran == set(jobs), f"{stream}: {len(set(jobs) - ran)} jobs did not run, {len(ran - set(jobs))} are none"
    assert len(set(found)) == len(found), f"{stream}: a job ran twice in one process"
    assert len(found) <= len(jobs) + most_again, f"{stream}: more than {most_again} jobs ran again"
    return len(found) - len(jobs)
