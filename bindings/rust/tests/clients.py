#!/usr/bin/env python3
"""Runs programs that use crossbeam-channel over this crate's channel: their own tests, and scenes in which no value may be lost.

    clients.py           the clients whose packages are installed
    clients.py FOLDER    larger ones too. It unpacks their packages into FOLDER, and installs none

The sources come from Debian's packages. `[patch.crates-io]` puts a crate of one line in the place of crossbeam-channel. A test is
left out if it needs what Debian does not have, or in the short form if it sleeps for long. The last line is `N passed, N failed`.
"""
import concurrent.futures
import dataclasses
import glob
import os
import re
import shutil
import subprocess
import sys
import tempfile

from crossbeam import CRATE, REGISTRY, write

SHIM = "pub use hazbultra::channel::*;\n"
CARGO = ["cargo", "test", "--offline", "--quiet", "--lib", "--bins", "--tests"]
TIME = 600  # (seconds, after which a client's tests are taken to sleep for ever)
THREADS = "32"  # (many tests only sleep)
MAIN = '[package]\nname = "{name}"\nversion = "{version}"\nedition = "2021"\n[dependencies]\n'
# What the tests of clients need besides, in Debian's packages.
NEEDED = ["librust-rand-dev", "librust-rand-xorshift-dev", "librust-scoped-tls-dev", "librust-serde-json-dev", "librust-tempfile-dev"]
# (threadpool uses the channel of std)
POOL = [
    ("src/lib.rs", r"std::sync::mpsc::\{channel, Receiver", "crossbeam_channel::{unbounded as channel, Receiver"),
    ("src/lib.rs", r"std::sync::mpsc::\{channel, sync_channel", "crossbeam_channel::{unbounded as channel, bounded as sync_channel"),
    ("src/lib.rs", r"(extern crate num_cpus;)", r"\1\nextern crate crossbeam_channel;"),
    ("src/lib.rs", r"std::sync::mpsc::TryRecvError", "crossbeam_channel::TryRecvError"),
    ("Cargo.toml", r"(\[dependencies.num_cpus\])", r'[dependencies.crossbeam-channel]\nversion = "0.5"\n\1'),
]


@dataclasses.dataclass
class Client:
    """A program: its name, edits of its files by patterns, and names of tests that are left out."""

    name: str
    edits: list = dataclasses.field(default_factory=list)
    left_out: str = ""
    is_large: bool = False

    def package(self):
        return f"librust-{self.name.replace('_', '-')}-dev"


def without(kind, *names):
    """Edits of Cargo.toml that take away dependencies that Debian does not have, or has in another version."""
    return [("Cargo.toml", rf"\[{kind}\.{name}\]\n(?:.+\n)+", "") for name in names]


CLIENTS = [
    Client("slog-async"),
    Client("rusty_pool", left_out="tests::test_full_usage tests::test_join_enqueued_task tests::it_works"),
    Client("rayon-core"),
    Client("threadpool", POOL),
    Client("ignore", is_large=True),
    Client("notify", without("dev-dependencies", "nix"), is_large=True),
    Client("cursive_core", is_large=True),
]


def fetch(folder):
    """Unpacks the packages of all clients, and those that they need, into the folder."""
    names = [*(it.package() for it in CLIENTS), *NEEDED]
    listed = subprocess.run(["apt-get", "install", "-s", "--no-install-recommends", *names], check=True, text=True, capture_output=True)
    os.makedirs(folder, exist_ok=True)
    subprocess.run(["apt-get", "download", "-qq", *re.findall(r"^Inst (\S+)", listed.stdout, re.M)], cwd=folder, check=True)
    for package in glob.glob(f"{folder}/*.deb"):
        subprocess.run(["dpkg", "-x", package, folder], check=True)


def gather(room, folders):
    """Makes a folder with all sources that are there, as cargo wants it."""
    os.makedirs(f"{room}/registry")
    for source in (it for folder in folders for it in sorted(glob.glob(f"{folder}/*"))):
        if not os.path.lexists(link := f"{room}/registry/{os.path.basename(source)}"):
            os.symlink(source, link)
    source = f'[source.crates-io]\nreplace-with = "debian"\n[source.debian]\ndirectory = "{room}/registry"\n'
    write(f"{room}/.cargo/config.toml", source)


def place(room, client):
    """Copies a client into a folder, with its edits. Returns the folder, or None if its source is not there."""
    found = glob.glob(f"{room}/registry/{client.name}-[0-9]*")
    if not found:
        return None
    folder = shutil.copytree(found[-1], f"{room}/{os.path.basename(found[-1])}")
    for name, pattern, text in client.edits:
        with open(f"{folder}/{name}", encoding="utf-8") as file:
            new, count = re.subn(pattern, text, file.read())
        if not count:
            raise ValueError(f"{client.name}: {name} has no {pattern}")
        write(f"{folder}/{name}", new)
    return os.path.basename(folder)


def join(room, names):
    """Makes a workspace of these clients and the scenes, and builds their tests. One that cannot be built fails later."""
    write(f"{room}/shim/Cargo.toml", MAIN.format(name="crossbeam-channel", version="0.5.6") + f'hazbultra = {{ path = "{CRATE}" }}\n')
    write(f"{room}/shim/src/lib.rs", SHIM)
    write(f"{room}/scenes/Cargo.toml", MAIN.format(name="scenes", version="0.0.0") + 'crossbeam-channel = "0.5"\nslog = "2"\nslog-async = "2"\n')
    write(f"{room}/scenes/src/lib.rs", "")
    shutil.copytree(f"{CRATE}/tests/clients", f"{room}/scenes/tests")
    members = ", ".join(f'"{it}"' for it in [*names.values(), "scenes"])
    patches = "".join(f'{name} = {{ path = "{folder}" }}\n' for name, folder in {**names, "crossbeam-channel": "shim"}.items())
    write(f"{room}/Cargo.toml", f"[workspace]\nmembers = [{members}]\n[patch.crates-io]\n{patches}")
    subprocess.run([*CARGO, "--workspace", "--no-run", "--no-fail-fast"], cwd=room, check=False, capture_output=True)


def run(room, name, left_out):
    """Runs a client's tests. Returns how many passed and failed, and what they printed."""
    skips = [it for test in left_out.split() for it in ("--skip", test)]
    words = [*CARGO, "-p", name, "--no-fail-fast", "--", *skips]
    try:
        done = subprocess.run(words, cwd=room, env=os.environ | {"RUST_TEST_THREADS": THREADS}, text=True, errors="replace", capture_output=True, timeout=TIME, check=False)
    except subprocess.TimeoutExpired:
        return 0, 1, f"no end after {TIME} s"
    counts = re.findall(r"test result: .*? (\d+) passed; (\d+) failed", done.stdout)
    some, bad = (sum(int(it[at]) for it in counts) for at in (0, 1))
    return some, bad + (done.returncode != 0 and not bad), done.stdout + done.stderr


def main():
    is_whole = len(sys.argv) > 1
    clients = [it for it in CLIENTS if is_whole or not it.is_large]
    folders = [REGISTRY]
    if is_whole:
        fetch(sys.argv[1])
        folders.append(os.path.abspath(sys.argv[1]) + REGISTRY)
    with tempfile.TemporaryDirectory() as room:
        gather(room, folders)
        places = {it.name: place(room, it) for it in clients}
        lost = [it.package() for it in clients if not places[it.name]]
        if lost:
            print(f"clients: SKIPPED: there is no {', '.join(lost)}")
            print("1 passed, 0 failed")
            return False
        join(room, places)
        jobs = {it.name: "" if is_whole else it.left_out for it in clients} | {"scenes": ""}
        with concurrent.futures.ThreadPoolExecutor() as pool:
            results = [*pool.map(lambda it: run(room, *it), jobs.items())]
    for name, (some, bad, said) in zip(jobs, results):
        print(f"{name}: {some} passed, {bad} failed" + f"\n{said}" * (bad > 0))
    passed, failed = (sum(it[at] for it in results) for at in (0, 1))
    print(f"{passed} passed, {failed} failed")
    return failed > 0 or not passed


if __name__ == "__main__":
    sys.exit(main())
