#!/usr/bin/env python3
"""Runs the tests of crossbeam-channel 0.5 over this crate's channel.

They come from Debian's package librust-crossbeam-channel-dev. A shim over this crate takes the place of crossbeam-channel, and its
build counts as a test. A test is left out if it needs what this channel does not offer. It is printed with the reason. The last line
is `N passed, N failed`.
"""
import glob
import os
import re
import subprocess
import sys
import tempfile

CRATE = os.path.dirname(os.path.dirname(os.path.abspath(__file__)))
REGISTRY = "/usr/share/cargo/registry"
FILES = "array list zero iter mpsc golang same_channel thread_locals".split()
# What this channel does not offer, and how a test that needs it is found.
NEEDS = {
    "select": r"\bselect!|\bSelect\b",
    "after, tick or never": r"\b(after|tick|never)(::<[^>]*>)?\(",
}
# Tests that are left out by their names, with the reasons.
OTHERS = {"array::panic_on_drop": "values that leak after a panic: here each is dropped"}

SHIM = """
pub use hazbultra::channel::*;
// (the tests of golang.rs make these two with each channel, and those that are kept do not use them)
pub fn never<T>() -> Receiver<T> { unbounded().1 }
pub fn tick(_: std::time::Duration) -> Receiver<std::time::Instant> { unreachable!() }
pub use tick as after;
pub struct Select;
#[macro_export]
macro_rules! select { ($($any:tt)*) => { unreachable!() }; }
"""
RAND = """
use std::hash::{BuildHasher, Hasher, RandomState};
pub struct ThreadRng;
pub trait Rng { fn gen_range(&mut self, range: std::ops::Range<usize>) -> usize; }
impl Rng for ThreadRng {
    fn gen_range(&mut self, range: std::ops::Range<usize>) -> usize {
        range.start + RandomState::new().build_hasher().finish() as usize % (range.end - range.start)
    }
}
pub fn thread_rng() -> ThreadRng { ThreadRng }
"""


def manifest(name, *dependencies):
    lines = ['[package]', f'name = "{name}"', 'version = "0.5.0"', 'edition = "2021"', '[workspace]', '[dependencies]']
    return "\n".join([*lines, *(f'{it} = {{ path = "{path}" }}' for it, path in dependencies)])


def end_of(text, at):
    """The place where the first block that opens after `at` ends."""
    depth = 0
    for place in range(text.index("{", at), len(text)):
        depth += {"{": 1, "}": -1}.get(text[place], 0)
        if not depth:
            return place + 1


def kept(name, text):
    """The text of a file without the tests that are left out, and a list of these with the reasons."""
    left, edits, modules = [], [], []
    for module in re.finditer(r"^mod (\w+) \{", text, re.M):
        modules.append((module.group(1), module.start(), end_of(text, module.start())))
    for test in re.finditer(r"^ *(?:#\[.*\n *)*#\[test\]\n(?: *#\[.*\n)* *fn (\w+)\(\)", text, re.M):
        end = end_of(text, test.end())
        body = text[test.start() : end]
        inside = [it for it in modules if it[1] < test.start() < it[2]]
        label = "::".join([name, *(it[0] for it in inside), test.group(1)])
        # (the helpers of its module that the test calls count as parts of its body, and so on)
        for _, begin, stop in inside:
            helpers = [(it.group(1), begin + it.start()) for it in re.finditer(r"^ *fn (\w+)", text[begin:stop], re.M)]
            while found := next((it for it in helpers if it[1] > test.end() or it[1] < test.start() if re.search(rf"\b{it[0]}\b", body)), None):
                helpers.remove(found)
                body += text[found[1] : end_of(text, found[1])]
        reason = next((why for why, word in NEEDS.items() if re.search(word, body)), OTHERS.get(label))
        if reason:
            left.append((label, reason))
            edits.append((test.start(), end))
    for start, end in reversed(edits):
        text = text[:start] + text[end:]
    return text, left


def write(path, text):
    os.makedirs(os.path.dirname(path), exist_ok=True)
    with open(path, "w", encoding="utf-8") as file:
        file.write(text)


def main():
    source = glob.glob(f"{REGISTRY}/crossbeam-channel-0.5.*")
    utils = glob.glob(f"{REGISTRY}/crossbeam-utils-0.8.*")
    with tempfile.TemporaryDirectory() as room:
        write(f"{room}/shim/Cargo.toml", manifest("crossbeam-channel", ("hazbultra", CRATE)))
        write(f"{room}/shim/src/lib.rs", SHIM)
        passed = int(subprocess.run(["cargo", "build", "--offline", "--quiet"], cwd=f"{room}/shim", check=False).returncode == 0)
        if not source or not utils:
            print("crossbeam-channel: SKIPPED: there is no librust-crossbeam-channel-dev")
            print(f"{passed} passed, {1 - passed} failed")
            return not passed
        write(f"{room}/rand/Cargo.toml", manifest("rand"))
        write(f"{room}/rand/src/lib.rs", RAND)
        uses = [("crossbeam-channel", "../shim"), ("rand", "../rand"), ("crossbeam-utils", utils[0])]
        patch = f'\n[features]\ndefault = ["std"]\nstd = []\n[patch.crates-io]\ncfg-if = {{ path = "{REGISTRY}/cfg-if-1.0.0" }}\n'
        write(f"{room}/tests/Cargo.toml", manifest("tests", *uses) + patch)
        write(f"{room}/tests/src/lib.rs", "")
        for name in FILES:
            with open(f"{source[0]}/tests/{name}.rs", encoding="utf-8") as file:
                text, left = kept(name, file.read())
            write(f"{room}/tests/tests/{name}.rs", "#![allow(warnings)]\n" + text)
            for label, reason in left:
                print(f"left out: {label}: {reason}")
        # (a test may sleep for ever)
        run = ["timeout", "900", "cargo", "test", "--offline", "--quiet", "--release", "--no-fail-fast", "--tests", *sys.argv[1:]]
        done = subprocess.run(run, cwd=f"{room}/tests", env={**os.environ, "RUSTFLAGS": "--cap-lints allow"}, text=True, capture_output=True)
        counts = re.findall(r"test result: .*? (\d+) passed; (\d+) failed", done.stdout)
        passed, failed = (before + sum(int(it[at]) for it in counts) for at, before in enumerate((passed, 1 - passed)))
        failed += done.returncode != 0 and not failed
        if failed:
            print(done.stdout, done.stderr)
    print(f"{passed} passed, {failed} failed")
    return failed > 0 or not passed


if __name__ == "__main__":
    sys.exit(main())
