"""Tests of the script `test` at the top, with stand-ins for all tools: what it counts, what it skips, and when it fails."""
import os
import re
import shutil
import subprocess

from rooms import Room

TOP = os.path.dirname(os.path.dirname(os.path.abspath(__file__)))
OWN = "sh env sed grep awk tee mktemp date dirname rm cat tail nice".split()
FILES = """mailbox examples/script bindings/rust/tests/packing.sh bindings/rust/tests/examples.sh bindings/rust_stream/test.sh
bindings/c/Makefile ci/prebuilt.sh ci/map.sh""".split()
# What a program does that is refused a thread.
REFUSED = 'echo "run 0 of seed $1: Work(NoThread, 2), Plan { cells: 3 }"; exit 1'
TOOLS = "python3 groff cargo rustfmt cargo-clippy make cc c++ gcc clang valgrind pkg-config git rt sha256sum nats-server cmake musl-gcc aarch64-linux-gnu-gcc qemu-aarch64 rustc".split()


class Test(Room):
    def setUp(self):
        super().setUp()
        os.mkdir(f"{self.top}/bin")
        for name in OWN:
            os.symlink(shutil.which(name), f"{self.top}/bin/{name}")
        for name in TOOLS:
            self.tool(name, "exit 0")
        for name in ("gcc", "clang"):
            self.tool(name, f'while [ "$1" != -o ]; do shift; done; echo exit >"$2"; {shutil.which("chmod")} +x "$2"')
        for path in FILES:
            self.write(path)
        self.tool("cargo", "echo a line")
        self.write("README.md", "a line\n")
        for name, text in (("test_stress", REFUSED), ("example_scheduler", "echo 1000 jobs: 1000 were run, 0 times one was")):
            for it in (name, f"{name}.by-rattle"):
                self.tool(f"../crates/{name}/out/{it}", text)
        shutil.copy(f"{TOP}/test", self.top)

    def tool(self, name, text):
        self.write(f"bin/{name}", f"#!/bin/sh\n{text}\n")

    def run_it(self, *words):
        """The exit status, how many passed, failed and were skipped, and all lines."""
        how = {"stdout": subprocess.PIPE, "stderr": subprocess.STDOUT, "text": True, "env": {"PATH": f"{self.top}/bin", "LEAST_RUST": f"{self.top}/bin"}}
        ran = subprocess.run([f"{self.top}/test", *words], check=False, **how)
        counts = re.fullmatch(r"(\d+) passed, (\d+) failed, (\d+) skipped", ran.stdout.splitlines()[-1])
        return ran.returncode, tuple(map(int, counts.groups())) if counts else None, ran.stdout

    def test_all_parts_pass(self):
        few = self.run_it()
        self.assertEqual((few[0], few[1][1:]), (0, (0, 0)))
        status, counts, said = self.run_it("--all", "--may-skip", "none")
        self.assertEqual((status, counts), (0, (len(re.findall("^-- .*: ", said, re.M)), 0, 0)))
        self.assertGreater(counts, few[1])
        self.assertEqual(self.run_it("--some")[0], 2)
        self.write("crates/a/out/rlib/stamp")
        self.assertEqual((said.count("--proved"), self.run_it("--all")[2].count("--proved")), (2, 0))

    def test_a_part_that_fails(self):
        passed = self.run_it()[1][0]
        for text in ("exit 1", "echo 0 passed, 0 failed", "kill -9 $$", "kill -9 $PPID", "echo x: NOT TRIED", "echo x: BAD EDIT: "):
            self.tool("make", text)
            self.assertEqual(self.run_it()[:2], (1, (passed - 1, 1, 0)), text)
        for told, counts in (("3 passed, 2 failed", (passed + 2, 2, 0)), ("3 passed, 0 failed", (passed + 2, 1, 0))):
            self.tool("make", f"echo {told}; exit 1")
            self.assertEqual(self.run_it()[:2], (1, counts))
        self.assertNotIn("proofs", self.run_it("--all")[2])

    def test_a_third_thread_that_is_not_refused_fails(self):
        for wrong in (REFUSED.replace("2)", "3)"), REFUSED.replace("exit 1", "kill -9 $$"), "exit 1"):
            self.tool("../crates/test_stress/out/test_stress.by-rattle", wrong)
            status, counts, said = self.run_it("--all")
            self.assertEqual((status, counts[1:], "third thread, by seed 7: 0 passed" in said), (1, (1, 0), True), wrong)

    def test_a_program_of_one_compiler_alone_fails(self):
        self.tool("rt", """echo "rt: note: Rattle's own compiler did not compile this program, so"; echo 9 passed, 0 failed""")
        status, counts, said = self.run_it("--all")
        self.assertEqual((status, counts[1:]), (1, (1, 0)))
        self.assertNotIn("mutants.py --proved", said)

    def test_what_is_skipped_is_named(self):
        few, passed = self.run_it()[1][0], self.run_it("--all")[1][0]
        os.remove(f"{self.top}/bin/valgrind")
        status, counts, said = self.run_it("--all")
        self.assertEqual((status, counts), (0, (passed - 3, 0, 3)))
        self.assertIn("C, memory: SKIPPED: there is no valgrind\n", said)
        self.assertEqual(self.run_it("--all", "--may-skip", "Miri")[0], 1)
        self.tool("valgrind", "exit 0")
        self.tool("cargo", '[ "$2" != miri ] && echo a line')
        self.assertEqual(self.run_it("--all", "--may-skip", "C", "--may-skip", "Miri")[:2], (0, (passed - 1, 0, 1)))
        self.assertEqual(self.run_it("--all", "--may-skip", "C")[0], 1)
        self.tool("cargo-clippy", "exit 1")
        self.assertEqual(self.run_it()[:2], (0, (few - 1, 0, 1)))
        self.tool("cargo-clippy", "exit 0")
        self.tool("clang", "exit 1")
        self.tool("make", "echo 'x, no memory: SKIPPED: a limit'; echo 1 passed, 0 failed")
        self.assertIn("C, sanitized: SKIPPED: there is no clang:address,undefined\n", self.run_it("--all")[2])
        self.assertEqual([self.run_it(*words)[:2] for words in ((), ("--may-skip", "C"))], [(0, (few, 0, 1))] * 2)
        self.assertEqual(self.run_it("--may-skip", "Miri")[0], 1)

    def test_nothing_that_ran_is_no_success(self):
        for name in ("python3", "cargo", "make", "sha256sum", "awk"):
            os.remove(f"{self.top}/bin/{name}")
        status, counts, _ = self.run_it()
        self.assertEqual((status, counts[:2]), (1, (0, 0)))
