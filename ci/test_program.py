"""Tests of ci/program.py, over programs of a line or two of sh: the right one passes, and each wrong one is told."""
import resource
import subprocess
from unittest import mock

import program
from rooms import Room

READ, GLOB = program.read, program.glob.glob
TWO_THREADS = """
#include <pthread.h>
#include <sched.h>
static void *first(void *word) { return word; }
static void *second(void *word) { return YIELDS ? sched_yield(), word : word; }
int main(void) {
    pthread_t it[2];
    return pthread_create(it, 0, first, 0) || pthread_create(it + 1, 0, second, 0) || pthread_join(*it, 0);
}
"""


class Program(Room):
    def told(self, script, given=b"x\n", output=b"", error=b"fault\n", status=2, limit=None):
        return program.differences(self.write("program", f"#!/bin/sh\n{script}\n"), (), given, output, error, status, limit)

    def test_a_run_is_compared(self):
        right = "read line; echo fault >&2; exit 2"
        self.assertEqual(self.told(right), "")
        self.assertIn("status 0, and not 2", self.told(right.replace("exit 2", "exit 0")))
        self.assertIn("standard error b''", self.told(right.replace(" >&2", "")))
        self.assertIn("output b'more", self.told(f"echo more; {right}"))
        self.assertIn("status -9", self.told("kill -9 $$"))

    def test_devices_limits_and_a_terminal(self):
        for right, how in (
            ("{ echo x; } 2>/dev/null || { echo fault >&2; exit 2; }", {"output": "/dev/full"}),
            ("read line 2>/dev/null || { echo fault >&2; exit 2; }", {"given": "/"}),
            ('test "$(ulimit -d)" = 384 && echo fault >&2; exit 2', {"limit": program.DATA}),
            ("test -t 2 && { echo fault; } >&2; exit 2", {"limit": "terminal"}),
        ):
            self.assertEqual(self.told(right, **how), "", right)
            self.assertNotEqual(self.told(right), "", right)

    def test_threads_that_are_refused(self):
        with mock.patch.object(program.resource, "getrlimit", lambda _: (1 << 23, 1 << 23)):
            self.assertEqual([size for _, size in program.threads(2)], [1 << 23, 24 << 20])
        right = 'test "$(ulimit -s) $(ulimit -v)" = "65536 167936" && echo fault >&2; exit 2'
        self.assertEqual(self.told(right, limit=((resource.RLIMIT_STACK, 64 << 20), (resource.RLIMIT_AS, 164 << 20))), "")

    def test_a_first_thread_waits_until_another_yields(self):
        source = self.write("two.c", TWO_THREADS)
        for yields, limit, told in (1, program.LIMIT, ""), (0, 1, "no end after 1 seconds"):
            path = f"{self.top}/two{yields}"
            subprocess.run(["cc", f"-DYIELDS={yields}", "-pthread", "-o", path, source], check=True)
            with mock.patch.object(program, "LIMIT", limit):
                self.assertEqual(program.differences(path, (), b"", b"", b"", 0, "yields"), told)

    def test_examples_and_false_samples_are_told(self):
        path = self.write("a folder/it's", '#!/bin/sh\n[ "$*" = replay ] && cat\n')
        known = {it[0]: it[2].decode() for it in program.examples()}
        self.assertGreater(len(known), 20)
        script = known["one_loses"]
        first = program.printed("examples/script one_loses | ./mailbox replay | head -1", path)
        self.assertEqual(first, script.partition("\n")[0] + "\n")
        self.assertEqual(program.printed("rm -r x", path), "")
        block = f"$ examples/script one_loses | ./mailbox replay\n{script}"
        pages = {name: f"```\n{text}```\n" for name, text in (("a.md", block), ("b.md", f"{block}more\n"), ("d.md", script))}
        pages["c.md"] = "Of a lane:\n\n    left 77 8 8\n"
        read = mock.patch.object(program, "read", lambda it: pages[it] if it in pages else READ(it))
        with read, mock.patch.object(program.glob, "glob", lambda it, **how: [*pages] if how.get("root_dir") else GLOB(it)):
            self.assertEqual([it[0] for it in program.false_samples(path)], ["b.md", "c.md"])
