"""Tests of what the scripts of bench/ make of figures that programs print."""
import pathlib
import sys
import unittest
from unittest import mock

sys.path.append(str(pathlib.Path(__file__).resolve().parent.parent / "bench"))

import by_cells
import channels
import large
import measuring

ANNOTATED = """
13,554,432 (71.34%)  ???:hz_poll [/tmp/by_cells]
    81,921 ( 0.43%)          want(HZ_TOOK, hz_poll(&consumer, 0, UINT64_MAX, &value));
13,554,432 (71.34%)  => ???:hz_poll (16,384x)
       711 ( 0.00%)  => ???:hz_take_back (1x)
       982 ( 0.01%)  => ???:hz_take_back (1x)
        43 ( 0.00%)  => ???:other (1x)
"""


class Figures(unittest.TestCase):
    def test_what_an_item_more_takes(self):
        self.assertEqual(measuring.by_item(1000, 5000, lambda items: 700 + 3 * items), 3)

    def test_durations_as_rust_prints_them(self):
        told = [measuring.nanoseconds(text) for text in ("1.5s", "259.5ms", "12µs", "7ns")]
        self.assertEqual(told, [1.5e9, 259.5e6, 12e3, 7])

    def test_each_round_makes_each_run_once(self):
        made = []
        figures = {"one": iter([9, 1, 2]), "two": iter([5, 5, 70])}

        def run(name):
            made.append(name)
            return next(figures[name])

        told = measuring.medians(3, {name: lambda name=name: run(name) for name in figures})
        self.assertEqual(told, {"one": 2, "two": 5})
        self.assertEqual([set(made[at:at + 2]) for at in (0, 2, 4)], [{"one", "two"}] * 3)

    def test_what_a_process_used(self):
        time, resident, said = measuring.used(("sh", "-c", "echo 7"))
        self.assertEqual(said, "7\n")
        self.assertGreater(time, 0)
        self.assertGreater(resident, 0)
        with self.assertRaisesRegex(SystemExit, "status 3"):
            measuring.used(("sh", "-c", "exit 3"))

    def test_a_large_run_that_fails(self):
        with mock.patch.object(large, "PROGRAM", "/bin/false"), self.assertRaisesRegex(SystemExit, "2 4 4 500 1 plain: status 1"):
            large.one_run(2, 4, 4, 500, "plain", None)

    def test_a_table(self):
        told = measuring.table(("An item", "ns"), [("`SegQueue`", 1234.6), ("none", None)])
        self.assertEqual(told, "| An item | ns |\n| --- | --- |\n| `SegQueue` | 1,235 |\n| none | - |")


class Channels(unittest.TestCase):
    def test_the_rows_of_the_readme(self):
        took = {(what, sent, it): 10 for what in channels.CHANNELS for sent in channels.SENT for it in channels.THREADS}
        took.update({("hazbultra", "u64", (2, 2)): 14.6, ("flume", "box", (1, 1)): 123, ("std", "box", (4, 16)): 9})
        took["async", "quad", (4, 1)] = 21
        with mock.patch.object(channels, "kept", {"hazbultra": 30.4}.get):
            told = channels.front(took).splitlines()[2:]
        self.assertEqual([it.split(" | ")[1:] for it in told], [
            ["30", "-", "-", "-", "- |"],
            ["1.0 to 1.5", "1", "1.0 to 1.0", "1.0 to 1.0", "1.0 to 1.0 |"],
            ["1.0 to 1.0", "1", "1.0 to 1.0", "1.0 to 2.1", "1.0 to 1.0 |"],
            ["1.0 to 1.0", "1", "1.0 to 12", "1.0 to 1.0", "0.9 to 1.0 |"],
        ])


class Annotations(unittest.TestCase):
    def test_means_of_the_calls_of_the_library(self):
        self.assertEqual(by_cells.means(ANNOTATED), {"hz_poll": 13554432 / 16384, "hz_take_back": 1693 / 2})


if __name__ == "__main__":
    unittest.main()
