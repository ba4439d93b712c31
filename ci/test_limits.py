"""Tests of ci/limits.py: what is within a limit passes, and one more is told."""
import unittest

import limits


class Limits(unittest.TestCase):
    def count(self, path, text):
        return len([*limits.places(path, text)])

    def pair(self, path, most, unit, before="", after=""):
        """Whether so many of a unit pass, and one more is told."""
        self.assertEqual([self.count(path, before + unit * (most + more) + after) for more in (0, 1)], [0, 1], (path, unit))

    def test_lines(self):
        self.pair("crates/a/src/a.rt", 400, "a\n")
        self.pair("crates/a/src/a.rt", 40, "    a;\n", "fn f() {\n", "}\n")
        self.pair("crates/a/src/a.rt", 40, "    a;\n", "impl A {\n    fn f()\n        ensures { a }\n    {\n", "    }\n}\n")
        self.assertEqual(self.count("crates/test_a/src/a.rt", "fn f() {\n" + "    a;\n" * 41 + "}\n"), 0)

    def test_columns(self):
        self.pair("crates/a/src/a.rt", 120, "a")
        self.pair("crates/a/src/a.rt", 121, "a", "//")
        self.pair("crates/a/proofs/A.antt", 120, "a")
        self.pair("crates/a/specs/A.antt", 192, "b", "use A.{", "}\n")
        self.pair("crates/a/src/a.rt", 92, "x", "fn f()\n    ensures { a\n        ", "\n }\n{\n}\n")
        self.assertEqual(self.count("crates/a/src/a.rt", f"fn f() {{\n{'x' * 101}\n}}\n"), 0)

    def test_imports(self):
        self.pair("crates/a/proofs/A.antt", 20, "use A.{b}\n", "-- a\n")
        self.pair("crates/a/proofs/A.antt", 20, "use A.{\n  b,\n  c\n}\n", "", "\nf : A\nuse G.{h}\n")

    def test_parameters(self):
        head = "fn f<A: B<C>>(&self, a: u8, b: (u8, u8), c: Vec<u8, A>, d: fn(u8, u8) -> u8, e: u8"
        self.pair("crates/a/src/a.rt", 0, ", g: u8", head, ") {\n}\n")
        self.assertEqual(self.count("crates/a/src/a.rt", head.replace("fn f", "fn work") + ", g: u8) {\n}\n"), 0)
