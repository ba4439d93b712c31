"""Tests of ci/counts.py, over a small crate: what is counted, and that a page without a number is told."""
import contextlib
import io
from unittest import mock

import counts
from rooms import Room

SOURCE = """//! A crate.
pub fn one(a: u32) -> u32
    requires { a < 7 }
    ensures same { result
        ≡ a }
{
    a
}

pub fn bare() {
}
fn own()
    ensures { a }
{
}
"""


class Counts(Room):
    def told(self):
        with mock.patch.object(counts, "TOP", self.top), contextlib.redirect_stdout(io.StringIO()) as said:
            self.assertEqual(counts.main(), said.getvalue().splitlines()[:-1] != [])
        return said.getvalue().splitlines()[:-1]

    def test_a_small_crate(self):
        for crate in ("mb_a", "test_a"):
            self.write(f"crates/{crate}/src/deep/lib.rt", SOURCE)
            self.write(f"crates/{crate}/specs/A.antt", "-- a\nabbrev pub a : b\n\npub record C where\n  pub d : e\n")
            self.write(f"crates/{crate}/proofs/f/A.antt", "a\n" * 1250)
            self.write(f"crates/{crate}/mutants/a.edit")
        found = counts.counted(self.top)
        self.assertEqual([*found.values()], ["3", "1", "10", "4", "2", "4", "1,200", "1"])
        table = "".join(f"| {kind} | {count} |\n" for kind, count in found.items())
        self.write("docs/PROOF.md", table)
        self.write("README.md", "3 functions, 4 lines of contracts, 2 definitions, 1,200 lines\nof proof, 1 mutants")
        self.assertEqual(self.told(), [])
        self.write("docs/PROOF.md", table.replace("| 10 |", "| 11 |"))
        self.assertEqual(self.told(), ["docs/PROOF.md: it does not say: | lines of code | 10 |"])
