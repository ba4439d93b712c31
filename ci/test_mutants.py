"""Tests of ci/mutants.py, over lines that the prover once printed. They run no prover."""
import contextlib
import io
import os
import re
from types import SimpleNamespace

import mutants
from rooms import Room

# The first function fails by its own contract, the second by its proof file, beside what it calls. The third calls one that is not
# proved. The proof file of the fourth names what the edit took away. The fifth is well.
SAID = """\
./proofs/unary/UnaryQuorums/read_quorum/Answers.antt:18:5: error: `returns`: `omega`: the goal does not follow
./proofs/values/width/Answers.antt:10:37: error: `returns-clause-exact`: record `Rattle.Start` has no field `saturating_sub`
  the fields that can be named here are `args`, `well_formed`, `ranges`, `requires`
./proofs/values/width/Answers.antt:13:5: error: 1 declaration that depends on `returns-exact`, which was rejected, was not checked
./proofs/values/width/Answers.antt:16:5: error: 2 declarations that depend on `returns-range`, which was rejected, were not checked
fn q::values::checked_values: no proof: expected answers in ./proofs/..; `search` did not prove `returns-clause-range`
fn q::unary::UnaryQuorums::read_quorum: not proved; it calls `q::bits::Bits::width`, which is not proved
fn q::bits::Bits::width: no proof: it calls `q::values::width`, which is not proved
fn q::values::width: not proved
fn q::table::Table::copy: proved
only=5 proved=1
"""
UNREAD = "src/a.rt:85:26: error[non-exhaustive-match]: non-exhaustive patterns: `Name::Middle` not covered\n"
FUNCTIONS = ("values::checked_values", "unary::UnaryQuorums::read_quorum", "bits::Bits::width", "values::width")
SOURCE = "use a::{b};\n\nfn one() -> u32 {\n    1 + 1\n}\n\nfn two() -> u32 {\n    2\n}\n"


class Mutants(Room):
    def setUp(self):
        super().setUp()
        self.addCleanup(setattr, mutants, "TOP", mutants.TOP)
        mutants.TOP = self.top
        self.write("crates.txt", "# Each\nq: low\n")
        self.write("crates/q/src/a.rt", SOURCE)

    def edit(self, name, old="1 + 1", new="1 + 2", function="q::a::one", more=""):
        self.write(f"crates/q/mutants/{name}.edit", f"refuses: {function}\n{more}file: src/a.rt\nold: {old}\nnew: {new}\n")
        return mutants.edits()

    def test_an_edit_applies(self):
        found, wrong = self.edit("well")
        self.assertEqual((wrong, found[0].label, found[0].function), ({}, "q/well.edit", "q::a::one"))
        self.assertEqual(found[0].applied({})["src/a.rt"], SOURCE.replace("1 + 1", "1 + 2"))
        self.assertEqual(self.edit("import", "use a::{b};", "use a::{b, c};")[1], {})
        self.assertEqual(self.edit("alone", "    2", "    3", more="alone: it is of two\n")[1], {})

    def test_an_edit_that_cannot_be_tried(self):
        for bad in (("1 + 3", "2"), ("fn ", "f "), ("1 + 1", "1 + 1"), ("    2", "    3"), ("", "1")):
            self.assertEqual([*self.edit("bad", *bad)[1]], ["crates/q/mutants/bad.edit"], bad)
        for more in ({"more": "refuse: x\n"}, {"more": "new: x\n"}, {"function": "other::a::one"}, {"function": "q::a::two"}):
            self.assertEqual(len(self.edit("bad", **more)[1]), 1, more)
        self.write("crates/q/mutants/half.edit", "refuses: q::a::one\nfile: src/a.rt\nold: 1 + 1\n")
        for stray in ("crates/q/mutants/note.txt", "crates/q/must-fail/a.edit", "crates/r/mutants/a.edit", "crates/q/specs/a.edit"):
            self.write(stray, "")
        self.assertEqual(len(mutants.edits()[1]), 6)

    def test_groups_hold_each_function_once_and_what_applies_together(self):
        self.edit("a")
        self.edit("b", new="1 + 3")
        self.edit("c", "    2", "    3", "q::a::two")
        found, _ = self.edit("d", "    2", "    4", "q::a::two", "alone: why\n")
        self.assertEqual([[it.label[2] for it in group] for group in mutants.groups(found)], [["a", "c"], ["b"], ["d"]])

    def test_a_check_tells_what_it_said_and_its_processor_time(self):
        prover = self.write("prover", "#!/bin/sh\necho $1 $4; cat src/a.rt; exit $3\n")
        kit = SimpleNamespace(PARTS=["src"], RATTLE=prover, guarded=lambda: [])
        group = self.edit("well")[0]
        for status, last in (0, "}\n"), (1, "}\n"), (3, "\nits status is 3"):
            crate = SimpleNamespace(name="q", folder=group[0].folder, words=lambda flags, keeps: ["a", str(status)])
            with contextlib.redirect_stdout(io.StringIO()) as told:
                said = mutants.check(kit, crate, group, "kept", True)
            self.assertTrue(said.startswith("check --only") and "1 + 2" in said and said.endswith(last), said)
            self.assertRegex(told.getvalue(), r"^q: a check of 1 in \d+ processor seconds\n$")

    def test_a_function_without_a_mutant_loses_its_proof(self):
        for file in ("a/one/Answers", "a/two/Answers", "a/two/Invariants", "a/+three/Proof", "Lemmas"):
            self.write(f"room/proofs/{file}.antt", "lemma")
        mutants.take_proofs(f"{self.top}/room", self.edit("well")[0])
        for folder, left in ("one", ["Answers.antt"]), ("two", ["Proof.antt"]), ("+three", ["Proof.antt"]):
            self.assertEqual(os.listdir(f"{self.top}/room/proofs/a/{folder}"), left)

    def test_what_is_not_refused_is_tried_with_all_proofs(self):
        for function in "one", "two":
            self.write(f"crates/q/proofs/a/{function}/Answers.antt", "answer")
        lines = "./proofs/a/one/Answers.antt:1:1: error: `x`: no", "fn q::a::one: not proved", "fn q::a::low: proved", "only=1 proved=0"
        said = "\n".join(lines)
        prover = self.write("prover", f"#!/bin/sh\n[ -f proofs/a/two/Answers.antt ] && echo '{said}' || echo '{said[said.index('fn'):]}'\n")
        kit = SimpleNamespace(PARTS=["src", "proofs"], RATTLE=prover, guarded=lambda: [])
        crate = SimpleNamespace(name="q", folder=f"{self.top}/crates/q", words=lambda flags, keeps: [])
        with contextlib.redirect_stdout(io.StringIO()) as told:
            self.assertEqual(mutants.try_crate(kit, crate, self.edit("well")[0]), (1, 0))
        self.assertEqual(told.getvalue().count("a check of 1"), 2)

    def judged(self, said, functions=FUNCTIONS, more=""):
        group = []
        for number, name in enumerate(functions):
            self.write("crates/q/src/a.rt", f"fn {name.rpartition('::')[2]}() {{\n    1 + 1\n}}\n")
            group += self.edit("m", function=f"q::{name}", more=more)[0]
            group[-1].label, group[-1].applied = number, lambda texts: {"src/a.rt": ""}
        return mutants.judged(group, said)

    def test_a_mutant_is_refused_by_its_own_proof_alone(self):
        self.assertEqual([*self.judged(SAID)[0].values()], [True, True, False, False])
        proved = SAID.replace("fn q::values::width: not proved\n", "fn q::table::free: proved\n")
        self.assertEqual([*self.judged(proved, [*FUNCTIONS, "table::Table::copy"])[0].values()], [True, True, False, False, False])
        self.assertFalse(self.judged(SAID.replace("checked_values: no proof", "checked_values: could not tell"))[0][0])

    def test_a_check_that_judges_nothing(self):
        changed = SAID.replace("only=", "some="), SAID.replace("copy: p", "copy: not p")
        for said in ("", *changed, SAID + "its status is -9", UNREAD + SAID):
            self.assertEqual(self.judged(said)[0], {}, said[:60])
        self.assertIn("checked_values fails too", self.judged(SAID, FUNCTIONS[1:])[1])
        self.assertEqual(self.judged(SAID, FUNCTIONS[1:2], "alone: it reaches others\n")[0], {0: True})
        lemma = "./proofs/Width.antt:3:1: error: `least`: `omega`: the goal does not follow\n"
        self.assertIn("a lemma fails", self.judged(lemma + SAID)[1])
        lacking = "./proofs/values/checked_values/Proof.antt: error: this file exports no `checked_values_spec`\n"
        said = re.sub("values: no proof.*", "values: not proved", lacking + SAID)
        self.assertEqual([*self.judged(said, FUNCTIONS[1:])[0].values()], [True, False, False])
