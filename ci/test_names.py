"""Tests of ci/names.py, over a small repository: what is there and short passes, and each fault is told."""
import contextlib
import io
from unittest import mock

import names
from rooms import Room

FILES = {
    "crates/mb_a/src/lib.rt": "// only_said\npub fn one(a: u32)\n    ensures made { a }\n{\n    a\n}\nfn other() {\n}\n",
    "crates/mb_b/src/lib.rt": "fn two() {\n}\n",
    "crates/mb_a/mutants/wrong.edit": "",
    "docs/CONTRACTS.md": "# Promises\n\n## mb_a\n\n`one`: `made`. `wrong`\n",
    "README.md": "# Top\n",
    "docs/PROOF.md": "",
}


class Names(Room):
    def told(self, text="", page="README.md"):
        """What is told of the repository with this text added to a page."""
        for path, content in {**FILES, page: FILES.get(page, "") + text}.items():
            self.write(path, content)
        with mock.patch.object(names, "TOP", self.top), contextlib.redirect_stdout(io.StringIO()) as said:
            status = names.main()
        *told, _ = said.getvalue().splitlines()
        self.assertEqual(status, bool(told))
        return [it.partition(": ")[2] for it in told]

    def test_what_is_there_is_found(self):
        text = "`one` of `src/lib.rt`, `mb_a::lib::one`, `NAME`, [it](docs/CONTRACTS.md#mb_a), [top](#top)\n"
        self.assertEqual(self.told(text), [])

    def test_what_is_not_there_is_told(self):
        for text, told in {
            "`gone`": "gone",
            "`only_said`": "only_said",
            "`src/gone.rt`": "the path src/gone.rt",
            "`mb_b::one`": "one in mb_b",
            "[it](docs/GONE.md)": "the link docs/GONE.md",
            "[it](docs/CONTRACTS.md#gone)": "the link docs/CONTRACTS.md#gone",
            "`one`: `two`": "the clause two of `one`",
            "`other`: `made`": "the clause made of `other`",
        }.items():
            self.assertEqual(self.told(f"{text}\n"), [f"not found: {told}"])
        with mock.patch.dict(FILES, {"crates/mb_b/mutants/new.edit": ""}):
            self.assertEqual(self.told(), ["does not name crates/mb_b/mutants/new.edit"])

    def test_lengths(self):
        words = lambda count: "one\n" * (count - 1) + "end."
        twice = f"{words(20)} {words(20)}", f"- {words(20)}\n- {words(20)}"
        for text in (words(30), *twice, "| a | b |\n" * 20, f"`{'a ' * 40}`", "a" * 120):
            self.assertEqual(self.told(f"{text}\n"), [], text)
        for text in (words(31), f"| {'one ' * 31} | b |", f"See [{words(31)}](docs/CONTRACTS.md).", "a" * 121):
            self.assertEqual(len(self.told(f"{text}\n")), 1, text)
        self.assertEqual(self.told("\n```\n" + "a" * 121 + "\n```\n\n    " + "a" * 121 + "\n\n# " + "a" * 121 + "\n"), [])

    def test_the_readme_has_so_many_lines_and_words(self):
        self.assertEqual(self.told("\n" * 149), [])
        self.assertEqual(self.told("\n" * 150), ["151 lines, and at most 150 are allowed"])
        self.assertEqual(self.told("one.\n\n" * 151, "docs/OTHER.md"), [])
        line = "one " * 18 + "one.\n"
        self.assertEqual(self.told(line * 71), [])
        self.assertEqual(self.told(line * 71 + "one.\n"), ["1351 words, and at most 1350 are allowed"])

    def test_a_program_of_the_readme_stands_in_a_source(self):
        self.assertEqual(self.told("\n```rust\n  a\n}\nfn other() {\n```\n"), [])
        self.assertEqual(self.told("\n```rust\nfn gone() {\n```\n"), ["no source has what begins with fn gone() {"])
