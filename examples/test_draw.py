#!/usr/bin/env python3
"""Tests of draw.py, over a build of the program and the script of each example: `examples/test_draw.py PROGRAM`."""
import glob
import os
import re
import subprocess
import sys
import unittest
import xml.etree.ElementTree as ElementTree

sys.dont_write_bytecode = True
import draw

HERE = os.path.dirname(os.path.abspath(__file__))
PROGRAM = os.path.abspath(sys.argv.pop(1)) if len(sys.argv) > 1 else draw.MAILBOX
SVG = "{http://www.w3.org/2000/svg}"
ODD = "<b>&\"'"


def examples():
    """The name of each example that is a script, and the command of ./mailbox that reads it."""
    for path in glob.glob(f"{HERE}/../crates/test_program/src/examples/*.rt"):
        with open(path, encoding="utf-8") as file:
            yield from re.findall(r'name: "(\w+)",\s*words: &\["mailbox", "(replay|ratify)"\]', file.read())


def run(*words, script=b""):
    return subprocess.run(words, input=script, capture_output=True)


class Pictures(unittest.TestCase):
    def texts(self, picture):
        """Checks that a picture is well-formed, with a title and a description for screen readers. Returns its texts."""
        root = ElementTree.fromstring(picture)
        self.assertEqual((root.tag, root.get("role")), (f"{SVG}svg", "img"))
        named = [it.get("id") for it in (root.find(f"{SVG}title"), root.find(f"{SVG}desc")) if it.text]
        self.assertEqual(root.get("aria-labelledby").split(), named)
        return [it.text for it in root.iter()]

    def test_each_example(self):
        kept = {os.path.basename(it).removesuffix(".svg"): it for it in glob.glob(f"{HERE}/../docs/pictures/*.svg")}
        for name, command in examples():
            with self.subTest(name):
                script = run(f"{HERE}/script", name).stdout
                its, ours = run(PROGRAM, command, script=script), run(f"{HERE}/draw.py", PROGRAM, script=script)
                self.assertEqual((ours.returncode, ours.stderr), (its.returncode, its.stderr))
                self.assertEqual(ours.stdout, b"") if its.returncode else self.texts(ours.stdout)
                if name in kept:
                    with open(kept.pop(name), "rb") as file:
                        self.assertEqual(ours.stdout, file.read())
        self.assertEqual(sorted(kept), ["channel", "crates"], "no example has these names")

    def test_the_crates_and_the_channel(self):
        for name in ("crates", "channel"):
            with self.subTest(name):
                ours = run(f"{HERE}/draw_{name}.py").stdout
                self.texts(ours)
                with open(f"{HERE}/../docs/pictures/{name}.svg", "rb") as file:
                    self.assertEqual(ours, file.read(), f"examples/draw_{name}.py > docs/pictures/{name}.svg")

    def test_what_is_not_shown_is_counted(self):
        said = "offer 0 5 full\n" * 203 + "diary 0 0\n" * 2 + "diary 0 0 begun\n" * 201
        told = self.texts(draw.picture("setup 1 1 0 1 bits\n" + "offer 0 5\n" * 203, said))
        self.assertEqual((told.count("full"), told.count("diary 0 0 begun")), (200, 200))
        self.assertIn("3 events more are not drawn. The report is of all.", told)
        self.assertLess({"diaries with no note, not shown: 2", "further lines, not shown: 1"}, set(told))

    def test_texts_are_escaped(self):
        said = f"offer 0 {ODD} cell 0\npush 0 item 0\nlane 0 {ODD}\n"
        told = self.texts(draw.picture("setup 1 1 1 1 bits\noffer\npush\n", said))
        self.assertIn(f"Time runs downward, one event a row. The report: lane 0 {ODD}; ", told)
        self.assertLess({f"offer {ODD}", f"item 0 := {ODD}", f"lane 0 {ODD}"}, set(told))


if __name__ == "__main__":
    unittest.main()
