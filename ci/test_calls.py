"""Tests of ci/calls.py: what stands in the repository agrees, and each way to differ from its header is told."""
import re
import unittest

import calls

MAILBOX, CHANNEL, BOTH = calls.headers()
CRATE, PROVED = map(calls.read, ("bindings/rust/src/ffi/*.rs", "crates/hazbultra/src/**/*.rt"))


class Calls(unittest.TestCase):
    def told(self, text, old="", new=""):
        """What a text tells once the first place of `old` is changed."""
        changed, count = re.subn(old, new, text, count=1, flags=re.S)
        self.assertEqual((count, changed != text), (1, bool(old)), old)
        return [*(calls.told_of(MAILBOX, "it", changed) if text is PROVED else calls.told_of(BOTH, "it", changed, CHANNEL[0]))]

    def test_those_that_agree(self):
        found = MAILBOX
        self.assertEqual((found[0]["hz_put"], found[0]["hz_free"]), ((["mut handle", "u64"], "u32"), (["mut handle"], "u8")))
        self.assertEqual(found[0]["hz_consumer_new"][0][:2], ["mut handle", "const u8[32]"])
        self.assertEqual((found[1]["handle"], found[2]["TOOK"]), ([("full", "bool"), ("at", "mut u8")], "1"))
        self.assertEqual(CHANNEL[0]["hz_channel_send"], (["mut end", "u64", "mut wake"], "u32"))
        self.assertEqual([self.told(CRATE), self.told(PROVED)], [[], []])

    def test_each_difference_is_told(self):
        for text in (CRATE, PROVED):
            for old, new in (
                (r"(fn hz_put\([^)]*)(u64|Word)", r"\1u32"),
                (r"(fn hz_put\([^)]*)&mut ", r"\1&"),
                (r"(fn hz_put\([^)]*\)) -> u32", r"\1"),
                (r"(fn hz_poll\([^)]*), \w+: u64,", r"\1,") if text is PROVED else (r"(fn hz_poll\([^)]*)budget: u64,", r"\1"),
                (r"(fn hz_consumer_new\([^)]*); 32\]", r"\1; 16]"),
                (r"(repr\(C\)\](?:\s*#\[[^]]*\])*\s*pub(?:\(\w+\))? struct Lane(?:Out)? \{[^}]*)u64", r"\1u32"),
                (r"TOOK: u32 = 1", "TOOK: u32 = 2"),
                (r"TOOK: u32", "TAKEN: u32"),
            ):
                self.assertEqual(len(self.told(text, old, new)), 1, (text is PROVED, old))
            self.assertEqual(len(self.told(text, "hz_free", "hz_drop")), 2)

    def test_the_crate_may_lack_calls_of_the_channel(self):
        self.assertNotIn("fn hz_channel_receive(", CRATE)
        self.assertEqual(self.told(CRATE, r"pub\(super\) fn hz_channel_pay\([^;]*;", ""), [])
        for old, new in (
            (r"fn hz_channel_pay\(", "fn hz_channel_paid("),
            (r"(fn hz_channel_send\([^)]*)Word", r"\1u32"),
            (r"(struct End \{[^}]*)bool", r"\1u8"),
            (r"struct Wake \{", "struct Woken {"),
        ):
            self.assertEqual(len(self.told(CRATE, old, new)), 1, old)
