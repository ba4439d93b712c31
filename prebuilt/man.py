#!/usr/bin/env python3
"""Writes the man page of the program, made from what its `--help` prints: prebuilt/man.py PAGE [PROGRAM]

The program is by default that of ./mailbox. If a word of a command's help is not on the page, there is no page. The date is
that of the variable SOURCE_DATE_EPOCH, or else today.
"""
import datetime
import os
import re
import subprocess
import sys
import textwrap
import time

MAILBOX = os.path.join(os.path.dirname(os.path.realpath(__file__)), "..", "mailbox")
SPELLED = {"\\": "\\e", "-": "\\-", "'": "\\(aq", "`": "\\(ga", "^": "\\(ha", "~": "\\(ti"}


def run(*words):
    return subprocess.run(words, check=True, stdout=subprocess.PIPE, text=True).stdout.strip()


def escaped(line):
    """A line as roff spells it, so that it is never a request."""
    return "\\&" * line.startswith(".") + "".join(SPELLED.get(it, it) for it in line)


def filled(text):
    return "\n".join(map(escaped, textwrap.wrap(text, 76, break_on_hyphens=False)))


def body(block):
    """A block of help. Rows of two columns become a list, other indented lines stay as they are, and all else is filled."""
    kind = ""
    for line in block.splitlines():
        row = re.split(r" {3,}|(?<=[>\w])  (?=\w)", line.strip())
        now = "filled" if not line.startswith("  ") else "row" if len(row) == 2 else "kept"
        if now != kind:
            yield from [".fi"] * (kind == "kept") + [".PP"] * (now != "row") + [".nf"] * (now == "kept")
        kind = now
        if now == "row":
            yield from (".TP", f".B {escaped(row[0])}", filled(row[1]))
        else:
            yield filled(line) if now == "filled" else escaped("  " + "   ".join(row))
    yield from [".fi"] * (kind == "kept")


def parts(said):
    """Of a help what it is for, the usage, and the lines for its options and the rest. A list of commands is left out."""
    about, usage, *blocks = said.split("\n\n")
    blocks = [it.removeprefix("Options:\n") for it in blocks if not it.startswith("Commands:")]
    return about, usage.removeprefix("Usage: "), [line for it in blocks for line in body(it)]


def page(program):
    said, version = run(program, "--help"), run(program, "--version")
    about, _, more = parts(said)
    commands = re.findall(r"^  (\w+) ", said[said.index("Commands:\n") : said.index("Options:\n")], re.M)
    date = datetime.datetime.fromtimestamp(int(os.environ.get("SOURCE_DATE_EPOCH", time.time())), datetime.timezone.utc)
    told = [f'.TH MAILBOX 1 {date:%Y-%m-%d} "{version}" "User Commands"', ".SH NAME", f"mailbox \\- {about}"]
    told += [".SH SYNOPSIS", "\n.br\n".join(f".B mailbox {it}" for it in commands), ".SH OPTIONS", *more, ".SH COMMANDS"]
    for name in (it for it in commands if it != "help"):
        said = run(program, name, "--help")
        about, usage, more = parts(said)
        lines = [f".SS {name}", filled(about), ".PP", f".B {escaped(usage)}", *more]
        lost = {*escaped(said).split()} - {*"\n".join(lines).replace("\\&", "").split(), "Usage:", "Options:"}
        if lost:
            sys.exit(f"man.py: of the help of {name} is not on the page: {' '.join(sorted(lost))}")
        told += lines
    return "\n".join(told) + "\n"


if __name__ == "__main__":
    if not 2 <= len(sys.argv) <= 3 or sys.argv[1].startswith("-"):
        sys.exit(__doc__)
    made = page(sys.argv[2] if len(sys.argv) > 2 else run(MAILBOX, "--which"))
    with open(sys.argv[1], "w", encoding="ascii") as file:
        file.write(made)
