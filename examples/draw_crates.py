#!/usr/bin/env python3
"""Draws the crates as SVG, by crates.txt and the list of docs/ARCHITECTURE.md: examples/draw_crates.py > docs/pictures/crates.svg

The product's crates are in layers, with a line from each to those that it uses. No line leads to those that it uses through a third.
"""
import functools
import os
import re
import textwrap

import draw

TOP = os.path.join(os.path.dirname(os.path.realpath(__file__)), "..")
WIDTH, BOX, LETTERS, GAP = 888, 208, 26, 42  # how wide all is, and a box; how many letters a line has; between two rows
OTHERS = {"example": "Samples", "bench": "Measuring", "test": "Tests"}


def found(pattern, path):
    with open(f"{TOP}/{path}", encoding="utf-8") as file:
        return dict(re.findall(pattern, file.read(), re.M))


def crates():
    """Each crate with the crates of the repository that it uses, without those that it uses through another."""
    lines = found(r"^(\w+)(?: staticlib)?:(.*)$", "crates.txt")
    on = {name: [it for it in words.split() if it in lines] for name, words in lines.items()}
    below = functools.cache(lambda name: set(on[name]).union(*map(below, on[name])))
    return {name: [it for it in on[name] if not any(it in below(other) for other in on[name])] for name in on}


def layers(on):
    """The crates in layers, the highest first. Each is one layer below the lowest crate that uses it."""
    low = functools.cache(lambda name: 1 + max(map(low, on[name]), default=-1))
    high = functools.cache(lambda name: min([high(it) - 1 for it in on if name in on[it]], default=low(name)))
    return [[it for it in on if high(it) == level] for level in range(max(map(low, on)), -1, -1)]


def box(name, says, tone, middle, y, height):
    """A box with a crate's name, and lines below it."""
    place = f"x='{middle - BOX // 2}' y='{y}' width='{BOX}' height='{height}' rx='4'"
    told = f"<rect class='p {tone}' {place}/>\n" + draw.text("b m", middle, y + draw.TEXT, name)
    return told + "".join(draw.text("m", middle, y + at * draw.TEXT, it) for at, it in enumerate(says, 2))


def picture():
    on, phrases = crates(), found(r"^- `(\w+)`: ([^.]+)\.", "docs/ARCHITECTURE.md")
    ours = {it: on[it] for it in on if it.split("_")[0] not in OTHERS}
    phrases |= {it: "on " + (", ".join(on[it]) or "no other") for it in on if it not in ours}
    says = {it: textwrap.wrap(phrases[it], LETTERS) for it in on}
    rows = [("", it) for it in layers(ours)]
    for kind, title in OTHERS.items():
        names = sorted((it for it in on if it.split("_")[0] == kind), key=lambda it: len(says[it]))
        rows += [(title * (at == 0), names[at : at + 4]) for at in range(0, len(names), 4)]
    told = draw.text("t", 12, 24, "The crates") + draw.text("g", 12, 46, "Blue: no other crate of the product stands on it.")
    y, ends, users = 66, {}, {name: [it for it in ours if name in on[it]] for name in on}
    for title, row in rows:
        row.sort(key=lambda name: name in ours and sum(ends[it][0] for it in users[name]) / (len(users[name]) or 1))
        height = draw.TEXT * (1 + max(len(says[it]) for it in row)) + 8
        told += draw.text("b", 12, y - 10, title) * bool(title)
        for at, name in enumerate(row):
            middle = (2 * at + 1) * WIDTH // (2 * (len(row) if name in ours else 4))
            lines = "".join("M{} {}L{} {}".format(*ends[it], middle, y) for it in users[name] if name in ours)
            tone = "load" if name not in ours else "store" if users[name] else "won"
            told += f"<path class='line' d='{lines}'/>\n" * bool(lines) + box(name, says[name], tone, middle, y, height)
            ends[name] = middle, y + height
        y += height + GAP
    return draw.page("The crates", "The crates of the product in layers, and below them the others.", WIDTH, y - 30, told)


print(end=picture())
