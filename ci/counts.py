#!/usr/bin/env python3
"""Counts what is proved, to two digits, and prints what a page lacks of it: docs/PROOF.md has each row, and README.md some phrases.

The product's crates count: all but those for tests, measuring and examples. A function counts as public with a contract if it is
`pub` and has an `ensures`. A definition is an `abbrev pub`, `pub record` or `pub data` of specs/. Blank lines do not count.
The status is 0 if both pages have all.
"""
import os
import re
import sys

import limits

TOP = os.path.dirname(os.path.dirname(os.path.abspath(__file__)))
OTHERS = ("test_", "bench_", "example_")
DEFINITION = re.compile(r"^(?:abbrev pub|pub record|pub data) ", re.M)
# The head of a public function, up to its first `ensures`. It ends before its body, and before any other function.
CONTRACT = re.compile(r"^ *pub (?:const |final |unsafe |extern \"C\" )*fn (?:(?!^ *\}?\{$|^ *(?:pub |#\[|fn )).)*?^ *ensures\b", re.M | re.S)
KINDS = ("functions", "public functions with a contract", "lines of code", "lines of contracts", "definitions",
         "lines of definitions", "lines of proof", "mutants")
FRONT = ("functions", "lines of contracts", "definitions", "lines of proof", "mutants")  # (in README.md)


def found(part, name, text):
    """What a file of this part of a crate adds to the counts."""
    lines = [it for it in text.splitlines() if it.strip()]
    if part == "src":
        clauses = sum(1 for _ in limits.clause_lines(lines))
        functions, contracts = len(limits.FUNCTION.findall(text)), len(CONTRACT.findall(text))
        return dict(zip(KINDS, (functions, contracts, len(lines) - clauses, clauses)))
    if part == "specs":
        return {"definitions": len(DEFINITION.findall(text)), "lines of definitions": len(lines)}
    return {"lines of proof": len(lines)} if part == "proofs" else {"mutants": name.endswith(".edit")}


def counted(top):
    counts = dict.fromkeys(KINDS, 0)
    for at, _, names in os.walk(f"{top}/crates"):
        crate, part = (os.path.relpath(at, f"{top}/crates").split("/") + [""])[:2]
        for name in names if part in ("src", "specs", "proofs", "mutants") and not crate.startswith(OTHERS) else ():
            with open(f"{at}/{name}", encoding="utf-8") as file:
                for kind, count in found(part, name, file.read()).items():
                    counts[kind] += count
    return {kind: f"{round(count, 2 - len(str(count))):,}" for kind, count in counts.items()}


def main():
    counts, lacking = counted(TOP), []
    wanted = [("docs/PROOF.md", f"| {kind} | {counts[kind]} |") for kind in KINDS]
    for page, text in wanted + [("README.md", f"{counts[kind]} {kind}") for kind in FRONT]:
        with open(f"{TOP}/{page}", encoding="utf-8") as file:
            if text not in " ".join(file.read().split()):
                lacking.append(f"{page}: it does not say: {text}")
    print("\n".join([*lacking, f"{len(lacking)} numbers are not said"]))
    return bool(lacking)


if __name__ == "__main__":
    sys.exit(main())
