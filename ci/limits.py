#!/usr/bin/env python3
"""Holds sources to limits of size and form, and prints each place over one. The status is 0 if there is none.

No tool of the kit looks at these: rt fmt breaks neither clauses nor lines of .antt, and nothing counts lines.
"""
import os
import re
import sys

TOP = os.path.dirname(os.path.dirname(os.path.abspath(__file__)))
LINES, BODY, PARAMETERS, IMPORTS = 400, 40, 6, 20
# (comments of src/ may be three columns wider, for now)
COLUMNS, COMMENT, CLAUSE_COLUMNS, LIST_COLUMNS = {"src": 120, "proofs": 120}, 123, 100, 200
# The rules of the product fix the parameters of this function.
FIXED_FUNCTION = "work"

CLAUSE = re.compile(r" *(?:requires|ensures)\b")
IMPORT = re.compile(r" *(?:unfoldable )?(?:pub )?(?:ghost )?use ")
TACTIC = re.compile(r" *#!?\[tactic\(")
FUNCTION = re.compile(r'^( *)(?:pub(?:\([^)]*\))? )?(?:const |unsafe |final |extern "C" )*fn (\w+)', re.M)


def imports(lines):
    """How many imports stand before the first item."""
    count, is_open = 0, False
    for line in lines:
        if is_open or IMPORT.match(line):
            count += not is_open
            is_open = (is_open or "{" in line) and "}" not in line
        elif count and line.strip() and not re.match(r" *(?:--|//|#)", line):
            break
    return count


def clause_lines(lines):
    """The lines of clauses with their numbers, each from `requires` or `ensures` to the brace that closes it."""
    inside, depth = False, 0
    for number, line in enumerate(lines, 1):
        inside = inside or bool(CLAUSE.match(line))
        if inside:
            yield number, line
            depth += line.count("{") - line.count("}")
            inside = depth > 0


def parameters(text, at):
    """How many parameters stand in the round brackets that begin at `at`, `self` among them, and where they end."""
    depth, count, is_some = 0, 0, False
    for place in range(at, len(text)):
        sign = text[place] if text[place - 1 : place + 1] not in ("->", "=>") else " "
        depth -= sign in ")]}>"
        if not depth and place > at:
            break
        if sign == "," and depth == 1:
            count, is_some = count + is_some, False
        elif place > at and not sign.isspace():
            is_some = True
        depth += sign in "([{<"
    return count + is_some, place


def functions(text):
    """Of each function its name, how many parameters it has, and how many lines its body has, if it has one."""
    for found in FUNCTION.finditer(text):
        at, name = found.groups()
        given, ended = parameters(text, text.find("(", found.end()))
        # (the body begins with the signature's line, or with a brace alone after its clauses)
        is_short = text[ended : text.find("\n", ended)].rstrip().endswith("{")
        body = ended if is_short else text.find(f"\n{at}{{\n", ended)
        end = text.find(f"\n{at}}}", max(body, ended))
        is_own = body >= 0 and end >= 0 and not FUNCTION.search(text, ended, body + 1 if body > ended else ended)
        yield name, given, text.count("\n", body + 1, end) if is_own else 0


def places(path, text):
    """Each place of a file over a limit, in words."""
    lines = text.splitlines()
    if len(lines) > LINES:
        yield f"{path}: {len(lines)} lines"
    if imports(lines) > IMPORTS:
        yield f"{path}: {imports(lines)} imports at its head"
    for number, line in enumerate(lines, 1):
        is_list, most = IMPORT.match(line) or TACTIC.match(line), COLUMNS.get(path.split("/")[2], len(line))
        if len(line) > (LIST_COLUMNS if is_list else COMMENT if re.match(" *//", line) else most):
            yield f"{path}:{number}: {len(line)} columns"
    for number, line in clause_lines(lines) if path.endswith(".rt") else ():
        if len(line) > CLAUSE_COLUMNS:
            yield f"{path}:{number}: {len(line)} columns in a clause"
    for name, given, count in functions(text) if path.endswith(".rt") else ():
        # (a test may have a long table of rows)
        if count > BODY and not path.startswith("crates/test_"):
            yield f"{path}: {name} has {count} lines"
        if given > PARAMETERS and name != FIXED_FUNCTION:
            yield f"{path}: {name} has {given} parameters"


def main():
    told, count = [], 0
    for at, folders, names in os.walk(f"{TOP}/crates"):
        folders[:] = sorted(it for it in folders if it != "out")
        for path in (f"{at}/{it}" for it in sorted(names) if it.endswith((".rt", ".antt"))):
            with open(path, encoding="utf-8") as file:
                told += places(os.path.relpath(path, TOP), file.read())
            count += 1
    print("\n".join([*told, f"{count} files, {len(told)} places over a limit"]))
    return bool(told) or not count


if __name__ == "__main__":
    sys.exit(main())
