#!/usr/bin/env python3
"""Tries each mutant of crates/*/mutants: is it refused by the contract of its function?

    ci/mutants.py [CRATE..]     over the libraries of this text, which it builds if they are not there
    ci/mutants.py --proved      the same right after `rt ci`, over the libraries that it left
    ci/mutants.py --texts       only whether each edit applies: no prover runs

A mutant is a file NAME.edit of these lines: `refuses: CRATE::..::FUNCTION`, `file: src/FILE.rt`, and pairs of `old: TEXT` and
`new: TEXT`. The old text stands once in that file, and in that function or in an import. With `alone: WHY` it may stand anywhere.
Mutants of different functions of a crate share a check, and its checks run one after the other, each over what those before
it proved. The other functions are not proved once more: their proofs are taken away. docs/CI.md says how they are judged. The last line is `N passed, N failed`, and the status is 0 if none failed.
"""
import os
import re
import shutil
import subprocess
import sys
import tempfile
from concurrent.futures import ThreadPoolExecutor

import kit as kits
from kit import TOP

MOST = 80  # mutants of one check
MEMORY = 3_500_000_000  # bytes: the most that one process of a check has been seen to take, with some room
PROOFS = {"Answers.antt", "Invariants.antt", "Proof.antt"}  # the files of a function's proof
LEMMAS = re.compile(r"(?:\./)?proofs/(?!\S*\b(?:Answers|Invariants|Proof)\.antt:)")
LINE = re.compile(r"(refuses|alone|file|old|new): ?(.*)")
FUNCTION = re.compile(r'^ *(?:pub(?:\([\w ]+\))? )?(?:const |final |ghost |unsafe |extern "C" )*fn (\w+)', re.M)
# What the prover says if a proof file names what the edit took away.
LOST = re.compile(r"has no field|is not in scope|has no `|was not admitted|rejected, (?:was|were) not checked")
# What it says of the edited source, or of specs/, if it cannot read that: then the check judges nothing.
UNREAD = re.compile(r"is not in scope|has no field|is no name|operand is missing|expected the end|cannot continue")


def read(path):
    with open(path, encoding="utf-8") as file:
        return file.read()


class Edit:
    """A file of mutants/. A ValueError says why it cannot be tried."""

    def __init__(self, path):
        part, name = os.path.split(path)
        self.path, self.folder, self.changes, said = path, os.path.dirname(part), [], {"file": ""}
        crate = os.path.basename(self.folder)
        for line in filter(None, read(path).split("\n")):
            found = LINE.fullmatch(line)
            if not found or found[1] == "new" and "old" not in said:
                raise ValueError(f"this line has no place: {line}")
            said[found[1]] = found[2]
            if found[1] == "new":
                self.changes.append((said["file"].strip(), said.pop("old"), found[2]))
        self.label, self.function, self.alone = f"{crate}/{name}", said.get("refuses", "").strip(), "alone" in said
        if not self.changes or "old" in said:
            raise ValueError("it has no `old:` and `new:` pair, or one without its end")
        if not self.function.startswith(f"{crate}::"):
            raise ValueError("it has no line `refuses: CRATE::..::FUNCTION` of its crate")
        self.applied({})

    def applied(self, texts):
        """The changed files by their names, on top of `texts`, which other edits have changed."""
        texts = dict(texts)
        for path, old, new in self.changes:
            if not path.startswith("src/"):
                raise ValueError(f"{path} is not in src/")
            text = texts.get(path) or read(f"{self.folder}/{path}")
            if text.count(old) != 1 or old in ("", new):
                raise ValueError(f"the text `{old}` is in {path} {text.count(old)} times, and not once, or is new as well")
            above = FUNCTION.findall(text[: text.index(old) + len(old)])
            line = text[text.rfind("\n", 0, text.index(old)) + 1 :].lstrip()
            if not self.alone and not line.startswith("use ") and above[-1:] != [self.function.split("::")[-1]]:
                raise ValueError(f"`{old}` is not in {self.function}: correct the name, or say `alone: WHY`")
            texts[path] = text.replace(old, new)
        return texts


def edits():
    """The edits of the repository that can be tried, and what is wrong with the others, by their paths."""
    listed = re.findall(r"^(\w+)", read(f"{TOP}/crates.txt"), re.M)
    found, wrong = [], {}
    for at, folders, names in os.walk(TOP):
        folders[:] = sorted(it for it in folders if it not in (".git", "out", "target"))
        place = re.fullmatch(r"crates/(\w+)/mutants", os.path.relpath(at, TOP))
        for name in sorted(it for it in names if place or it.endswith(".edit")):
            try:
                if not place or place[1] not in listed or not name.endswith(".edit"):
                    raise ValueError("nothing would try it: it is no *.edit in mutants/ of a crate of crates.txt")
                found.append(Edit(f"{at}/{name}"))
            except (ValueError, OSError) as fault:
                wrong[os.path.relpath(f"{at}/{name}", TOP)] = fault
    return found, wrong


def changed(group):
    """The files that the mutants of a group change, by their names."""
    texts = {}
    for it in group:
        texts = it.applied(texts)
    return texts


def groups(mutants):
    """The mutants of each check: one of a function, and each applies on top of the others. Those that go alone come last."""
    found = []
    for it in sorted(mutants, key=lambda it: it.alone):
        for group in found if not it.alone else ():
            if it.function in [other.function for other in group] or len(group) == MOST:
                continue
            try:
                changed([*group, it])
            except ValueError:
                continue
            group.append(it)
            break
        else:
            found.append([it])
    return found


def take_proofs(room, group):
    """Takes the proofs of the functions without a mutant away, in a copy of the crate."""
    own = ["/".join(it.function.split("::")[1:]) for it in group]
    for at, _, names in os.walk(f"{room}/proofs"):
        # (a folder with a + is of functions that call one another)
        if PROOFS & {*names} and "+" not in at and os.path.relpath(at, f"{room}/proofs") not in own:
            for name in PROOFS & {*names}:
                os.remove(f"{at}/{name}")
            with open(f"{at}/Proof.antt", "w", encoding="utf-8") as file:
                file.write("-- rt ci proves it\n")


def check(kit, crate, group, kept, is_whole):
    """What a check of the functions of the group says, in a copy of the crate with its edits, with all proofs or only theirs."""
    with tempfile.TemporaryDirectory(prefix="mutants-") as room:
        for part in kit.PARTS:
            if os.path.isdir(f"{crate.folder}/{part}"):
                shutil.copytree(f"{crate.folder}/{part}", f"{room}/{part}")
        for path, text in changed(group).items():
            with open(f"{room}/{path}", "w", encoding="utf-8") as file:
                file.write(text)
        if not is_whole:
            take_proofs(room, group)
        # (a static library is checked as a library: the proofs are the same, and no code of other crates is read)
        words = [it for it in crate.words(["--jobs", "1"], keeps=False) if it not in ("--crate-type", "staticlib")]
        words += [word for it in group for word in ("--only", it.function.partition("::")[2])]
        words = [*kit.guarded(), kit.RATTLE, "check", *words, "--incremental", kept]
        how = {"cwd": room, "stdin": subprocess.DEVNULL, "stdout": subprocess.PIPE, "stderr": subprocess.STDOUT}
        with subprocess.Popen(words, text=True, errors="replace", **how) as ran:
            said = ran.stdout.read()
            _, status, used = os.wait4(ran.pid, 0)
            ran.returncode = os.waitstatus_to_exitcode(status)
        print(f"{crate.name}: a check of {len(group)} in {used.ru_utime + used.ru_stime:.0f} processor seconds", flush=True)
        return said if ran.returncode in (0, 1) else f"{said}\nits status is {ran.returncode}"


def errors_in(place, said):
    """The prover's errors in the files whose names begin so, each with the lines that go on with it."""
    return re.findall(rf"^(?:\./)?{re.escape(place)}\S*?:\d+:\d+: error.*(?:\n  .*)*", said, re.M)


def fails(function, verdict, said):
    """Whether a proof of the function itself fails, and not only because it calls what fails, or for a name that is gone."""
    errors = errors_in("proofs/" + "/".join(function.split("::")[1:]) + "/", said)
    told = [it for it in errors if not LOST.search(it)]
    if errors and not told:
        return False
    by_search = verdict.startswith("no proof: ") and "`search` did not prove" in verdict
    return by_search or bool(told and re.match(r"not proved(;|$)", verdict))


def unread(group, said):
    """The first error that says that a changed text cannot be read, or nothing."""
    for error in (it for place in {"specs/", *changed(group)} for it in errors_in(place, said)):
        about, why = re.search(r": error\S* (`[^`]*`: )?(.*)", error).groups()
        if not about or UNREAD.search(re.sub(r"`[^`]*`", "", why)):
            return error
    return ""


def judged(group, said):
    """Of each mutant of the group whether it is refused, by its label, or why the check judges nothing."""
    verdicts = dict(re.findall(r"^fn (\S+): (.*)$", said, re.M))
    others = {it: verdict for it, verdict in verdicts.items() if it not in [mutant.function for mutant in group]}
    own = [it for it, verdict in others.items() if fails(it, verdict, said)]
    last = said.rstrip().rpartition("\n")[2]
    if not re.match(r"only=\d+ proved=\d+\b", last):
        return {}, f"the check did not come to its end, and said at last: {last}"
    if unread(group, said):
        return {}, f"the edited text cannot be read: {unread(group, said)}"
    if not group[0].alone and own:
        return {}, f"{own[0]} fails too, and no mutant is in it"
    if not group[0].alone and (lost := [it for it in errors_in("proofs/", said) if LEMMAS.match(it)]):
        return {}, f"a lemma fails: {lost[0]}"
    if not group[0].alone and "proved" not in others.values():
        return {}, "no function beside the mutants is proved in the check"
    return {it.label: fails(it.function, verdicts.get(it.function, ""), said) for it in group}, ""


def try_crate(kit, crate, mutants):
    """Tries the mutants of a crate, one group after the other. Returns how many passed and failed."""
    passed = 0
    with tempfile.TemporaryDirectory(prefix="mutants-kept-") as room:
        if os.path.isdir(f"{crate.folder}/out/incremental"):
            shutil.copytree(f"{crate.folder}/out/incremental", room, dirs_exist_ok=True)
        for group in groups(mutants):
            refused, why = {}, ""
            # What is not refused, or not judged, is tried once more with all proofs there.
            for is_whole in (True,) if group[0].alone else (False, True):
                if rest := [it for it in group if not refused.get(it.label)]:
                    found, why = judged(rest, check(kit, crate, rest, room, is_whole))
                    refused.update(found)
            passed += sum(refused.values())
            for it in group:
                word = "refused" if refused.get(it.label) else f"NOT TRIED: {why[:300]}" if why else "NOT REFUSED"
                print(f"{it.label}: {word}", flush=True)
    return passed, len(mutants) - passed


def main(words):
    if unknown := [it for it in words if it.startswith("-") and it not in ("--proved", "--texts")]:
        print(f"{' '.join(unknown)}: there is no such option\n\n{__doc__}", end="", file=sys.stderr)
        return 2
    found, wrong = edits()
    for path, why in wrong.items():
        print(f"{path}: BAD EDIT: {why}")
    if wrong or "--texts" in words:
        print(f"{len(found)} passed, {len(wrong)} failed")
        return bool(wrong)
    (kit, crates), names = kits.load(), {it for it in words if not it.startswith("--")}
    of_crate = {it.name: [edit for edit in found if edit.folder == it.folder] for it in crates.values()}
    wanted = [it for it in crates.values() if of_crate[it.name] and it.name in (names or crates)]
    held = kit.lock({it for crate in wanted for it in [crate, *crate.below()]})
    for it in dict.fromkeys(lib for crate in wanted for lib in kits.lacking(crate, "--proved" in words)):
        if it.build_rlib(["--jobs", "1"], anew=False):
            sys.exit(f"{it.name} is not proved, so nothing above it is tried")
    # The largest crate's mutants take the longest, so they begin first.
    with ThreadPoolExecutor(kits.lanes(kit, MEMORY)) as pool:
        wanted.sort(key=lambda it: -it.count(rb"\n"))
        counts = [*pool.map(lambda it: try_crate(kit, it, of_crate[it.name]), wanted)]
    passed, failed = sum(it[0] for it in counts), sum(it[1] for it in counts) + len(names - {it.name for it in wanted})
    print(f"{passed} passed, {failed} failed")
    return bool(failed) or not passed


if __name__ == "__main__":
    sys.exit(main(sys.argv[1:]))
