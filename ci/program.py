#!/usr/bin/env python3
"""Runs built programs as processes, over each example and over what only a process meets: ci/program.py PROGRAM..

An example is an entry of crates/test_program/src/examples: words, input, output, standard error, status. `main` has no contract, so
each is run here once more, from `main` on. Then each sample of a page is looked up: after a line `$ COMMAND` stands what that
prints, and a block that begins as scripts or outputs do has the first or last lines of one. The last line is `N passed, N failed`.
"""
import contextlib
import functools
import glob
import os
import pty
import re
import resource
import shlex
import subprocess
import sys
import tempfile

TOP = os.path.dirname(os.path.dirname(os.path.abspath(__file__)))
LIMIT = 60  # seconds for one run
EXAMPLE = re.compile(
    r'name: "(\w+)",\s*words: &\[(.*?)\],\s*input: "(.*?)",$\s*output: "(.*?)",$\s*error: "(.*?)",$\s*status: (\d+),', re.M | re.S
)
# The words with which lines of scripts and outputs begin.
SPELLED = tuple("ratify inputs turns process setup offer push finish step lane left diary".split())
SETUP, RATIFIER, BAD = b"setup 1 1 0 1 bits\n", b"ratify unary 1\ninputs 0\nturns 0\n", b"setup 1 1 1 1 bits\npush  0\n"
ONE = ("run", "--producers", "1", "--consumers", "1", "--items", "2", "--pairs", "1")
ONE_REPORT = b"lane 0 ended put 0 1\nleft 0\ndiary 0 0 took 0 took 1\n"
FOUR = ("run", "--producers", "2", "--consumers", "2", "--items", "2")
MANY = ("run", "--producers", "16", "--consumers", "64", "--items", "16")
# So little memory that a process starts, but has no room for a large mailbox or script.
DATA = ((resource.RLIMIT_DATA, 384 << 10),)
LONGEST = SETUP.ljust(1 << 20, b"#")
IN_WORDS = b"line 2: expected `offer <lane> <item>`, `push <lane>`, `finish <lane>` or `step <consumer> <lane> <word>`\n"


@functools.cache
def holding():
    """A folder, until this process ends, with the library of ci/yields.c."""
    folder = tempfile.TemporaryDirectory()
    subprocess.run(["cc", "-shared", "-fPIC", "-o", f"{folder.name}/yields.so", f"{TOP}/ci/yields.c"], check=True)
    return folder


def threads(most):
    """Limits with which so many threads start, and no more: there are addresses for their stacks, half a stack and some room."""
    hard = resource.getrlimit(resource.RLIMIT_STACK)[1]
    stack = 64 << 20 if hard == resource.RLIM_INFINITY else min(64 << 20, hard)
    return (resource.RLIMIT_STACK, stack), (resource.RLIMIT_AS, most * stack + stack // 2 + (4 << 20))


# What only a process meets: name, words, input, output and standard error (bytes, or the path of a device), status, limits.
ENDS = [
    ("the version", ("--version",), b"", b"mailbox 0.1.0\n", b"", 0, None),
    ("a replay, its output full", ("replay",), SETUP, "/dev/full", b"fault 12 WriteFault\n", 3, None),
    ("a ratifier, its output full", ("ratify",), RATIFIER, "/dev/full", b"fault 10 WriteFault\n", 3, None),
    ("threads, their output full", ONE, b"", "/dev/full", b"fault 4 WriteFault\n", 3, None),
    ("help, its output full", ("--help",), b"", "/dev/full", b"", 3, None),
    ("a fault, the errors full", ("replay",), BAD, b"", "/dev/full", 2, None),
    ("a refusal, the errors full", (), b"", b"", "/dev/full", 2, None),
    ("a fault at a terminal", ("replay",), BAD, b"", b"fault 3 BadLine 2\n" + IN_WORDS, 2, "terminal"),
    ("a replay of a directory", ("replay",), "/", b"", b"fault 11 ReadFault\n", 3, None),
    ("a ratifier of a directory", ("ratify",), "/", b"", b"fault 9 ReadFault\n", 3, None),
    ("a word that is no UTF-8", ("replay", b"\xff"), SETUP, b"", b"error: a word of the command line is not UTF-8\n", 2, None),
    ("no thread", ONE, b"", b"", b"fault 3 NoThread\n", 3, threads(0)),
    ("no third thread", FOUR, b"", b"", b"fault 3 NoThread\n", 3, threads(2)),
    ("a producer that waits until a consumer yields", ONE, b"", ONE_REPORT, b"", 0, "yields"),
    ("no memory for a mailbox", MANY, b"", b"", b"fault 2 NoMemory\n", 3, DATA),
    ("no memory for a script", ("replay",), LONGEST, b"", b"fault 10 NoMemory\n", 3, DATA),
    ("no memory for a ratifier", ("ratify",), LONGEST, b"", b"fault 8 NoMemory\n", 3, DATA),
    ("a script that is too long", ("replay",), LONGEST + b"#", b"", b"fault 1 TooLong\n", 2, None),
    ("a ratifier that is too long", ("ratify",), LONGEST + b"#", b"", b"fault 1 TooLong\n", 2, None),
    ("an input that is no number", ("ratify",), b"ratify unary 1\ninputs x\n", b"", b"fault 4 BadNumber 2\n", 2, None),
    ("one event too many", ("replay",), SETUP + 20001 * b"push 0\n", b"", b"fault 9 TooManyEvents\n", 2, None),
]


def read(path):
    with open(f"{TOP}/{path}", encoding="utf-8") as file:
        return file.read()


def examples():
    """The examples of the tests, in the form of `ENDS`."""
    text_of = lambda literal: re.sub(r"\\\n\s*", "", literal).replace(r"\n", "\n").encode()
    for path in sorted(glob.glob(f"{TOP}/crates/test_program/src/examples/*.rt")):
        found = EXAMPLE.findall(read(os.path.relpath(path, TOP)))
        assert len(found) == len(re.findall(r'\bname: "', read(os.path.relpath(path, TOP)))), f"an example of {path} is not read"
        for name, words, *texts, status in found:
            yield name, tuple(re.findall(r'"([^"]*)"', words)[1:]), *map(text_of, texts), int(status), None


def differences(program, words, given, output, error, status, limit):
    """What the program does otherwise than the run says, in words."""
    ours, its = pty.openpty() if limit == "terminal" else (None, None)
    opened = lambda stream, how: os.open(stream, how) if isinstance(stream, str) else subprocess.PIPE
    how = {"stdin": opened(given, os.O_RDONLY), "stdout": opened(output, os.O_WRONLY), "stderr": its or opened(error, os.O_WRONLY)}
    if isinstance(limit, tuple):
        # (with one arena the C library reserves no addresses for the memory of single threads)
        how["env"] = {**os.environ, "MALLOC_ARENA_MAX": "1"}
        how["preexec_fn"] = lambda: [resource.setrlimit(kind, (size, resource.getrlimit(kind)[1])) for kind, size in limit]
    if limit == "yields":
        how["env"] = {**os.environ, "LD_PRELOAD": f"{holding().name}/yields.so"}
    with subprocess.Popen([program, *words], **how) as ran:
        try:
            wrote = ran.communicate(given if isinstance(given, bytes) else None, timeout=LIMIT)
        except subprocess.TimeoutExpired:
            ran.kill()
            return f"no end after {LIMIT} seconds"
    for it in how.values():
        if isinstance(it, int) and it >= 0:
            os.close(it)
    if its:
        # (Linux ends a terminal by an error once nobody has its other side open)
        with open(ours, "rb", buffering=0) as terminal, contextlib.suppress(OSError):
            while part := terminal.read(4096):
                wrote = (wrote[0], (wrote[1] or b"") + part.replace(b"\r\n", b"\n"))
    pairs = (("status", status, ran.returncode), ("output", output, wrote[0]), ("standard error", error, wrote[1]))
    wrong = [it for it in pairs if not isinstance(it[1], str) and it[1] != it[2]]
    return "; ".join(f"{what} {found!r:.80}, and not {wanted!r:.80}" for what, wanted, found in wrong)


def printed(command, program):
    """What a command of a page prints, or nothing if it is none of ours."""
    crate = re.fullmatch(r"cd (crates/\w+) && rt run", command)
    if crate:
        return read(f"{crate[1]}/stdout")
    if not all(re.match(r" *(examples/script|\./mailbox|head|tail) ", f"{part} ") for part in command.split("|")):
        return ""
    ran = f"{{ {command.replace('./mailbox', shlex.quote(program))}; }} 2>&1"
    how = {"stdin": subprocess.DEVNULL, "stdout": subprocess.PIPE, "text": True, "timeout": LIMIT}
    return subprocess.run(["sh", "-c", ran], cwd=TOP, **how).stdout


def false_samples(program):
    """The samples of the pages and of the help that nothing prints, and the examples that `examples/script` does not print."""
    known = [*examples()]
    texts = [it.decode().splitlines() for run in known for it in run[2:4]]
    for name, _, script, *_ in known:
        if printed(f"examples/script {name}", program).encode() != script:
            yield f"examples/script {name}", "it does not print the script of the tests"
    for page in sorted(glob.glob("**/*.md", root_dir=TOP, recursive=True)) + ["crates/mb_program/src/help.rt"]:
        text = re.sub(r"^```(?:rust|c)\n.*?^```$", "", read(page).replace('";', "\n"), flags=re.M | re.S)
        fenced = re.findall(r"^```\w*\n(.*?)^```$", text, re.M | re.S)
        set_in = r"(?<=\n\n)(?:^ {4}.+\n)+" if page.endswith(".md") else r"(?:^  \S.*\n)+"
        for block in [*fenced, *re.findall(set_in, re.sub(r"^```.*?^```$", "", text, flags=re.M | re.S), re.M)]:
            shown, *samples = re.split(r"^\$ ", block, flags=re.M)
            for command, _, told in (it.partition("\n") for it in samples):
                if told != printed(command, program):
                    yield page, f"the sample of {command} is not what it prints"
            lines = [it.strip() for it in shown.splitlines() if it.strip()]
            is_sample = "<" not in block and any(it.split()[0] in SPELLED for it in lines)
            if is_sample and not any(lines in (it[: len(lines)], it[-len(lines) :]) for it in texts):
                yield page, f"no example has the sample that begins with {lines[0]}"


def main(programs):
    told = [(os.path.basename(it), name, differences(it, *run)) for it in programs for name, *run in [*examples(), *ENDS]]
    false = [*false_samples(programs[0])]
    print("".join(f"{', '.join(it[:-1])}: {it[-1]}\n" for it in [*told, *false] if it[-1]), end="")
    passed = sum(not it[-1] for it in told)
    print(f"{passed} passed, {len(told) - passed + len(false)} failed")
    return passed != len(told) or bool(false)


if __name__ == "__main__":
    sys.exit(main(sys.argv[1:]) if sys.argv[1:] else "ci/program.py PROGRAM..")
