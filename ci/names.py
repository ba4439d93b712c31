#!/usr/bin/env python3
"""Looks up what the pages name, counts what a reader has to read, and lists what is not there or too long.

A word between backticks has to stand in some source, or in the name of a file. In `crate::..::name` that crate has to have the
name. A path has to be the end of a file's, and a link to lead to a file and heading. In "`function`: `clause`" the function has
to have that clause. docs/CONTRACTS.md has to name each mutant. Programs on README.md and docs/PROOF.md have to be part of some
source. A sentence is text up to a full stop, a question mark or an exclamation mark before a space; code between backticks is
one word of it. The status is 0 if all is well.
"""
import os
import re
import sys

TOP = os.path.dirname(os.path.dirname(os.path.abspath(__file__)))
MOST_LINES, MOST_PAGE_WORDS, MOST_WORDS, MOST_COLUMNS = 150, 1350, 30, 120  # (the first two of README.md)
WORD = re.compile(r"[A-Za-z_]\w*")
SHOWING = ("README.md", "docs/PROOF.md")  # pages whose programs are looked up
PATH = re.compile(r"[\w.<>*-]+(?:/[\w.<>*-]+)+/?|[\w*-]+\.(?:rt|antt|md|py|sh|txt|edit)")
FENCED = re.compile(r"^( *)```.*?^\1```$", re.M | re.S)
PROGRAM = re.compile(r"^```(?:rust|antt)\n(.*?)^```$", re.M | re.S)
SET_IN = re.compile(r"(?<=\n\n)(?: {4}.*\n|\n(?= {4}))+")
LINK = re.compile(r"\[([^]]*)\]\([^)]*\)")
FUNCTION = re.compile(r"^ *(?:pub(?:\(\w+\))? |const |final )*fn (\w+)(.*?)(?=^ *\}?\{|^ *(?:pub |#\[|fn )|\Z)", re.M | re.S)
NAMES = r"(?:`[\w:]+`(?:, | and ))*`[\w:]+`"
SOURCES = tuple(".rt .antt .rs .c .h .hpp .cpp .py .sh .toml .txt .in HANDLES mailbox script run test Makefile".split())
# Words of the world outside: commands, the libraries below, placeholders of formats.
OUTSIDE = set("""a b i k l m n o p q s u v w x y rt ci cd cp rm try start holes plant fmt doc version grep rnE rn usr bin time sh
ldar stlr ldaxr stlxr neoverse __msan_unpoison find_package libc
git clone main fn use mod forever earlier widths stdin stdout stderr SeedableRng seed_from_u64 crossbeam_queue SegQueue mpsc
mb_NAME sync_channel SyncSender Selector SendFut RecvFut Recv into_stream send_blocking recv_blocking force_send""".split())


def read(path):
    with open(f"{TOP}/{path}", encoding="utf-8", errors="replace") as file:
        return file.read()


def files():
    for at, folders, names in os.walk(TOP):
        folders[:] = sorted(it for it in folders if it not in ("out", ".git", "target", "build", "__pycache__"))
        yield from (os.path.relpath(f"{at}/{it}", TOP) for it in sorted(names))


def code(path):
    return re.sub(r"--.*" if path.endswith(".antt") else r"//.*", "", read(path)) if path.endswith((".rt", ".antt")) else read(path)


class Sources:
    """The names of files, and the words of all sources and of each crate."""

    def __init__(self):
        self.files = [*files()]
        self.crates = {it.split("/")[1]: set() for it in self.files if it.startswith("crates/")}
        self.words, self.clauses = OUTSIDE | {*self.crates}, {}
        for path in self.files:
            text = code(path) if path.endswith(SOURCES) else ""
            found = {*WORD.findall(path), *WORD.findall(text)}
            self.words |= found
            if path.startswith("crates/"):
                self.crates[path.split("/")[1]] |= found
            for function, clauses in FUNCTION.findall(text) if path.endswith(".rt") else ():
                self.clauses.setdefault(function, set()).update(re.findall(r"^ *ensures (\w+) \{", clauses, re.M))

    def has_path(self, path):
        plain = re.sub(r"<\w+>|[A-Z]{4,}|\b[A-Z]\b|\*", "[^/]*", path.removeprefix("./").rstrip("/").replace(".", r"\."))
        return any(re.search(rf"(?:^|/){plain}(?:\.antt|\.rt)?(?:/|$)", it) for it in self.files)


def headings(path):
    """The headings of a page, as a link spells them."""
    return [re.sub(r"[^\w -]", "", it.lower()).replace(" ", "-") for it in re.findall("^#+ (.*)$", read(path), re.M)]


def not_found(page, sources):
    """What a page names that is not there."""
    text = FENCED.sub("", read(page))
    for target, heading in re.findall(r"\]\(([^)#]*)#?([^)]*)\)", text):
        path = os.path.normpath(f"{os.path.dirname(page)}/{target}" if target else page)
        if "://" not in target and not os.path.exists(f"{TOP}/{path}"):
            yield f"the link {target}"
        elif heading and heading not in headings(path):
            yield f"the link {target}#{heading}"
    for span in re.findall(r"`([^`\n]+)`", text):
        if span.startswith(("rattle-kit", "/")):
            continue
        yield from (f"the path {path}" for path in PATH.findall(span) if not sources.has_path(path))
        rest = PATH.sub(" ", span)
        for crate, name in re.findall(r"\b(\w+)::(?:\w+::)*(\w+)", rest):
            if name not in sources.crates.get(crate, {name}):
                yield f"{name} in {crate}"
        yield from (word for word in WORD.findall(rest) if word not in sources.words and not word.isupper())
    for names, clauses in re.findall(rf"({NAMES}): ({NAMES})", text):
        functions = [it.split("::")[-1] for it in re.findall(r"`([^`]+)`", names)]
        known = set().union(*(sources.clauses.get(it, set()) for it in functions))
        for clause in re.findall(r"`([a-z]\w*)`", clauses):
            if functions[-1] in sources.clauses and clause not in known:
                yield f"the clause {clause} of {names}"


def not_shown(text, sources):
    """The first line of each program on a page that stands in no source, whatever the indentation there."""
    plain = lambda it: "\n".join(map(str.strip, it.splitlines()))
    programs = [plain(read(it)) for it in sources.files if it.endswith((".rs", ".rt", ".antt"))]
    return [it.partition("\n")[0] for it in PROGRAM.findall(text) if not any(plain(it) in one for one in programs)]


def texts(prose):
    """The paragraphs, headings, list items and cells of a page without code, each as one line."""
    prose = re.sub(r"^#.*", r"\g<0>\n", prose, flags=re.M)
    for block in re.split(r"\n\s*\n|^(?= *(?:[-*]|\d+\.) )|^(?=[#|])|(?<=\|)\n", prose, flags=re.M):
        for cell in block.strip("| \n").split("|") if block.startswith("|") else [block]:
            yield re.sub(r"^ *(?:#+|[-*]|\d+\.) ", "", " ".join(cell.split()))


def too_long(page, text):
    """What is too long on a page."""
    count = lambda it: len(re.findall(r"\S*\w\S*", it))
    counts = ("lines", len(text.splitlines()), MOST_LINES), ("words", count(LINK.sub(r"\1", text)), MOST_PAGE_WORDS)
    for what, many, most in counts:
        if page == "README.md" and many > most:
            yield f"{many} {what}, and at most {most} are allowed"
    prose = SET_IN.sub("\n", FENCED.sub("", text))
    for it in texts(prose):
        for sentence in re.split(r"(?<=[.!?])[)\"*]*\s+", LINK.sub(r"\1", re.sub(r"`[^`]+`", "code", it))):
            if count(sentence) > MOST_WORDS:
                yield f"a sentence of {count(sentence)} words: {sentence[:50]} .."
    for line in prose.splitlines():
        if len(line) > MOST_COLUMNS and not line.lstrip().startswith(("|", "#", "![")):
            yield f"a line of {len(line)} columns: {line[:40].strip()} .."


def main():
    sources = Sources()
    told = [f"{page}: no source has what begins with {it}" for page in SHOWING for it in not_shown(read(page), sources)]
    promises, mutants = read("docs/CONTRACTS.md"), [it for it in sources.files if it.endswith(".edit")]
    told += [f"docs/CONTRACTS.md: does not name {it}" for it in mutants if f"`{os.path.basename(it)[:-5]}`" not in promises]
    for page in (it for it in sources.files if it.endswith(".md") and "/must-fail/" not in it):
        told += [f"{page}: {it}" for it in too_long(page, read(page))]
        told += [f"{page}: not found: {it}" for it in dict.fromkeys(not_found(page, sources))]
    print("\n".join([*told, f"{len(told)} not found or too long"]))
    return bool(told)


if __name__ == "__main__":
    sys.exit(main())
