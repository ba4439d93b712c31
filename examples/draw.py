#!/usr/bin/env python3
"""Draws a script of `mailbox replay` or `mailbox ratify` as SVG.

    examples/script one_loses | examples/draw.py > one_loses.svg
    examples/script one_loses | examples/draw.py PROGRAM > one_loses.svg    # another build than that of ./mailbox

The program replays the script. If it finds a fault, there is no picture: its line is printed, and its status returned.
Status 1 is draw.py's own. A picture has columns for producers, consumers or processes, and a row for each event. A line
leads from each store to the loads that found it. Each claim has a box round it. The report below is of all events.
"""
import dataclasses
import html
import itertools
import os
import re
import subprocess
import sys
import textwrap

MAILBOX = os.path.join(os.path.dirname(os.path.realpath(__file__)), "..", "mailbox")
COUNTER = ("counter",)  # the word that counts the cells that producers took
MOST = 200  # how many events are drawn at most, and how many lines of the report are shown at most
# How high rows, marks and lines of text are; where rows and columns begin; how wide gutters and tracks in them are.
ROW, MARK, TEXT, TOP, LEFT, GUTTER, TRACK = 24, 19, 17, 76, 28, 20, 6

# How marks look, by the first word of their remark. A mark with another remark looks like a store or a load.
TONES = {"ended": "ended", "won": "won", "decided": "won", "lost": "lost", "undecided": "undecided", "took": "took"}
TONES |= dict.fromkeys(("full", "busy", "closed", "idle", "nothing", "done"), "quiet")
BOX_TONES = ("won", "lost", "undecided")
BOX_ENDS = ("lost", "undecided", "took", "decided")  # (a claim that is won ends with the load of its item)

# Colours differ in lightness, too, and boxes in their dashes, so that nobody has to tell colours apart.
LIGHT = """
text{font:12px ui-monospace,SFMono-Regular,Menlo,Consolas,'DejaVu Sans Mono',monospace;fill:#1f2328}
.b{font-weight:bold} .t{font-size:14px;font-weight:bold} .e{text-anchor:end} .m{text-anchor:middle}
.n{fill:#656d76;font-size:10px;text-anchor:end} .g{fill:#59636e} .bg{fill:#fff} .guide{stroke:#eaeef2}
.line{fill:none;stroke:#818b98;stroke-width:1.3} .tip{fill:#59636e} rect.p{stroke-width:1.2}
.load{fill:#fff;stroke:#818b98} .store{fill:#d9e0e7;stroke:#59636e}
.quiet{fill:#fff;stroke:#818b98;stroke-dasharray:2 2} .won{fill:#a8cdf0;stroke:#0a4a85}
.took{fill:#0a4a85;stroke:#0a4a85} .lost{fill:#ffdfb0;stroke:#b35900} .undecided{fill:#fbeaf4;stroke:#c2699b}
.ended{fill:#424a53;stroke:#424a53} .f{fill:none;stroke:#818b98;stroke-width:1.6}
.f.won{stroke:#0a4a85;stroke-width:2.4} .f.lost{stroke:#b35900;stroke-width:2;stroke-dasharray:8 3}
.f.undecided{stroke:#c2699b;stroke-width:2;stroke-dasharray:2 3} .in{fill:#fff}
"""
DARK = """
text{fill:#e6edf3} .n,.g{fill:#9198a1} .bg{fill:#0d1117} .guide{stroke:#21262d} .line{stroke:#7d8590} .tip{fill:#9198a1}
.load,.quiet{fill:#0d1117;stroke:#7d8590} .store{fill:#343b44;stroke:#adb5bd} .won{fill:#1d4f80;stroke:#8cc4ff}
.took{fill:#8cc4ff;stroke:#8cc4ff} .lost{fill:#5c3a10;stroke:#ffb04d} .undecided{fill:#2c1a27;stroke:#d48ab8}
.ended{fill:#c3cad1;stroke:#c3cad1} .f{fill:none;stroke:#7d8590} .f.won{stroke:#8cc4ff} .f.lost{stroke:#ffb04d}
.f.undecided{stroke:#d48ab8} .in{fill:#0d1117}
"""

# The legends: of each form its style, the text in it and its meaning; and then lines of text.
FORMS = [("store", "p := 1", "store"), ("load", "p = 1", "load: what it found"), ("line", "", "from store to load")]
REPLAY_FORMS = [("quiet", "", "came to nothing"), ("f won", "", "claim won"), ("f lost", "", "claim lost")]
REPLAY_FORMS += [("f undecided", "", "claim undecided"), ("f going", "", "claim under way")]
REPLAY_FORMS += [("took", "", "item taken"), ("ended", "", "end of the lane")]
RATIFIER_FORMS = [("f going", "", "no output yet"), ("f won", "", "decided"), ("f undecided", "", "undecided")]
REPLAY_LEGEND = FORMS + REPLAY_FORMS, """A load without a line found a word that nobody stored.
o1 p: word p of deciding object 1 of the cell.
c: word of a conciliator. p: proposal of a ratifier.
In c and p: 0, or the number of a consumer plus 1.
q0, q1: registers of a ratifier, 1 if they are set.
counter = 0: an offer found 0, and stored 1.
l = 0 := 1: an exchange found 0, and stored 1."""
RATIFIER_LEGEND = FORMS + RATIFIER_FORMS, """A load without a line found a word that nobody stored.
p: the proposal, 0 or a value plus 1.
q0, q1: registers of a ratifier, 1 if they are set."""


@dataclasses.dataclass
class Mark:
    """The mark of one event: the access that it made, and its result."""
    column: tuple  # ("producer", lane), ("consumer", consumer, lane) or ("process", process)
    word: tuple = ()  # if it made an access: the word as it is shown, and what else tells it from other words
    found: str = ""  # what it found there, if it loaded
    stored: str = ""  # what it stored there, if it stored
    remark: str = ""

    def label(self):
        """The access, as it is shown. What is stored in the counter is left out: it is what was found plus 1."""
        stored = f" := {self.stored}" * (self.stored != "" and self.word != COUNTER)
        return "".join(self.word[:1]) + f" = {self.found}" * (self.found != "") + stored

    def tone(self):
        """The name of its style."""
        return TONES.get(self.remark.split(" ")[0], "store" if self.stored else "load")


@dataclasses.dataclass
class Box:
    """The box round a claim, from the step that found its cell, or round a process's use of a ratifier. Rows count from 0."""
    column: tuple
    first: int
    last: int
    ended: bool = False
    tone: str = "going"


def access(column, name, cell, words):
    """The mark of an access to a deciding object: `load c 0`, `store p 1`, `exchange l 1 0 won`, .."""
    deed, register, value, *told = words
    found = told.pop(0) if deed == "exchange" else value
    stored = value if deed == "store" or deed == "exchange" and found == "0" else ""
    match told:
        case ["out", decided, output]:
            told = ["decided" if decided == "1" else "undecided", output]
        case ["lost", winner]:
            told = ["lost to", winner]
    return Mark(column, (name + register, *cell), found if deed != "store" else "", stored, " ".join(told))


def turn(line):
    """The mark of a line that `mailbox ratify` prints."""
    process, *words = line.split(" ")
    column = "process", int(process)
    return Mark(column, remark="done") if words == ["done"] else access(column, "", (), words)


class Replay:
    """Reads the lines of a replay, and stores what is needed to read later ones."""

    def __init__(self):
        self.links = {}  # the link that each producer or consumer accesses next, if it is not the head of its lane
        self.items = {}  # the item that each producer put into its last cell
        self.full = set()  # the producers that found no cell left: their later offers make no access
        self.added = 0  # how often one was added to the counter of cells

    def mark(self, line):
        """The mark of the next line."""
        call, number, *answer = line.split(" ")
        column = ("consumer", int(number), int(answer.pop(0))) if call == "step" else ("producer", int(number))
        link = self.links.get(column, ("head", column[-1]))
        match [call, *answer]:
            case ["offer", item, "cell", _]:
                self.items[column] = item
                return self.add(column, f"offer {item}")
            case ["offer", _, "full"] if column not in self.full:
                self.full.add(column)
                return self.add(column, "full")
            case ["push", "item", cell]:
                return Mark(column, (f"item {cell}",), stored=self.items[column])
            case ["push", "link", cell]:
                self.links[column] = (f"link {cell}",)
                return Mark(column, link, stored=f"cell {cell}", remark="put")
            case ["finish", "ended"]:
                return Mark(column, link, stored="end", remark="ended")
            case ["step", "nothing"]:
                return Mark(column, link, "0", remark="nothing")
            case ["step", "ended"]:
                return Mark(column, link, "end", remark="ended")
            case ["step", "found", cell]:
                return Mark(column, link, f"cell {cell}", remark="found")
            case ["step", "cell", cell, place, *words]:
                self.links[column] = (f"link {cell}",)
                return access(column, f"{place} ", (cell,), words)
            case ["step", "took", item]:
                return Mark(column, (link[0].replace("link", "item"),), item, remark="took")
        return Mark(column, remark=answer[-1])

    def add(self, column, remark):
        """The mark of a fetch-add of the counter, which loads and stores."""
        self.added += 1
        return Mark(column, COUNTER, str(self.added - 1), str(self.added), remark)


def lines_of(marks):
    """The lines of a picture: of each the row of a store, and the row of a load that found what it stored."""
    stores, lines = {}, []
    for row, mark in enumerate(marks):
        if mark.found and mark.word in stores:
            lines.append((stores[mark.word], row))
        if mark.stored:
            stores[mark.word] = row
    return lines


def boxes_of(marks):
    """The boxes of a picture: one for each claim, or for each process of a ratifier, from its first access on."""
    boxes, latest = [], {}
    for row, mark in enumerate(marks):
        if mark.remark == "found" or mark.column[0] == "process" and mark.column not in latest:
            latest[mark.column] = Box(mark.column, row, row)
            boxes.append(latest[mark.column])
        box = latest.get(mark.column)
        if box and not box.ended:
            box.last, box.ended = row, mark.remark.split(" ")[0] in BOX_ENDS
            box.tone = mark.tone() if mark.tone() in BOX_TONES else box.tone
    return boxes


def middle(row):
    """The y-coordinate of the middle of a row."""
    return row * ROW + TOP + ROW // 2


def letters(count):
    """How wide so many letters are: 7.25 units each."""
    return count * 29 // 4


def layout(heads, marks, lines):
    """Where each column has its marks (left, width), the route of each line, and how wide all is.

    A line leaves its store at the side of its load, goes down a track in the gutter there, and straight on to the
    load: each row has one mark, so no other is in its way. The lines of one store at one side share a track."""
    number = {it: at for at, it in enumerate(heads)}
    at_column = [number[it.column] for it in marks]
    gutters = [at_column[store] + (at_column[load] > at_column[store]) for store, load in lines]
    places, tracks, at = {}, {}, LEFT
    for gutter, column in enumerate([*heads, None]):
        last_load = {store: load for (store, load), it in zip(lines, gutters) if it == gutter}
        ends = []  # (the row of the last load on each track)
        for store in sorted(last_load):
            track = next((it for it, end in enumerate(ends) if end < store), len(ends))
            ends[track : track + 1] = [last_load[store]]
            tracks[store, gutter] = at + track * TRACK + 9
        at += len(ends) * TRACK + GUTTER
        if column:
            texts = ["  ".join(filter(None, (it.label(), it.remark))) for it in marks if it.column == column]
            places[column] = at, letters(max(9, *map(len, [*texts, *heads[column]]))) + 12
            at += places[column][1]
    routes = []
    for (store, load), gutter in zip(lines, gutters):
        (left, width), (to, its_width) = places[marks[store].column], places[marks[load].column]
        start = left + width * (gutter > at_column[store])
        end = to + its_width * (at_column[load] < at_column[store])
        routes.append((middle(store), middle(load), start, tracks[store, gutter], end))
    return places, routes, at


def text(kind, x, y, plain):
    return f"<text class='{kind}' x='{x}' y='{y}'>{html.escape(plain)}</text>\n"


def ground(tone, stores, left, width, y):
    """The ground of a mark: square for a store, round for a load."""
    place = f"x='{left}' y='{y - MARK // 2}' width='{width}' height='{MARK}' rx='{2 if stores else 9}'"
    return f"<rect class='p {tone}' {place}/>\n"


def box(tone, ended, left, width, above, below):
    """A box; one that has not ended has no lower side."""
    return f"<path class='f {tone}' d='M{left - 4} {below}V{above}H{left + width + 4}V{below}{'Z' * ended}'/>\n"


def route(above, below, start, track, end):
    """A line from a store to a load, with the tip of an arrow at the load."""
    neck = end + 7 if end < track else end - 7
    line = f"<path class='line' d='M{start} {above}H{track}V{below}H{neck}'/>\n"
    return f"{line}<path class='tip' d='M{end} {below}L{neck} {below - 4}V{below + 4}Z'/>\n"


def drawn(mark, left, width, y):
    """A mark: its label on its ground, and its remark at the right."""
    label, tone = mark.label(), mark.tone()
    dark = " in" if label and tone in ("took", "ended") else ""
    told = ground(tone, mark.stored, left, width, y) + text("d" + dark, left + 6, y + 4, label) if label else ""
    kind = ("b e" if label else "g e") + dark
    return told + (text(kind, left + width - 6, y + 4, mark.remark) if mark.remark else "")


def legend(forms, words, y):
    """The legend, and the y-coordinate of its end."""
    told, top = text("b", 12, y, "Legend"), y + 19
    for number, (form, inside, says) in enumerate(forms):
        left, y = 16 + 210 * (number % 2), top + 23 * (number // 2)
        if form == "line":
            told += route(y, y, left, left, left + 56)
        elif form.startswith("f "):
            told += box(form[2:], form != "f going", left, 56, y - 8, y + 8)
        else:
            told += ground(form, form == "store", left, 56, y) + text("d", left + 4, y + 4, inside)
        told += text("d", left + 66, y + 4, says)
    y = top + 23 * (len(forms) // 2) + 6
    for line in words.splitlines():
        told, y = told + text("g", 12, y, line), y + TEXT
    return told, y


def shown_report(lines, what):
    """The lines of the report that are shown, and lines that say how many are not."""
    kept = [it for it in lines if not re.fullmatch(r"diary \d+ \d+", it)]
    empty, more = len(lines) - len(kept), len(kept) - MOST
    told = kept[:MOST] + [f"diaries with no note, not shown: {empty}"] * (empty > 0)
    return told + [f"further {what}, not shown: {more}"] * (more > 0)


def claims(marks, places):
    """The boxes of a picture, as text."""
    told = ""
    for it in boxes_of(marks):
        end = it.last + 1 if it.ended else len(marks)
        told += box(it.tone, it.ended, *places[it.column], middle(it.first) - ROW // 2, middle(end) - ROW // 2)
    return told


def chart(heads, marks, boxes, places, routes, width):
    """Heads and rows, and over them boxes, lines and marks, in this order, so that no line runs over a mark."""
    told = ""
    for column, (left, wide) in places.items():
        one, other = heads[column]
        told += text("b m", left + wide // 2, TOP - 24, one) + text("g m", left + wide // 2, TOP - 9, other)
    for row in range(len(marks)):
        told += f"<path class='guide' d='M{LEFT} {middle(row)}H{width - 10}'/>\n"
        told += text("n", LEFT - 6, middle(row) + 4, str(row + 1))
    told += boxes + "".join(route(*it) for it in routes)
    return told + "".join(drawn(it, *places[it.column], middle(row)) for row, it in enumerate(marks))


def svg(title, heads, marks, hidden, report, its_legend):
    """The text of a picture. `hidden` is how many further events are not drawn."""
    places, routes, end = layout(heads, marks, lines_of(marks))
    width = max(end, letters(len(title)) * 7 // 6 + 24, 444)  # (the title has larger letters)
    body = text("t", 12, 24, title) + chart(heads, marks, claims(marks, places), places, routes, width)
    y = middle(len(marks)) + 10
    if hidden:
        body += text("b", 12, y, f"{hidden} events more are not drawn. The report is of all.")
        y += TEXT + 8
    body += text("b", 12, y, "Report")
    wrapper = textwrap.TextWrapper((width - 24) * 4 // 29, subsequent_indent="  ", break_long_words=False)
    for line in itertools.chain.from_iterable(map(wrapper.wrap, report)):
        y += TEXT
        body += f"<text x='{28 if line[0] == ' ' else 12}' y='{y}'>{html.escape(line.strip())}</text>\n"
    more, height = legend(*its_legend, y + TEXT + 10)
    told = "".join(f"{it}; " for it in report)
    return page(title, f"Time runs downward, one event a row. The report: {told}", width, height, body + more)


def page(title, says, width, height, body):
    """The text of a picture with this body. `title` and `says` are for screen readers."""
    # Each rule of the style gets the class of these pictures, so that it changes nothing else on a page.
    light, dark = (re.sub(r"(?m)^|(?<=,)(?=\.)", ".hz ", it.strip().replace("} ", "}\n")) for it in (LIGHT, DARK))
    return f"""<svg xmlns='http://www.w3.org/2000/svg' class='hz' width='{width}' height='{height}' \
viewBox='0 0 {width} {height}' role='img' aria-labelledby='title desc'>
<title id='title'>{html.escape(title)}</title>
<desc id='desc'>{html.escape(says)}</desc>
<style>
{light}
@media (prefers-color-scheme:dark){{
{dark}
}}
</style>
<rect class='bg' width='{width}' height='{height}'/>
{body}</svg>
"""


def picture(script, said):
    """The picture of a script, made from what the program printed for it."""
    first, *rest = [it.split(" ") for it in script.splitlines()]
    is_replay, lines = first[0] == "setup", said.splitlines()
    inputs, count = ([], len(rest)) if is_replay else (rest[0][1:], len(rest[1]) - 1)
    counts = [(count, "turn"), (len(inputs), "process"), (first[2], "value")]
    if is_replay:
        counts = [(count, "event"), *zip(first[1:], ("producer", "consumer", "cell"))]
    told = [f"{n} {one}{'' if int(n) == 1 else 'es' if one == 'process' else 's'}" for n, one in counts]
    title = ("Replay: " if is_replay else "Ratifier: ") + ", ".join(told)
    marks = list(map(Replay().mark if is_replay else turn, lines[:count][:MOST]))
    columns = sorted({it.column for it in marks}, key=lambda it: (it[0] != "producer", it[1:]))
    heads = {it: (f"{it[0]} {it[1]}", f"lane {it[-1]}" if is_replay else f"input {inputs[it[1]]}") for it in columns}
    report = shown_report(lines[count:], "lines" if is_replay else "processes")
    return svg(title, heads, marks, count - len(marks), report, REPLAY_LEGEND if is_replay else RATIFIER_LEGEND)


def main(words):
    if len(words) > 1 or words and words[0].startswith("-"):
        sys.exit("usage: draw.py [PROGRAM] < SCRIPT > PICTURE.svg")
    script = sys.stdin.buffer.read()
    command = "ratify" if script.split()[:1] == [b"ratify"] else "replay"
    ran = subprocess.run([*(words or [MAILBOX]), command], input=script, stdout=subprocess.PIPE)
    if ran.returncode == 0:
        print(end=picture(script.decode("ascii"), ran.stdout.decode("ascii")), flush=True)
    return ran.returncode


if __name__ == "__main__":
    try:
        sys.exit(main(sys.argv[1:]))
    except OSError as error:
        sys.exit(f"draw.py: {error}")
