#!/usr/bin/env python3
"""Draws a value's way through a segment of a channel as SVG: examples/draw_channel.py > docs/pictures/channel.svg

The accesses are those of `send` and `receive` in crates/mb_segment (`src/sending.rt`, `receiving.rt`, `waiting.rt`), in one order
of two threads. They are written down here by hand, and nothing compares them with those sources. What a load finds is computed.
"""
import draw

SENDER, RECEIVER, POSITION = ("sender",), ("receiver",), ("position",)
HEADS = {SENDER: ("sender", "one thread"), RECEIVER: ("receiver", "another thread"), POSITION: ("position 0", "and its slot")}
# Each access: who makes it, the word, what it stores there if it stores, and what it comes to.
STEPS = [
    (RECEIVER, "claimed", None, "looks"),
    (RECEIVER, "state 0", None, ""),
    (RECEIVER, "drawn", None, "nothing waits"),
    (RECEIVER, "list", "1 waits", "enters"),
    (RECEIVER, "claimed", None, "looks again"),
    (RECEIVER, "state 0", None, ""),
    (RECEIVER, "drawn", None, "nothing yet: sleeps"),
    (SENDER, "drawn", None, "looks"),
    (SENDER, "drawn", "1", "draws position 0"),
    (SENDER, "state 0", "1", "marks it"),
    (SENDER, "list", None, "somebody waits"),
    (SENDER, "list", "1 token", "gives a token"),
    (RECEIVER, "list", "0", "takes the token"),
    (RECEIVER, "claimed", None, "looks"),
    (RECEIVER, "state 0", None, "it is marked"),
    (RECEIVER, "claimed", "1", "claims position 0"),
    (RECEIVER, "list", None, "reads the value"),
]
# Spans of time, in rows that count from 1: the first, the last, and the style.
BOXES = [(RECEIVER, 4, 7, "f lost"), (RECEIVER, 8, 12, "f undecided"), (SENDER, 9, 12, "f lost"), (RECEIVER, 13, 16, "f lost")]
PLACES = [(1, 8, "quiet", "free"), (9, 9, "load", "drawn"), (10, 15, "store", "marked"), (16, 16, "won", "claimed"), (17, 17, "took", "read")]
FORMS = [("store", "drawn", "store"), ("load", "list", "load: what it found"), ("line", "", "from store to load")]
FORMS += [("quiet", "", "finds nothing"), ("f undecided", "", "asleep"), ("f lost", "", "owes a wake or a look")]
LEGEND = FORMS, """drawn = 0 := 1: a compare-exchange found 0, stored 1.
drawn, claimed: how many positions are drawn, and claimed.
list: how many wait without a token, and tokens not taken.
state 0: of position 0: 0, and 1 once it is marked.
The sender fills the slot just before it marks the position.
The receiver empties it just before its last load.
Peeks at the list tell nothing, and are not shown.
Whoever has given a token then wakes a thread."""


def marks():
    """A mark for each access. A load finds what was last stored in its word, or 0, and so does a compare-exchange."""
    words = {}
    for column, word, stored, remark in STEPS:
        is_plain = stored and word.startswith("state")  # (a position's state is stored without looking)
        found = "" if is_plain else words.get(word, "0")
        words[word] = stored or words.get(word, "0")
        yield draw.Mark(column, (word,), found, stored or "", remark)


def span(tone, left, width, first, last):
    """A box round some rows of a column."""
    above, below = draw.middle(first - 1) - draw.ROW // 2 + 1, draw.middle(last - 1) + draw.ROW // 2 - 1
    if tone.startswith("f "):
        return draw.box(tone[2:], True, left, width, above, below)
    return f"<rect class='p {tone}' x='{left}' y='{above}' width='{width}' height='{below - above}' rx='2'/>\n"


def picture():
    title, rows = "A value's way through a segment of a channel", [*marks()]
    places, routes, width = draw.layout(HEADS, rows, draw.lines_of(rows))
    left, wide = places[POSITION]
    boxes = "".join(span(tone, *places[column], first, last) for column, first, last, tone in BOXES)
    for first, last, tone, says in PLACES:
        kind = "m in" if tone == "took" else "m"
        boxes += span(tone, left, wide, first, last) + draw.text(kind, left + wide // 2, draw.middle(first - 1) + 4, says)
    body = draw.text("t", 12, 24, title) + draw.chart(HEADS, rows, boxes, places, routes, width)
    more, height = draw.legend(*LEGEND, draw.middle(len(rows)) + 14)
    says = "".join(f" {it.column[0]}: {it.label()} {it.remark};" for it in rows)
    return draw.page(title, f"Time runs downward, one access a row.{says}", width, height, body + more)


if __name__ == "__main__":
    print(end=picture())
