#!/usr/bin/env python3
"""Runs `mailbox run` many times with random options, and checks what each report says by itself.

    bench/check_reports.py                      # 200 runs, of up to 16 producers, 64 consumers and 256 items
    bench/check_reports.py --items 1000000      # runs until so many items were put
    bench/check_reports.py --program PATH --seed N

Of each report it checks that one assignment of items to consumers can explain it:
  - An item has one taker at most, and each taker has its value.
  - What is left is what nobody took.
  - All who lost an item name one winner. It competed, it is not the loser itself, and nobody else took the item.
  - An item that was competed for and not taken has a claim that is not finished.
It also checks what `run` promises further. Each producer has put all its items and ended its lane, and each consumer has a
note at each of them.
"""
import argparse, collections, random, subprocess, sys, time

LIMIT = 60  # seconds for one run


def words(line, head, count):
    parts = line.split(" ")
    assert parts[:1] == [head] and len(parts) > count and "" not in parts, line
    return parts[1:]


def parsed(text, producers, consumers):
    """The lanes (ended, put, left) and the diaries (notes, begun) of a report."""
    assert text.endswith("\n"), "the last line has no LF"
    lines = text[:-1].split("\n")
    assert len(lines) == 2 * producers + producers * consumers, "as many lines as lanes and diaries ask for"
    lanes, diaries = [], {}
    for p in range(producers):
        lane = words(lines[2 * p], "lane", 3)
        assert lane[0] == str(p) and lane[1] in ("open", "ended") and lane[2] == "put", lane
        left = words(lines[2 * p + 1], "left", 1)
        assert left[0] == str(p), left
        lanes.append((lane[1] == "ended", [int(x) for x in lane[3:]], [int(x) for x in left[1:]]))
    rest = iter(lines[2 * producers:])
    for c in range(consumers):
        for p in range(producers):
            diary = words(next(rest), "diary", 2)
            assert diary[:2] == [str(c), str(p)], diary
            diary, notes, begun = diary[2:], [], False
            while diary:
                if diary[0] in ("took", "lost"):
                    notes.append((diary[0], int(diary[1])))
                    diary = diary[2:]
                elif diary[0] == "undecided":
                    notes.append(("undecided", None))
                    diary = diary[1:]
                else:
                    assert diary == ["begun"], diary
                    diary, begun = [], True
            diaries[c, p] = (notes, begun)
    return lanes, diaries


def check(text, producers, consumers, items):
    """Checks a report, and counts its notes."""
    lanes, diaries = parsed(text, producers, consumers)
    counts = collections.Counter()
    for p, (ended, put, left) in enumerate(lanes):
        assert ended and put == [1000 * p + i for i in range(items)], "each producer puts all and ends"
        untaken = []
        for c in range(consumers):
            notes, begun = diaries[c, p]
            assert len(notes) == len(put) and not begun, "each consumer has a note at each item"
        for j, item in enumerate(put):
            ends = [diaries[c, p][0][j] for c in range(consumers)]
            takers = [c for c in range(consumers) if ends[c][0] == "took"]
            winners = {w for end, w in ends if end == "lost"}
            assert len(takers) <= 1 and all(ends[c][1] == item for c in takers), "one taker, of this item"
            assert len(winners) <= 1, "the losers name one winner"
            for w in winners:
                assert w < consumers and ends[w] != ("lost", w), "who competed, and not the loser itself"
                assert not takers or takers == [w], "it has the item, or nobody"
            if not takers:
                assert any(end == "undecided" for end, _ in ends), "what is left is beside a claim that is not finished"
                untaken.append(item)
            counts.update(end for end, _ in ends)
        assert left == untaken, "what is left is what nobody took"
    return counts


def main():
    parser = argparse.ArgumentParser()
    parser.add_argument("--program", default=None)
    parser.add_argument("--runs", type=int, default=200)
    parser.add_argument("--items", type=int, default=0)
    parser.add_argument("--seed", type=int, default=0)
    given = parser.parse_args()
    program = given.program or sys.path[0] + "/../mailbox"
    pick = random.Random(given.seed)
    counts, runs, items, slowest, begin = collections.Counter(), 0, 0, 0.0, time.time()
    while runs < given.runs or items < given.items:
        producers, consumers = pick.randint(1, 16), pick.randint(1, 64)
        each = 256 // producers if pick.random() < 0.5 else pick.randint(0, 256 // producers)
        options = dict(producers=producers, consumers=consumers, items=each, pairs=pick.randint(1, 8),
                       budget=pick.randint(1, 64), seed=pick.randrange(2**64))
        command = [program, "run"] + [word for name, n in options.items() for word in ("--" + name, str(n))]
        at = time.time()
        done = subprocess.run(command, capture_output=True, text=True, timeout=LIMIT)
        slowest = max(slowest, time.time() - at)
        try:
            assert done.returncode == 0 and done.stderr == "", (done.returncode, done.stderr)
            counts += check(done.stdout, producers, consumers, each)
        except (AssertionError, ValueError, IndexError):
            print(" ".join(command), done.stdout, done.stderr, sep="\n", file=sys.stderr)
            raise
        runs, items = runs + 1, items + producers * each
    print(f"{runs} runs, {items} items, notes: {dict(counts)}; "
          f"slowest run {slowest:.2f} s, all {time.time() - begin:.0f} s")


if __name__ == "__main__":
    main()
