#!/usr/bin/env python3
"""Cases for `plan_check`: random ranges and sizes, and what slow programs of the definitions make of them.

    python3 bench/plans.py lines COUNT SEED        the lines that plan_check is to answer
    python3 bench/plans.py answers COUNT SEED      what it has to write

The programs look at all runs of ranges and add up all costs anew; they share nothing with the engine.
"""
import datetime
import random
import sys

START = datetime.date(2012, 1, 1).toordinal()


def day(number):
    return datetime.date.fromordinal(START + number).isoformat()


def chances(ranges, days):
    """All chances for so many days, as places of the first range and of the one behind the last."""
    for first in range(len(ranges)):
        for end in range(first + 2, len(ranges) + 1):
            run = ranges[first:end]
            joined = all(a[1] == b[0] for a, b in zip(run, run[1:]))
            short = all(b - a < days for a, b in run)
            if joined and short and run[-1][1] - run[0][0] >= days > run[-2][1] - run[0][0]:
                yield first, end


def merge_plan(ranges, thresholds, retain):
    last = ranges[-1][1]
    expired = [r for r in ranges if retain and r[1] <= last - retain]
    actions = [("drop", *r) for r in expired]
    ranges = [r for r in ranges if r not in expired]
    while True:
        able = [(days, min(chances(ranges, days))) for days in thresholds if any(True for _ in chances(ranges, days))]
        if not able:
            return actions
        _, (first, end) = max(able)
        whole = (ranges[first][0], ranges[end - 1][1])
        ranges[first:end] = [whole]
        actions.append(("merge", *whole))


def merge_case(rng):
    ranges, at = [], rng.randrange(3)
    for _ in range(rng.randint(1, 14)):
        length = rng.choice([1, 1, 1, 2, 3, 7])
        ranges.append((at, at + length))
        at += length + rng.choice([0, 0, 0, 0, 0, 1])
    thresholds = sorted(rng.sample([2, 3, 4, 5, 6, 7, 9, 14, 28], rng.randint(1, 3)))
    retain = rng.choice([0, 0, rng.randrange(1, at + 2)])
    line = f"plan {','.join(map(str, thresholds))} {retain} " + " ".join(f"{day(a)}:{day(b)}" for a, b in ranges)
    actions = merge_plan(list(ranges), thresholds, retain)
    return line, ", ".join(f"{verb} {day(a)} {day(b)}" for verb, a, b in actions) or "nothing"


def cost(sizes, picks, mask):
    return min([sizes[-1][1]] + [rows for other, rows, *_ in picks if mask & ~other == 0])


def next_pick(sizes, picks):
    """The next choice, or None: greatest benefit above 0, then least mask."""
    def benefit(size):
        return sum(max(0, cost(sizes, picks, mask) - size[1]) for mask, _ in sizes if mask & ~size[0] == 0)

    best = max(sizes, key=lambda size: (benefit(size), -size[0]))
    saved = benefit(best)
    if saved == 0:
        return None
    pick = (best[0], best[1], saved)
    return (*pick, sum(cost(sizes, [*picks, pick], mask) for mask, _ in sizes))


def picks_of(sizes, most):
    picks = []
    while len(picks) < most and (pick := next_pick(sizes, picks)) is not None:
        picks.append(pick)
    return picks


def sizes_of(rng):
    dimensions = rng.randint(1, 4)
    base = 2**dimensions - 1
    rows = rng.randint(1, 60)
    masks = sorted(rng.sample(range(1, base), rng.randint(0, base - 1))) if base > 1 else []
    return [(mask, rng.randint(0, rows)) for mask in masks] + [(base, rows)]


def sized(sizes):
    return " ".join(f"{mask}:{rows}" for mask, rows in sizes)


def written(picks):
    return " ".join(":".join(map(str, pick)) for pick in picks)


def greedy_case(rng):
    sizes, most = sizes_of(rng), rng.randint(0, 8)
    return f"greedy {most} {sized(sizes)}", written(picks_of(sizes, most)) or "nothing"


def trace_case(rng):
    sizes = sizes_of(rng)
    picks = picks_of(sizes, 8)
    picks = picks[:rng.randint(0, len(picks))]
    if picks and rng.random() < 0.6:
        place, item = rng.randrange(len(picks)), rng.randrange(4)
        picks[place] = tuple(n + (i == item) for i, n in enumerate(picks[place]))
    wrong = next((i for i, pick in enumerate(picks) if pick != next_pick(sizes, picks[:i])), None)
    return f"trace {sized(sizes)} | {written(picks)}".rstrip(), "ok" if wrong is None else f"wrong at {wrong}"


def main():
    what, count, seed = sys.argv[1], int(sys.argv[2]), int(sys.argv[3])
    rng = random.Random(seed)
    for number in range(count):
        line, answer = (merge_case, greedy_case, trace_case)[number % 3](rng)
        print(line if what == "lines" else answer)


if __name__ == "__main__":
    main()
