"""The lines `select` of `crates/cell_check`, and what must be printed for them, by a plain filter of this script's own.

    python3 bench/select_lines.py

It writes them into the program's `stdin` and `stdout`, below the headings that begin with `# Picks rows`, up to the next empty line. The tests of
the last lines are seeded. All other lines stay as they are.
"""

import os
import random

FOLDER = os.path.join(os.path.dirname(os.path.abspath(__file__)), "..", "crates", "cell_check")
HEADING = "# Picks rows"
GREATEST = 4294967295

# A test is a column and its spans, each from a number to one below a number.
WRITTEN = [
    ("# Picks rows of a table by spans of their keys' numbers; each row's key is its place, and what is left of it by 7 and by 3", [
        (100, [(0, [(3, 5), (98, 200)])]),
        (100, [(0, [])]),
        (100, []),
    ]),
    ("# .. by spans that overlap, hold no number, or end at the greatest number", [
        (100, [(0, [(15, 25), (10, 20), (30, 30), (60, 40)])]),
        (100, [(0, [(90, GREATEST)])]),
        (100, [(0, [(0, 1), (GREATEST, GREATEST)])]),
    ]),
    ("# .. by several columns, and by one column twice", [
        (100, [(1, [(2, 4)]), (2, [(0, 1)])]),
        (100, [(2, [(1, 3)]), (0, [(0, 50)]), (1, [(0, 1), (6, 7)])]),
        (100, [(0, [(0, 50)]), (0, [(40, 60)])]),
        (100, [(0, [(0, 50)]), (0, [(50, 60)])]),
    ]),
]
SIZES = [0, 1, 7, 8, 9, 100, 1000]


def keys(rows):
    return [(place, place % 7, place % 3) for place in range(rows)]


def picked(rows, tests):
    """The places of the keys whose number in each test's column is in one of its spans."""
    return [
        place for place, key in enumerate(keys(rows))
        if all(any(start <= key[column] < end for start, end in spans) for column, spans in tests)
    ]


def runs(places):
    """Places that follow one another, from the first to the place behind the last."""
    found = []
    for place in places:
        if found and found[-1][1] == place:
            found[-1][1] += 1
        else:
            found.append([place, place + 1])
    return found


def seeded_tests(generator, rows):
    tests = []
    for column, bound in ((0, rows + 2), (1, 8), (2, 4)):
        if generator.randrange(3) > 0:
            ends = [sorted(generator.choices(range(bound + 1), k=2)) for _ in range(generator.randrange(1, 4))]
            tests.append((column, [(start, end) for start, end in ends]))
    generator.shuffle(tests)
    return tests


def groups():
    generator = random.Random(24)
    seeded = [(rows, seeded_tests(generator, rows)) for rows in SIZES for _ in range(3)]
    return WRITTEN + [("# .. of tables of 0, 1, 7, 8, 9, 100 and 1,000 rows, by seeded tests", seeded)]


def case_line(rows, tests):
    words = [f"{column}:" + ",".join(f"{start}-{end}" for start, end in spans) for column, spans in tests]
    return " ".join(["select", str(rows), *words])


def answer_line(rows, tests):
    places = picked(rows, tests)
    return "".join([str(len(places)), *(f" {start}-{end}" for start, end in runs(places)), "; same"])


def replaced(text, lines):
    """The text with the lines from the heading to the next empty line replaced, or with the lines at its end where it has no such heading."""
    head, found, rest = text.partition(HEADING)
    behind = rest.partition("\n\n")[2] if found else ""
    return head.rstrip("\n") + "\n\n" + "\n".join(lines) + "\n" + (("\n" + behind) if behind else "")


def main():
    for name, line_of in (("stdin", case_line), ("stdout", answer_line)):
        lines = []
        for heading, cases in groups():
            lines += [heading, *(line_of(rows, tests) for rows, tests in cases)]
        path = os.path.join(FOLDER, name)
        with open(path, encoding="utf-8") as file:
            text = file.read()
        with open(path, "w", encoding="utf-8") as file:
            file.write(replaced(text, lines))


main()
