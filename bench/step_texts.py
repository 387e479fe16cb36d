"""What `crates/step_check` is run on: step files, and files near them, one task a line with files that may be its products.

    python3 bench/step_texts.py

It writes the program's `stdin` and `stdout`. The files of the five steps of a small BUILD are those of step_build.py; which of the
others are tasks and products is said here, byte by byte. Each step of that BUILD, and of one of the sample cube, is run too: its
product is that of step_build.py. docs/FORMATS.md has the formats. The lines from the first one on that begins with `# ` are cases written
by hand; they stay as they are.
"""

import hashlib
import os

from step_build import HERE, Cube, body_of, build_of, frame, sized, steps_of, u8

FOLDER = os.path.join(HERE, "..", "crates", "step_check")

# a date, a number that a lookup knows, and a price, of whose numbers the different ones are counted
DESCRIPTOR = b"""{"name":"c","tables":[{"name":"F","columns":[{"name":"D","type":"date"},{"name":"K","type":"int"},{"name":"M","type":"decimal"}]},\
{"name":"L","columns":[{"name":"I","type":"int"},{"name":"V","type":"text"}]}],"fact_table":"F",\
"lookups":[{"table":"L","join":{"type":"inner","primary_key":["I"],"foreign_key":["K"]}}],"partition_date_column":"D",\
"dimensions":[{"table":"F","column":"D"},{"table":"F","column":"K"}],"measures":[\
{"name":"N","function":{"expression":"COUNT","parameter":{"type":"constant","value":"1"}}},\
{"name":"S","function":{"expression":"SUM","parameter":{"type":"column","value":"M"}}},\
{"name":"A","function":{"expression":"MIN","parameter":{"type":"column","value":"M"}}},\
{"name":"B","function":{"expression":"MAX","parameter":{"type":"column","value":"M"}}},\
{"name":"C","function":{"expression":"COUNT_DISTINCT","parameter":{"type":"column","value":"K"}}}],\
"rowkey":["F.D","F.K"],"aggregation_groups":[{"includes":["F.D","F.K"]}]}"""

FIRST, SECOND, END = b"2012-01-01", b"2012-01-02", b"2012-02-01"
FACT = [[FIRST, 7, -5], [SECOND, 8, 20000]]
LOOKUP = [[7, b"x"], [8, None]]

# how many rows the BUILD of the sample cube has
SAMPLE_ROWS = 20

# for each kind: a place behind the descriptor, the byte that stands there instead, and whether the file is a task still
OTHER_TASKS = [
    [
        (6, 51, False),  # the end before the start
        (6, 50, False),  # a month 21
        (8, 51, True),
        (20, 255, False),  # rows without end
        (85, 1, False),  # a text's tag changed
        (99, 255, False),  # more bytes than are there
        (108, 7, False),  # a key of the lookup twice
        (109, 2, False),  # a null made a text
    ],
    [
        (0, 255, False),
        (3, 1, False),  # rows left over
        (11, 52, False),  # no date
        (24, 9, True),
    ],
    [
        (85, 2, False),  # a dictionary too few
        (113, 51, False),  # a day that isn't in its dictionary
        (126, 8, False),  # a dictionary that doesn't rise
        (157, 9, False),  # a value that isn't in its dictionary
    ],
    [
        (3, 0, False),  # a layer without parents, with one
        (3, 2, False),
        (7, 2, False),  # sizes too few
        (11, 1, False),  # a number that isn't below its size
        (16, 11, True),
        (16, 12, False),  # a size beyond 200,000,000
        (19, 3, True),
        (23, 2, False),  # tables too few
        (31, 1, False),  # a mask that is no parent's
        (51, 0, False),  # a count of 0
        (51, 2, True),
    ],
    [
        (6, 51, False),
        (22, 3, True),
        (22, 4, False),  # more than 1,000 snapshots
        (23, 0, False),  # none
        (31, 2, False),  # the steps don't begin with 1
        (60, 9, True),
        (-25, 3, False),  # masks that don't rise
        (-9, 9, True),
        (-1, 9, True),
    ],
]

# the same of the body of the product
OTHER_PRODUCTS = [
    [(0, 255, False), (3, 1, False), (11, 52, False), (81, 9, True)],
    [(3, 2, False), (31, 51, False), (75, 9, False)],
    [
        (7, 1, False),  # another mask
        (15, 2, False),  # a number that isn't below its size
        (19, 2, False),
        (27, 0, False),  # a count of 0
        (27, 2, True),
        (28, 64, False),  # a sum beyond 2 to the power of 63 times the count
        (43, 0, True),
        (51, 240, True),
        (51, 255, False),  # a least value above the greatest
        (63, 0, False),  # an empty list of numbers
        (67, 1, True),
        (67, 2, False),  # a number that isn't below its size
        (71, 0, True),
    ],
    [(3, 1, False), (11, 2, False), (-5, 0, False), (-5, 2, False), (-1, 0, True), (-1, 2, False)],
    [(23, 2, False), (60, 9, False), (-1, 9, False)],
]


def changed(data, place, byte):
    at = place % len(data)
    assert data[at] != byte
    return data[:at] + bytes([byte]) + data[at + 1 :]


def other_frames(digest, body):
    """Files that are near a product and are none."""
    good = frame(body, digest)
    return [
        changed(good, 0, 0),
        changed(good, 50, good[50] ^ 1),
        changed(good, -1, good[-1] ^ 1),
        good[:-1],
        good + b"\0",
        frame(body),
        frame(body + b"\0", digest),
        frame(body[:-1], digest),
        frame(body, digest, 2),
    ]


def lines():
    """Each line as its files, and what it is answered."""
    kinds = []
    for number, (_, task, product) in enumerate(steps_of(Cube(DESCRIPTOR), (FIRST, END), [FACT, LOOKUP])):
        body = body_of(task)
        work = 1 if number == 4 else 1 + len(sized(DESCRIPTOR))
        kinds.append((task, body[:work], body[work:], body_of(product), hashlib.sha256(task).digest()))
    for (task, head, work, product, digest), tasks, products in zip(kinds, OTHER_TASKS, OTHER_PRODUCTS):
        others = other_frames(digest, product)
        near = [frame(changed(product, place, byte), digest) for place, byte, _ in products]
        yield (
            [task, frame(product, digest)] + others + near,
            ["task", "product"] + ["Damaged"] * len(others) + ["product" if fits else "Damaged" for _, _, fits in products],
        )
        for place, byte, fits in tasks:
            yield [frame(head + changed(work, place, byte))], ["task" if fits else "BadTask"]
        yield [changed(task, 10, 1)], ["BadTask"]
        yield [frame(head + work, digest)], ["BadTask"]
        yield [frame(head + work, version=2)], ["BadTask"]
        yield [frame(head + work + b"\0")], ["BadTask"]
    dict_head = kinds[1][1]
    yield [frame(dict_head + b"\xff\xff\xff\xff")], ["BadTask"]  # rows without end
    for tag in (0, 6, 7):
        yield [frame(u8(tag) + dict_head[1:] + kinds[1][2])], ["BadTask"]
    yield [bytes(10)], ["BadTask"]
    yield [frame(b"")], ["BadTask"]
    yield [frame(b"")[:-1]], ["BadTask"]
    front = frame(b"")[:42] + b"\xff" * 8
    yield [front + hashlib.sha256(front).digest()], ["BadTask"]


def runs():
    """Each line that runs a step as its word and its task, and what it is answered."""
    for _, task, product in steps_of(Cube(DESCRIPTOR), (FIRST, END), [FACT, LOOKUP]):
        yield "run", task, product.hex()
        yield "stop", task, "fault: Stopped"
    for _, task, product in build_of(SAMPLE_ROWS):
        yield "run", task, product.hex()
    for word in ("run", "stop"):
        yield word, bytes(10), "fault: BadTask"
        yield word, b"", "fault: BadTask"


def kept(name):
    """What stands behind the lines of this script: from the first head of cases on, written by hand."""
    with open(os.path.join(FOLDER, name)) as file:
        text = file.read()
    return text[text.index("# ") :]


def main():
    behind = [kept("stdin"), kept("stdout")]
    with open(os.path.join(FOLDER, "stdin"), "w") as questions, open(os.path.join(FOLDER, "stdout"), "w") as answers:
        for files, words in lines():
            print(*(file.hex() for file in files), file=questions)
            print(*words, file=answers)
        for word, task, answer in runs():
            print(word, task.hex(), file=questions)
            print(answer, file=answers)
        questions.write(behind[0])
        answers.write(behind[1])


if __name__ == "__main__":
    main()
