"""Compares the base cuboid and the cuboids of seven, six and five dimensions of seeded rows, made in 1, 2 and 4 pieces, with SQLite
making as many group-by tables of the same rows, in one run.

Usage: layers.py [ROWS [rows]]: 200,000 rows where none are named; with `rows` SQLite makes each table from the rows.
"""

import os
import re
import subprocess
import sys

from measure import HERE

REPEATS = 3
PROGRAM = os.path.join(HERE, "..", "crates", "layer_bench", "out", "layer_bench")


def timed(words):
    """What a command writes, and the seconds that the base and all layers took, which it tells in milliseconds."""
    done = subprocess.run(words, stdin=subprocess.DEVNULL, capture_output=True, text=True, check=True)
    seconds = [int(it) / 1000 for it in re.findall(r"([0-9]+) ms", done.stderr)]
    return done.stdout, seconds[0], sum(seconds[1:])


def main():
    count = sys.argv[1] if len(sys.argv) > 1 else "200000"
    commands = {f"{pieces} pieces": [PROGRAM, count, str(pieces)] for pieces in (1, 2, 4)}
    commands["sqlite3"] = [sys.executable, os.path.join(HERE, "layers_sqlite.py"), count, *sys.argv[2:]]
    runs = {name: [] for name in commands}
    for _ in range(REPEATS):
        for name, words in commands.items():
            runs[name].append(timed(words))
    outputs = {output for them in runs.values() for output, _, _ in them}
    if len(outputs) != 1:
        raise SystemExit("the outputs differ")
    print(outputs.pop(), end="")
    fastest = {name: min(base + layers for _, base, layers in them) for name, them in runs.items()}
    for name, them in runs.items():
        base = min(it for _, it, _ in them)
        layers = min(it for _, _, it in them)
        ratio = fastest[name] / fastest["sqlite3"]
        print(f"{name:<10} base {base:.3f} s, layers {layers:.3f} s, together {fastest[name]:.3f} s, ratio {ratio:.2f}")


main()
