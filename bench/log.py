"""Times a log on a file against hashing the same bytes and writing them plainly, and how both grow with the number of entries."""

import os
import sys
import tempfile
import time

from measure import HERE, run

PROGRAM = f"{HERE}/../crates/log_bench/out/log_bench"


def timed(folder, count, size, repeats=3):
    """The least seconds of appending, opening and writing plainly, in turns."""
    least = {}
    for number in range(repeats):
        log, plain = f"{folder}/log-{number}", f"{folder}/plain-{number}"
        for name, words in (
            ("append", ["append", log, str(count), str(size)]),
            ("open", ["open", log]),
            ("plain", ["plain", plain, str(count), str(size)]),
        ):
            took = run([PROGRAM, *words]).seconds
            least[name] = min(took, least.get(name, took))
        os.remove(log)
        os.remove(plain)
    return least


def show(folder, count, size):
    least = timed(folder, count, size)
    both = least["append"] + least["open"]
    print(f"{count} entries of {size} bytes: append {least['append']:.2f} s, open {least['open']:.2f} s, plain {least['plain']:.2f} s: {both / least['plain']:.2f} times")


def main():
    count = int(sys.argv[1]) if len(sys.argv) > 1 else 100
    size = int(sys.argv[2]) if len(sys.argv) > 2 else 1 << 20
    with tempfile.TemporaryDirectory(dir=".") as folder:
        show(folder, count, size)
        for many in (1000, 2000, 4000):
            show(folder, many, 100)


main()
