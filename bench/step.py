"""Times `cubes step` over the steps of a BUILD, each as a child of its own, and compares each product with the wanted one.

What a child does before its work is timed by files that it refuses: one that is no frame (it starts and reads the bytes of the file), one
with a wrong digest (it takes the SHA-256 too), and a frame with one byte more in its body (it reads the task too). A child takes the
SHA-256 of its task's frame, of its task's file and of its product, so the time of one is counted for the bytes of all three. The rest is
the work alone: from the task to the product, with the write of the product's file.
"""

import os
import subprocess
import sys
import tempfile
import time
from dataclasses import dataclass

from measure import HERE, fastest, megabytes
from step_build import body_of, build_of, frame

CUBES = os.environ.get("CUBES", os.path.join(HERE, "..", "cubes"))
REPEATS = 5
MOST = 6.0  # the time of all steps is at most so many times that of the work alone


@dataclass
class Share:
    """The seconds of one child, and what they go to."""

    whole: float
    start: float
    digest: float
    reading: float

    def alone(self):
        return self.whole - self.start - self.digest - self.reading


def write(path, file):
    with open(path, "wb") as out:
        out.write(file)


def refused(words):
    """The fastest of some runs of a child that has no task."""
    seconds = []
    for _ in range(REPEATS):
        begun = time.perf_counter()
        ended = subprocess.run(words, stdout=subprocess.PIPE, check=False)
        seconds.append(time.perf_counter() - begun)
        if ended.returncode != 9 or ended.stdout != b"fault: BadTask\n":
            raise SystemExit(f"a file that is no task was answered with {ended.returncode}")
    return min(seconds)


def share_of(folder, task, product):
    """Runs a step, whose product must be the wanted one, and the files that are refused for its task."""
    at, to, stop, bad = (os.path.join(folder, name) for name in ("t.task", "t.product", "t.stop", "bad.task"))
    write(at, task)
    taken = fastest([CUBES, "step", at, to, stop], REPEATS)
    with open(to, "rb") as file:
        if file.read() != product:
            raise SystemExit("a product is not the wanted one")
    words = [CUBES, "step", bad, to, stop]
    write(bad, b"X" + task[1:])
    start = refused(words)
    write(bad, task[:-1] + bytes([task[-1] ^ 1]))
    torn = refused(words)
    write(bad, frame(body_of(task) + b"\0"))
    longer = refused(words)
    one = max(torn - start, 0.0)
    digest = one * (2 * len(task) + len(product)) / len(task)
    return Share(taken.seconds, start, digest, max(longer - torn, 0.0)), taken.peak_bytes


def main():
    rows = int(sys.argv[1]) if len(sys.argv) > 1 else 200000
    print(f"{rows} rows")
    print(f"{'step':<10} {'task':>10} {'product':>10} {'seconds':>8} {'SHA-256':>8} {'reading':>8} {'alone':>8} {'peak':>11}")
    whole = alone = 0.0
    with tempfile.TemporaryDirectory() as folder:
        for name, task, product in build_of(rows):
            share, peak = share_of(folder, task, product)
            whole, alone = whole + share.whole, alone + share.alone()
            parts = f"{share.digest / share.whole:>7.0%}  {share.reading / share.whole:>7.0%} {share.alone():>8.3f}"
            print(f"{name:<10} {megabytes(len(task)):>10} {megabytes(len(product)):>10} {share.whole:>8.3f} {parts} {megabytes(peak):>11}")
    times = f"{whole / alone:.1f}" if alone > 0 else "too many"
    print(f"all steps {whole:.3f} s, the work alone {alone:.3f} s, {times} times (at most {MOST:.0f})")
    sys.exit(0 if whole <= MOST * alone else 1)


main()
