"""Runs commands and tells how long each took and how much memory it held at most."""

import os
import subprocess
import sys
import tempfile
import time
from dataclasses import dataclass

HERE = os.path.dirname(os.path.abspath(__file__))
REPEATS = 9


@dataclass
class Run:
    seconds: float
    peak_bytes: int
    output: bytes


def run(words, input_file=None):
    """One run of a command: wall-clock seconds, peak resident bytes, standard output."""
    source = open(input_file, "rb") if input_file else subprocess.DEVNULL
    begun = time.perf_counter()
    child = subprocess.Popen(words, stdin=source, stdout=subprocess.PIPE)
    output = child.stdout.read()
    _, status, usage = os.wait4(child.pid, 0)
    seconds = time.perf_counter() - begun
    if status != 0:
        raise SystemExit(f"{words[0]} ended with {os.waitstatus_to_exitcode(status)}")
    return Run(seconds, usage.ru_maxrss * 1024, output)


def fastest(words, repeats):
    """The fastest of some runs, which must all write the same."""
    (one,) = fastest_of_each([words], repeats)
    return one


def fastest_of_each(commands, repeats):
    """The fastest of some runs of each command, which must all write the same. The commands take turns, so that other work on
    the machine meets them alike."""
    rounds = [[run(words) for words in commands] for _ in range(repeats)]
    fastest_runs = []
    for words, runs in zip(commands, zip(*rounds)):
        if any(other.output != runs[0].output for other in runs):
            raise SystemExit(f"{words[0]} wrote different outputs")
        fastest_runs.append(min(runs, key=lambda one: one.seconds))
    return fastest_runs


def megabytes(count):
    return f"{count / 2**20:.1f} MiB"


def compare(table_script, ours, *yardsticks):
    """Times commands on one seeded table, in one run, and prints each with the ratio of ours to it.

    `table_script` is the script beside this one that writes the table, given its path and a number of rows: the first word of
    the command line, else 200,000. `ours` and each of the `yardsticks` are a name and the words of a command, to which the
    table's path is added. All must write the same.
    """
    rows = int(sys.argv[1]) if len(sys.argv) > 1 else 200000
    with tempfile.TemporaryDirectory() as folder:
        table = os.path.join(folder, "table.csv")
        subprocess.run([sys.executable, os.path.join(HERE, table_script), table, str(rows)], check=True)
        size = os.path.getsize(table)
        one, *others = fastest_of_each([[*words, table] for _, words in (ours, *yardsticks)], REPEATS)
    if any(other.output != one.output for other in others):
        raise SystemExit("the outputs differ")
    print(f"{'rows':<15} {rows} ({megabytes(size)})")
    for (name, _), taken in zip((ours, *yardsticks), (one, *others)):
        print(f"{name:<15} {taken.seconds:.3f} s, peak {megabytes(taken.peak_bytes)}")
    for (name, _), other in zip(yardsticks, others):
        print(f"{'time ratio':<15} {one.seconds / other.seconds:.2f} to {name}")
    print(f"{'memory / file':<15} {one.peak_bytes / size:.1f}")
