"""Kills a program that appends to a log, again and again, and looks whether what it had acknowledged is there."""

import os
import random
import subprocess
import sys
import tempfile
import time

HERE = os.path.dirname(os.path.abspath(__file__))
PROGRAM = f"{HERE}/../crates/log_bench/out/log_bench"


def entries(log):
    """How many entries an opening finds, all of them numbered."""
    told = subprocess.run([PROGRAM, "open", log], capture_output=True, text=True, check=True).stdout
    count, numbered = (int(it.split()[0]) for it in told.split(","))
    if count != numbered:
        raise SystemExit(f"entries without their numbers: {told}")
    return count


def main():
    kills = int(sys.argv[1]) if len(sys.argv) > 1 else 300
    chance = random.Random(7)
    with tempfile.TemporaryDirectory(dir=".") as folder:
        log, had, more = f"{folder}/log", 0, 0
        for _ in range(kills):
            child = subprocess.Popen([PROGRAM, "append", log, str(had + 1_000_000), "100"], stdout=subprocess.PIPE, text=True)
            time.sleep(chance.uniform(0.002, 0.1))
            child.kill()
            told = child.stdout.read().split("\n")[:-1]
            child.wait()
            acknowledged = int(told[-1]) + 1 if told else had
            had = entries(log) if os.path.getsize(log) else 0
            if not acknowledged <= had <= acknowledged + 1:
                raise SystemExit(f"acknowledged {acknowledged}, found {had}")
            more += had - acknowledged
        print(f"{kills} kills: {had} entries, all that were acknowledged; {more} times the one under way")


main()
