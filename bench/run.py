"""Times `cubes run` over scripts of 100 and of 1,000 jobs on one table. Of ten jobs one runs to its end, over a day of the table, and nine are
discarded before their first step, since a cube has at most 128 segments."""

import datetime
import os
import random
import sys
import tempfile

from measure import HERE, fastest, megabytes

CUBES = os.environ.get("CUBES", os.path.join(HERE, "..", "cubes"))
FIRST_DAY = datetime.date(2012, 1, 1)
DAYS = 100
REPEATS = 3


def day(number):
    return (FIRST_DAY + datetime.timedelta(days=number)).isoformat()


def write_table(path, rows):
    source = random.Random(20122)
    with open(path, "w", newline="") as table:
        table.write("DT,D1,D2,M\n")
        for _ in range(rows):
            region, product = source.randrange(100), source.randrange(1000)
            table.write(f"{day(source.randrange(DAYS))},region {region:02},product {product:04},{source.randrange(-1000000, 1000000)}\n")


def write_script(path, table, jobs):
    with open(path, "w", encoding="ascii") as script:
        script.write(f"descriptor fixed\nload F {table}\n")
        for job in range(1, jobs + 1):
            place = (job - 1) // 10
            script.write(f"build {day(place)} {day(place + 1)}\n")
            if job % 10:
                script.write(f"discard {job}\n")
        script.write("await jobs\nquery s select d1, count(*), sum(m) from f group by d1\n")


def main():
    rows = int(sys.argv[1]) if len(sys.argv) > 1 else 200000
    with tempfile.TemporaryDirectory() as folder:
        table, script = os.path.join(folder, "f.csv"), os.path.join(folder, "jobs.script")
        write_table(table, rows)
        size = os.path.getsize(table)
        print(f"{'rows':<12} {rows} ({megabytes(size)})")
        seconds = {}
        for jobs in (100, 1000):
            write_script(script, table, jobs)
            taken = fastest([CUBES, "run", script], REPEATS)
            end = taken.output.splitlines()[-1].decode("ascii")
            if not end.startswith(f"end: {jobs // 10} finished, 0 in error, 0 stopped, {jobs - jobs // 10} discarded;"):
                raise SystemExit(f"the run did not end as it should: {end}")
            seconds[jobs] = taken.seconds
            print(f"{jobs:>4} jobs    {taken.seconds:.3f} s, {taken.seconds / jobs * 1000:.1f} ms a job, peak {megabytes(taken.peak_bytes)}, memory / file {taken.peak_bytes / size:.1f}")
        print(f"{'1000 / 100':<12} {seconds[1000] / seconds[100]:.1f}")


main()
