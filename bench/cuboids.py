"""Times `cubes cuboids` as a whole process: over forty dimensions of which a cuboid has at most two, over a group that gives 4,095 of
4,096 cuboids, and over twenty dimensions in one hierarchy. The first two stand beside a plain Rust program that is told the numbers
and writes the same."""

import json
import os
import subprocess
import tempfile

from measure import HERE, REPEATS, fastest_of_each, megabytes

CUBES = os.environ.get("CUBES", os.path.join(HERE, "..", "cubes"))


def descriptor(dimensions, included, rules):
    """A descriptor over columns D0, D1 and so on, with one group that includes the first of them."""
    names = [f"D{number}" for number in range(dimensions)]
    full = [f"T.{name}" for name in names]
    count = {"expression": "COUNT", "parameter": {"type": "constant", "value": "1"}}
    return {
        "name": "C",
        "tables": [{"name": "T", "columns": [{"name": name, "type": "text" if place else "date"} for place, name in enumerate(names)]}],
        "fact_table": "T",
        "partition_date_column": names[0],
        "dimensions": [{"table": "T", "column": name} for name in names],
        "measures": [{"name": "N", "function": count}],
        "rowkey": full,
        "aggregation_groups": [{"includes": full[:included], "select_rule": rules(full)}],
    }


CASES = (
    ("forty, at most two", descriptor(40, 40, lambda full: {"dim_cap": 2}), ["40", "40", "2"]),
    ("twelve of thirteen, no rule", descriptor(13, 12, lambda full: {}), ["13", "12", "12"]),
    ("twenty in a hierarchy", descriptor(20, 20, lambda full: {"hierarchy_dims": [full]}), None),
)

with tempfile.TemporaryDirectory() as folder:
    plain = os.path.join(folder, "cuboids_plain")
    subprocess.run(["rustc", "--edition", "2021", "-O", "-o", plain, os.path.join(HERE, "cuboids_plain.rs")], check=True)
    for name, cube, told in CASES:
        path = os.path.join(folder, "cube.json")
        with open(path, "w", encoding="ascii") as file:
            json.dump(cube, file)
        commands = [[CUBES, "cuboids", path]] + ([[plain, *told]] if told else [])
        runs = fastest_of_each(commands, REPEATS)
        if any(other.output != runs[0].output for other in runs):
            raise SystemExit("the outputs differ")
        cuboids = runs[0].output.count(b"\n") - 1
        for by, taken in zip(("cubes", "plain rust"), runs):
            print(f"{name:<28} {cuboids:>4} cuboids, {by:<10} {taken.seconds * 1000:.1f} ms, peak {megabytes(taken.peak_bytes)}")
