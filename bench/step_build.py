"""Step files: the tasks of a cube's steps and their products, written by a program of this file's own.

    python3 bench/step_build.py FOLDER [ROWS [DESCRIPTOR]]

It writes into FOLDER, for a BUILD over one seeded table (1,000 rows where none are named) and the cube of DESCRIPTOR
(examples/sales_cube.json), the task of each step, as 1-flat.task, 2-dict.task and so on, and beside each the product that its child has
to write, as 1-flat.product. docs/FORMATS.md has the formats.
"""

import datetime
import hashlib
import json
import os
import random
import struct
import sys

HERE = os.path.dirname(os.path.abspath(__file__))
SALES_CUBE = os.path.join(HERE, "..", "examples", "sales_cube.json")
FIRST_DAY = datetime.date(2012, 1, 1)
DAYS = 90
FLAT, DICT, BASE, LAYER, SEAL = 1, 2, 3, 4, 5

# ---- numbers, lists and frames


def u8(number):
    return struct.pack(">B", number)


def u32(number):
    return struct.pack(">I", number)


def u64(number):
    return struct.pack(">Q", number)


def i64(number):
    return struct.pack(">q", number)


def i128(number):
    return number.to_bytes(16, "big", signed=True)


def listed(items):
    """A list of fields that are bytes already."""
    items = list(items)
    return u32(len(items)) + b"".join(items)


def sized(data):
    return u32(len(data)) + data


def frame(body, digest=bytes(32), version=1):
    front = b"CUBEFRM1" + struct.pack(">H", version) + digest + u64(len(body)) + body
    return front + hashlib.sha256(front).digest()


def body_of(file):
    return file[50:-32]


def product_file(task, body):
    """The product file of a task file."""
    return frame(body, hashlib.sha256(task).digest())


# ---- cubes


class Cube:
    """A descriptor and what follows from it."""

    def __init__(self, file):
        self.file = file
        said = json.loads(file)
        self.tables = {t["name"].upper(): [(c["name"].upper(), c["type"]) for c in t["columns"]] for t in said["tables"]}
        self.fact = said["fact_table"].upper()
        self.lookups = [
            (
                one["table"].upper(),
                one["join"]["type"],
                [name.upper() for name in one["join"]["primary_key"]],
                [name.upper() for name in one["join"]["foreign_key"]],
            )
            for one in said.get("lookups", [])
        ]
        self.partition = said["partition_date_column"].upper()
        self.rowkey = [tuple(full.upper().split(".")) for full in said["rowkey"]]
        functions = [(m["function"]["expression"], m["function"]["parameter"]["value"].upper()) for m in said["measures"]]
        self.measures = [(name, column) for name, column in functions if name != "COUNT"]
        self.measured = list(dict.fromkeys(column for _, column in self.measures))
        self.full = (1 << len(self.rowkey)) - 1
        self.masks = sorted({self.full}.union(*(self.masks_of(group) for group in said.get("aggregation_groups", []))))
        self.counts = sorted({mask.bit_count() for mask in self.masks if mask != self.full}, reverse=True)

    def order(self):
        """The tables as tasks have them."""
        return [self.fact] + [lookup[0] for lookup in self.lookups]

    def place(self, table, column):
        return [name for name, _ in self.tables[table]].index(column)

    def bits(self, names):
        return [1 << self.rowkey.index(tuple(name.upper().split("."))) for name in names]

    def masks_of(self, group):
        """The masks that a group builds."""
        rule = group.get("select_rule", {})
        within = sum(self.bits(group["includes"]))
        mandatory = sum(self.bits(rule.get("mandatory_dims", [])))
        hierarchies = [self.bits(names) for names in rule.get("hierarchy_dims", [])]
        joints = [sum(self.bits(names)) for names in rule.get("joint_dims", [])]
        found, mask = set(), within
        while mask:
            ranks = [[bool(mask & bit) for bit in bits] for bits in hierarchies]
            if (
                mask & mandatory == mandatory
                and all(held == sorted(held, reverse=True) for held in ranks)
                and all(mask & joint in (0, joint) for joint in joints)
            ):
                found.add(mask)
            mask = (mask - 1) & within
        return found

    def parent(self, mask):
        return min((other for other in self.masks if other != mask and other & mask == mask), key=lambda other: (other.bit_count(), other))

    def flat_types(self):
        """The columns of flat rows, each with its type."""
        return [dict(self.tables[table])[column] for table, column in self.rowkey] + [dict(self.tables[self.fact])[column] for column in self.measured]

    def dict_places(self):
        """Where in a flat row the values of each dictionary stand."""
        distinct = [column for name, column in self.measures if name == "COUNT_DISTINCT"]
        return list(range(len(self.rowkey))) + [len(self.rowkey) + self.measured.index(column) for column in distinct]


# ---- values: None, a number (of a decimal in units of 1/10000), or the bytes of a text or date


def value(held):
    if held is None:
        return b"\0"
    if isinstance(held, int):
        return b"\1" + i64(held)
    return b"\2" + u8(len(held)) + held


def rows(held):
    return listed(b"".join(value(one) for one in row) for row in held)


def by_value(held):
    return (held is not None, held if held is not None else 0)


def day(number):
    return (FIRST_DAY + datetime.timedelta(days=number)).isoformat().encode()


# ---- what the steps compute


def flat_rows(cube, range_of_days, tables):
    """The joined rows of the days from the first to before the second: the rowkey's values and those of measured columns."""
    first, end = range_of_days
    keyed = []
    for number, (name, kind, primary, foreign) in enumerate(cube.lookups):
        places = [cube.place(name, column) for column in primary]
        of = [cube.place(cube.fact, column) for column in foreign]
        found = {tuple(row[p] for p in places): row for row in tables[number + 1] if all(row[p] is not None for p in places)}
        keyed.append((kind, of, found, [None] * len(cube.tables[name])))
    order = cube.order()
    wanted = [(order.index(table), cube.place(table, column)) for table, column in cube.rowkey]
    wanted += [(0, cube.place(cube.fact, column)) for column in cube.measured]
    partition = cube.place(cube.fact, cube.partition)
    joined = []
    for row in tables[0]:
        if row[partition] is None or not first <= row[partition] < end:
            continue
        whole = [row]
        for kind, of, found, nulls in keyed:
            match = found.get(tuple(row[p] for p in of))
            if match is None and kind == "inner":
                break
            whole.append(nulls if match is None else match)
        else:
            joined.append([whole[table][p] for table, p in wanted])
    return joined


def dicts_of(cube, flat):
    return [sorted({row[p] for row in flat}, key=by_value) for p in cube.dict_places()]


def base_of(cube, flat, dicts):
    """The cells of the base cuboid by their keys of numbers."""
    numbers = [{held: number for number, held in enumerate(one)} for one in dicts]
    width = len(cube.rowkey)
    cells = {}
    for row in flat:
        key = tuple(numbers[p][row[p]] for p in range(width))
        cell, distinct = [1], width
        for name, column in cube.measures:
            held = row[width + cube.measured.index(column)]
            if name == "COUNT_DISTINCT":
                held = {numbers[distinct][held]}
                distinct += 1
            cell.append(held)
        cells[key] = merged(cube, cells[key], cell) if key in cells else cell
    return cells


def merged(cube, one, other):
    """A cell of the items of both."""
    cell = [one[0] + other[0]]
    for (name, _), a, b in zip(cube.measures, one[1:], other[1:]):
        cell.append({"SUM": int.__add__, "MIN": min, "MAX": max, "COUNT_DISTINCT": set.union}[name](a, b))
    return cell


def rolled_up(cube, mask, parent, cells):
    """The cells of a cuboid from those of its parent."""
    bits = [place for place in range(len(cube.rowkey)) if parent >> place & 1]
    kept = [number for number, place in enumerate(bits) if mask >> place & 1]
    rolled = {}
    for key, cell in cells.items():
        part = tuple(key[number] for number in kept)
        rolled[part] = merged(cube, rolled[part], cell) if part in rolled else cell
    return rolled


# ---- bodies


def cell_table(cube, mask, cells):
    def field(name, held):
        if name == "COUNT_DISTINCT":
            return listed(map(u32, sorted(held)))
        return i128(held) if name == "SUM" else i64(held)

    def row(key):
        cell = cells[key]
        fields = [field(name, held) for (name, _), held in zip(cube.measures, cell[1:])]
        return b"".join(map(u32, key)) + u64(cell[0]) + b"".join(fields)

    return u64(mask) + listed(map(row, sorted(cells)))


def dicts_body(dicts):
    return listed(listed(map(value, one)) for one in dicts)


def flat_body(flat):
    return rows(flat)


# ---- the steps of a BUILD


def steps_of(cube, range_of_days, tables):
    """The name, the task file and the product file of each step."""
    done = []

    def step(name, tag, body, product):
        task = frame(u8(tag) + body)
        done.append((f"{len(done) + 1}-{name}", task, product_file(task, product)))

    desc = sized(cube.file)
    flat = flat_rows(cube, range_of_days, tables)
    step("flat", FLAT, desc + b"".join(range_of_days) + b"".join(map(rows, tables)), flat_body(flat))
    dicts = dicts_of(cube, flat)
    step("dict", DICT, desc + flat_body(flat), dicts_body(dicts))
    cells = {cube.full: base_of(cube, flat, dicts)}
    step("base", BASE, desc + flat_body(flat) + dicts_body(dicts), cell_table(cube, cube.full, cells[cube.full]))
    sizes = listed(u32(len(one)) for one in dicts)
    for count in cube.counts:
        layer = [mask for mask in cube.masks if mask != cube.full and mask.bit_count() == count]
        parents = sorted({cube.parent(mask) for mask in layer})
        for mask in layer:
            cells[mask] = rolled_up(cube, mask, cube.parent(mask), cells[cube.parent(mask)])
        given = listed(cell_table(cube, mask, cells[mask]) for mask in parents)
        step(f"layer{count}", LAYER, desc + u32(count) + sizes + given, listed(cell_table(cube, mask, cells[mask]) for mask in layer))
    before = listed(u32(number + 1) + u64(len(product)) + hashlib.sha256(product).digest() for number, (_, _, product) in enumerate(done))
    cuboids = listed(u64(mask) + u64(len(cells[mask])) for mask in cube.masks)
    body = b"".join(range_of_days) + u32(1) + before + cuboids
    step("seal", SEAL, body, body)
    return done


# ---- a seeded table


def held_of(source, kind, key):
    if kind == "date":
        return day(source.randrange(DAYS))
    if kind == "text":
        return source.choice([b"AFRICA", b"ASIA", b"EU", b"US"]) if not key else b"city %d" % key
    if kind == "decimal":
        return source.randrange(-1_000_000, 10_000_000)
    return source.randrange(100)


def tables_of(cube, count, seed=1):
    """A fact table of so many rows, with a null here and there where one may stand, and lookups of 90 rows."""
    source = random.Random(seed)
    fact = []
    for _ in range(count):
        row = []
        for column, kind in cube.tables[cube.fact]:
            is_null = column not in cube.measured and column != cube.partition and source.random() < 0.01
            row.append(None if is_null else held_of(source, kind, 0))
        fact.append(row)
    lookups = []
    for name, _, primary, _ in cube.lookups:
        columns = cube.tables[name]
        lookups.append([[key if column in primary and kind == "int" else held_of(source, kind, key) for column, kind in columns] for key in range(1, 91)])
    return [fact] + lookups


def build_of(count, descriptor=SALES_CUBE, seed=1):
    """The steps of a BUILD of all days over a seeded table."""
    with open(descriptor, "rb") as file:
        cube = Cube(file.read())
    return steps_of(cube, (day(0), day(DAYS)), tables_of(cube, count, seed))


def main():
    if len(sys.argv) < 2:
        raise SystemExit(__doc__)
    folder = sys.argv[1]
    count = int(sys.argv[2]) if len(sys.argv) > 2 else 1000
    os.makedirs(folder, exist_ok=True)
    for name, task, product in build_of(count, *sys.argv[3:4]):
        for kind, file in (("task", task), ("product", product)):
            with open(os.path.join(folder, f"{name}.{kind}"), "wb") as out:
                out.write(file)
        print(f"{name:<10} task {len(task)} bytes, product {len(product)} bytes")


if __name__ == "__main__":
    main()
