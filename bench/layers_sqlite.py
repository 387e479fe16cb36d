"""Builds the cuboids of seeded rows in a SQLite database in memory, layer by layer: what `layer_bench` does, but for the
different sellers. On standard output it tells how many rows the cuboids have, on standard error how long the base and the layers
took. The rows are those of `layer_bench`.

Usage: layers_sqlite.py ROWS [rows]: with `rows` each cuboid is made from the rows, else from the smallest larger one.
"""

import sqlite3
import sys
import time

VALUES = (12, 5, 6, 4, 3, 8, 2, 5)
SELLERS = 2000
COLUMNS = [f"d{place}" for place in range(len(VALUES))]


def rows(count):
    """The rows: eight dimensions, a price and a seller."""
    state = 1
    bounds = VALUES + (100_000, SELLERS)
    for _ in range(count):
        numbers = []
        for bound in bounds:
            state = (state * 6364136223846793005 + 1442695040888963407) % 2**64
            numbers.append((state >> 33) % bound)
        yield [chr(ord("a") + number) for number in numbers[:8]] + numbers[8:]


def cuboids(dimensions):
    """The sets of so many dimensions."""
    return [mask for mask in range(1, 256) if mask.bit_count() == dimensions]


def main():
    count = int(sys.argv[1])
    from_rows = sys.argv[2:] == ["rows"]
    database = sqlite3.connect(":memory:")
    database.execute(f"CREATE TABLE flat ({', '.join(name + ' TEXT' for name in COLUMNS)}, price INTEGER, seller INTEGER)")
    database.executemany(f"INSERT INTO flat VALUES ({', '.join('?' * 10)})", rows(count))
    database.commit()
    sizes = {}
    for dimensions in (8, 7, 6, 5):
        masks = cuboids(dimensions)
        begun = time.perf_counter()
        for mask in masks:
            key = ", ".join(name for place, name in enumerate(COLUMNS) if mask >> place & 1)
            if from_rows or dimensions == 8:
                source, cells = "flat", "COUNT(*) AS n, COUNT(price) AS prices, COUNT(seller) AS sellers, SUM(price) AS total, MIN(price) AS least, MAX(price) AS most"
            else:
                parent = min((it for it in cuboids(dimensions + 1) if it & mask == mask), key=lambda it: sizes[it])
                source, cells = f"cuboid{parent}", "SUM(n) AS n, SUM(prices) AS prices, SUM(sellers) AS sellers, SUM(total) AS total, MIN(least) AS least, MAX(most) AS most"
            database.execute(f"CREATE TABLE cuboid{mask} AS SELECT {key}, {cells} FROM {source} GROUP BY {key}")
            (sizes[mask],) = database.execute(f"SELECT COUNT(*) FROM cuboid{mask}").fetchone()
        print(f"{(time.perf_counter() - begun) * 1000:.0f} ms", file=sys.stderr)
        print(f"{len(masks)} cuboids, {sum(sizes[mask] for mask in masks)} rows")


main()
