"""Writes a seeded table for `fold`: ROWS rows with 100 values of D1, 1,000 of D2, and numbers M."""

import random
import sys


def main():
    path, rows = sys.argv[1], int(sys.argv[2])
    source = random.Random(20121)
    with open(path, "w", newline="") as table:
        table.write("D1,D2,M\n")
        for _ in range(rows):
            region, product = source.randrange(100), source.randrange(1000)
            table.write(f"region {region:02},product {product:04},{source.randrange(-1000000, 1000000)}\n")


main()
