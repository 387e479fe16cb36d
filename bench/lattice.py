"""Draws the lattice of a cube's cuboids as dot text, from what `cubes cuboids` writes.

Usage: ./cubes cuboids DESCRIPTOR | python3 bench/lattice.py
"""

import csv
import sys

print("digraph cuboids {")
for row in csv.DictReader(sys.stdin):
    names = " ".join(name.split(".", 1)[1] for name in row["columns"].split(" "))
    print(f'  {row["mask"]} [label="{names}"];')
    if row["parent"]:
        print(f'  {row["parent"]} -> {row["mask"]};')
print("}")
