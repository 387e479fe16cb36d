"""Reads a CSV file into tuples with the csv module, and tells how many rows it has."""

import csv
import sys


def main():
    with open(sys.argv[1], newline="", encoding="utf-8") as source:
        rows = [tuple(record) for record in csv.reader(source)]
    print(f"{len(rows) - 1} rows")


main()
