"""The yardstick of `fold`: Python's sqlite3 imports the table into memory and groups it."""

import csv
import sqlite3
import sys


def main():
    database = sqlite3.connect(":memory:")
    database.execute("create table facts (d1 text, d2 text, m integer)")
    with open(sys.argv[1], newline="") as table:
        records = csv.reader(table)
        next(records)
        database.executemany("insert into facts values (?, ?, ?)", records)
    lines = csv.writer(sys.stdout, lineterminator="\n")
    lines.writerow(["D1", "COUNT(*)", "SUM(M)"])
    lines.writerows(database.execute("select d1, count(*), sum(m) from facts group by d1 order by d1"))


main()
