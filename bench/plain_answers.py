"""Works out, with Python's sqlite3, the answers that `answer_check` expects.

It writes each ask of the check as SQL over the same rows, and prints the rows of the answer. Decimals are kept
as whole numbers of 1/10000. Nulls come first in SQLite's order, and last under DESC, as in the cube's. An average is
cut toward zero here as SQLite's whole division does it, since its own AVG is a floating-point number.
"""

import sqlite3

# REGION text, SELLER int, PRICE decimal (in units of 1/10000), DAY date
ROWS = [
    ("EU", 7, 100000, "2012-01-01"), ("EU", 8, 55000, "2012-01-01"), ("US", 7, 10000, "2012-01-15"),
    ("EU", 8, -22500, "2012-02-01"), (None, 7, 30000, "2012-02-01"), ("US", None, 10000, "2012-02-02"),
    ("ASIA", 9, None, "2012-02-03"), ("ASIA", None, None, None), ("", 7, 0, "2012-02-03"),
    ("EU", 7, 100000, None), (None, None, -1, "2012-03-01"), ("US", 9, 33333, "2012-03-01"),
    ("US", 9, 33333, "2012-03-02"), ("eu", 8, 5, "2012-03-02"), ("ASIA", 7, None, "2012-03-03"),
    (None, 8, 30000, "2012-03-03"), ("EU", None, 12345, "2012-03-04"), ("eu", 8, -5, "2012-03-04"),
    ("US", 10, 9999, "2012-03-05"), ("", None, -10001, "2012-03-05"),
]

# Three sales of January, the first without its price, and the two of EU in another January, both without
JANUARIES = [
    ("EU", 7, None, "2013-01-01"), ("EU", 8, 55000, "2013-01-01"), ("US", 7, 10000, "2013-01-15"),
    ("EU", 7, None, "2014-01-01"), ("EU", 8, None, "2014-01-01"),
]

OF_CONDITION = "select count(*), count(distinct seller), min(price), max(price) from t where "

CASES = [
    # a comparison with null is unknown, and so is its contrary
    OF_CONDITION + "not (region = 'EU')",
    # an OR is true where one side is, though the other is unknown
    OF_CONDITION + "region = 'EU' or seller > 7",
    # an AND is false where one side is, though the other is unknown
    OF_CONDITION + "not (region = 'EU' and seller > 7)",
    # IS NULL is never unknown
    OF_CONDITION + "region is null or not (seller is null)",
    # no row
    OF_CONDITION + "region = 'MARS'",
    # one of several, and none of several
    OF_CONDITION + "seller in (8, 9)",
    OF_CONDITION + "not (seller in (8, 9)) and day >= '2012-02-01'",
    # a whole number against 7.5, and a decimal against 1
    OF_CONDITION + "seller > 7.5 and price <= 10000",
    # groups in the order of their keys, null first
    "select region, count(*), sum(price), sum(seller), sum(price) / count(price) from t group by region order by region",
    # no row, and a group column
    "select region, count(*) from t where region = 'MARS' group by region order by region",
    # counts of known values, of groups and of all rows; over no row they are 0
    "select region, count(*), count(price), count(seller) from t group by region order by region",
    "select count(*), count(price), count(seller), sum(price) / count(price) from t where region = 'ASIA'",
    "select count(price) from t where region = 'MARS'",
    # the known prices are counted in a condition on groups and in an order
    "select region, count(price), count(distinct price) from t group by region having count(price) < 5 order by count(price) desc, region",
    # HAVING before LIMIT
    "select region, count(*) from t group by region having count(*) < 4 order by region limit 3",
    # a falling order with nulls last, ties by the key, and a limit
    "select region, max(price) from t group by region order by max(price) desc, region limit 6",
    # two keys of the order, and groups by two columns
    "select region, seller, count(*) from t group by region, seller order by seller desc, count(*), region, seller limit 7",
]

# Of the sales of a January
OF_JANUARY = [
    "select region, count(*), count(price), sum(price), sum(price) / count(price) from t where day < '2014-01-01' group by region order by region",
    "select region, count(*), count(price), sum(price), sum(price) / count(price), min(price), max(price), count(distinct price),"
    " count(distinct seller) from t where day >= '2014-01-01' group by region order by region",
]


def show(rows, cases):
    """Prints the answers to the cases over the rows."""
    database = sqlite3.connect(":memory:")
    database.execute("create table t (region text, seller integer, price integer, day text)")
    database.executemany("insert into t values (?, ?, ?, ?)", rows)
    for sql in cases:
        print(sql)
        for row in database.execute(sql):
            print("   ", row)


def main():
    show(ROWS, CASES)
    show(JANUARIES, OF_JANUARY)


main()
