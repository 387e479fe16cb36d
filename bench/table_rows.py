"""Writes a seeded CSV file of six columns, whose first three are a key in no order."""

import datetime
import random
import sys

FIRST_DAY = datetime.date(2012, 1, 1)


def main():
    path, rows = sys.argv[1], int(sys.argv[2])
    chance = random.Random(2012)
    seen = set()
    with open(path, "w", newline="", encoding="utf-8") as table:
        table.write("DT,SELLER,BUYER,PRICE,COUNT,NOTE\n")
        while len(seen) < rows:
            key = (chance.randrange(730), chance.randrange(5000), chance.randrange(2000))
            if key in seen:
                continue
            seen.add(key)
            day = FIRST_DAY + datetime.timedelta(key[0])
            price = f"{chance.randrange(10000)}.{chance.randrange(100):02d}"
            table.write(f"{day},S{key[1]},B{key[2]},{price},{chance.randrange(20)},note {chance.randrange(1000)}\n")


main()
