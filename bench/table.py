"""Compares the table reader with Python's csv module reading the same file into tuples, in one run."""

import os
import sys

from measure import HERE, compare

compare(
    "table_rows.py",
    ("table reader", [os.path.join(HERE, "..", "crates", "table_bench", "out", "table_bench")]),
    ("python csv", [sys.executable, os.path.join(HERE, "table_csv.py")]),
)
