"""Compares `cubes fold` with an import and a group-by of Python's sqlite3, and with a plain Rust program, in one run on one table."""

import os
import subprocess
import sys
import tempfile

from measure import HERE, compare

with tempfile.TemporaryDirectory() as folder:
    plain = os.path.join(folder, "fold_plain")
    subprocess.run(["rustc", "--edition", "2021", "-O", "-o", plain, os.path.join(HERE, "fold_plain.rs")], check=True)
    compare(
        "fold_table.py",
        ("cubes fold", [os.environ.get("CUBES", os.path.join(HERE, "..", "cubes")), "fold"]),
        ("python sqlite3", [sys.executable, os.path.join(HERE, "fold_sqlite.py")]),
        ("plain rust", [plain]),
    )
