#!/usr/bin/env bash
# Usage: bench/fold.sh [ROWS]: times `cubes fold` against Python's sqlite3 and against a plain Rust program, which rustc builds
# first, over one seeded table (200,000 rows where none are named).
set -eu
here=$(cd "$(dirname "$0")" && pwd)
"$here/../cubes" fold "$here/../examples/sales.csv" >/dev/null  # builds the program on first use, outside the clock
exec python3 "$here/fold.py" "$@"
