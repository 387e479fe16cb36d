#!/usr/bin/env bash
# Usage: bench/table.sh [ROWS]: times the reading of a table of six columns with a key of three against Python's csv module reading
# the same file into tuples, in one run (200,000 rows where none are named).
set -eu
here=$(cd "$(dirname "$0")" && pwd)
crate=$here/../crates/table_bench
if [ ! -x "$crate/out/table_bench" ] || [ -n "$(find "$crate/src" "$here/../crates/table_reader/src" "$here/../crates/cube_val/src" -newer "$crate/out/table_bench" -print -quit)" ]; then
  echo "table.sh: proving and building the program that is timed" >&2
  (cd "$crate" && rt run </dev/null >/dev/null 2>&1)  # outside the clock
fi
exec python3 "$here/table.py" "$@"
