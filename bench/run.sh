#!/usr/bin/env bash
# Usage: bench/run.sh [ROWS]: times `cubes run` over scripts of 100 and of 1,000 jobs and one seeded table (200,000 rows where none are named).
set -eu
here=$(cd "$(dirname "$0")" && pwd)
"$here/../cubes" fold "$here/../examples/sales.csv" >/dev/null  # builds the program on first use, outside the clock
exec python3 "$here/run.py" "$@"
