#!/usr/bin/env bash
# Usage: bench/step.sh [ROWS]: times `cubes step` over the steps of a BUILD of one seeded table (200,000 rows where none are named).
set -eu
here=$(cd "$(dirname "$0")" && pwd)
"$here/../cubes" fold "$here/../examples/sales.csv" >/dev/null  # builds the program on first use, outside the clock
exec python3 "$here/step.py" "$@"
