#!/usr/bin/env bash
# Usage: bench/cuboids.sh: times `cubes cuboids` on forty dimensions, on 4,096 cuboids and on one hierarchy, beside a plain Rust program, which
# rustc builds first.
set -eu
here=$(cd "$(dirname "$0")" && pwd)
"$here/../cubes" cuboids "$here/../examples/sales_cube.json" >/dev/null  # builds the program on first use, outside the clock
exec python3 "$here/cuboids.py" "$@"
