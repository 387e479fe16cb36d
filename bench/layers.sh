#!/usr/bin/env bash
# Usage: bench/layers.sh [ROWS [rows]]: times the base cuboid and 92 smaller ones of seeded rows of eight dimensions, with all
# measures, in 1, 2 and 4 pieces, against SQLite making the same group-by tables without the different sellers, in one run
# (200,000 rows where none are named). SQLite makes each table from the smallest larger one, or, with `rows`, from the rows.
set -eu
here=$(cd "$(dirname "$0")" && pwd)
crate=$here/../crates/layer_bench
below=("$crate/src" "$here/../crates/layer_builder/src" "$here/../crates/cell_gather/src" "$here/../crates/cell_store/src" "$here/../crates/measure_laws/src")
if [ ! -x "$crate/out/layer_bench" ] || [ -n "$(find "${below[@]}" -newer "$crate/out/layer_bench" -print -quit)" ]; then
  echo "layers.sh: proving and building the program that is timed" >&2
  (cd "$crate" && rt run </dev/null >/dev/null 2>&1)  # outside the clock
fi
exec python3 "$here/layers.py" "$@"
