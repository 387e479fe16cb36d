#!/usr/bin/env bash
# Usage: bench/pins.sh [PINS]: times pins in a row of published sets, alone and while another thread publishes 1,000 more, among 1 and
# 1,000 sets (1,000,000 pins where no number is named). Each answer is checked too.
set -eu
here=$(cd "$(dirname "$0")" && pwd)
crate=$here/../crates/set_check
if [ ! -x "$crate/out/set_check" ] || [ -n "$(find "$crate/src" "$here/../crates/version_row/src" -newer "$crate/out/set_check" -print -quit)" ]; then
  echo "pins.sh: proving and building the program that is timed" >&2
  (cd "$crate" && rt run <stdin >/dev/null 2>&1)  # outside the clock
fi
exec python3 "$here/pins.py" "$@"
