#!/usr/bin/env bash
# Usage: bench/log.sh [COUNT [SIZE]]: times a log of 100 entries of 1 MiB (or COUNT of SIZE bytes) that is appended to and opened, against
# hashing the same bytes and writing them plainly with one sync behind each, in one run; then entries of 100 bytes, 1,000, 2,000 and 4,000.
set -eu
here=$(cd "$(dirname "$0")" && pwd)
crate=$here/../crates/log_bench
below=("$crate/src" "$here/../crates/entry_log/src" "$here/../crates/disk_image/src" "$here/../crates/os_objects/src" "$here/../crates/byte_frame/src")
if [ ! -x "$crate/out/log_bench" ] || [ -n "$(find "${below[@]}" -newer "$crate/out/log_bench" -print -quit)" ]; then
  echo "log.sh: proving and building the program that is timed" >&2
  (cd "$crate" && rt run </dev/null >/dev/null 2>&1)  # outside the clock
fi
exec python3 "$here/log.py" "$@"
