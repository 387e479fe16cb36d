#!/usr/bin/env bash
# Usage: bench/log_kills.sh [KILLS]: a program appends numbered entries and is killed (SIGKILL) at any moment, 300 times (or KILLS); the log
# is opened each time, and has to have each entry that was acknowledged, and at most the one more that was under way.
set -eu
here=$(cd "$(dirname "$0")" && pwd)
crate=$here/../crates/log_bench
if [ ! -x "$crate/out/log_bench" ]; then
  echo "log_kills.sh: proving and building the program" >&2
  (cd "$crate" && rt run </dev/null >/dev/null 2>&1)
fi
exec python3 "$here/log_kills.py" "$@"
