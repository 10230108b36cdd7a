#!/usr/bin/env bash
# The built program, killed at many moments while it writes: what is left is refused as unfinished, or whole.
set -u
cd "$(dirname "$0")/../.." || exit 1
program=$PWD/crates/nt_tool/out/nt_tool
[ -x "$program" ] || { echo "skipped: no program at $program"; exit 0; }
exec python3 -B .ci/checks/kills.py "$program"
