#!/usr/bin/env bash
# The built program over real files: many runs of contexts beside each other, each read back whole, and one long input.
set -u
cd "$(dirname "$0")/../.." || exit 1
program=$PWD/crates/nt_tool/out/nt_tool
[ -x "$program" ] || { echo "skipped: no program at $program"; exit 0; }
exec python3 .ci/checks/runs.py "$program"
