#!/usr/bin/env bash
# The commands that the README shows print what it shows, in a folder with a copy of examples/; and its code is that of an example.
set -u
cd "$(dirname "$0")/../.." || exit 1
program=$PWD/crates/nt_tool/out/nt_tool
[ -x "$program" ] || { echo "skipped: no program at $program"; exit 0; }
exec python3 .ci/checks/readme.py "$program"
