#!/usr/bin/env bash
# The reader in Python, which is written from the standard, prints what the program prints, of the examples and of 200 drawn files.
set -u
cd "$(dirname "$0")/../.." || exit 1
program=$PWD/crates/nt_tool/out/nt_tool
[ -x "$program" ] || { echo "skipped: no program at $program"; exit 0; }
exec python3 -B .ci/checks/reader.py "$program"
