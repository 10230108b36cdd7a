#!/usr/bin/env bash
# The example of muon pairs prints what its README shows, and what it selects are just the masses of these runs. No plot is made.
set -u
cd "$(dirname "$0")/../.." || exit 1
program=$PWD/crates/nt_tool/out/nt_tool
[ -x "$program" ] || { echo "skipped: no program at $program"; exit 0; }
exec python3 -B .ci/checks/dimuon.py "$program"
