#!/usr/bin/env bash
# The manual and the completions name the commands, options and ranges of the README, and those that the built program takes.
set -u
cd "$(dirname "$0")/../.." || exit 1
exec python3 -B .ci/checks/manual.py "$PWD/crates/nt_tool/out/nt_tool"
