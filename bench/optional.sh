#!/usr/bin/env bash
# Measures the time with optional numbers, divided by the time with plain ones: bench/optional.sh [PROGRAM]
set -eu
cd "$(dirname "$0")"
exec python3 -B optional.py "${1:-../crates/nt_tool/out/nt_tool}"
