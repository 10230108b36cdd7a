#!/usr/bin/env bash
# Measures the time of many short inputs with few workers, divided by that of few long inputs: bench/workers.sh [PROGRAM]
set -eu
cd "$(dirname "$0")"
exec python3 -B workers.py "${1:-../crates/nt_tool/out/nt_tool}"
