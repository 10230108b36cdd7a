#!/usr/bin/env bash
# Runs the built program again and again, and refuses another request for memory each time: bench/memory.sh [PROGRAM]
set -eu
cd "$(dirname "$0")"
program=${1:-../crates/nt_tool/out/nt_tool}
made=$(mktemp -d)
trap 'rm -rf "$made"' EXIT
cc -O2 -shared -fPIC -fno-builtin -o "$made/memory.so" memory.c
python3 -B memory.py "$program" "$made/memory.so"
