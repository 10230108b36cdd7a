#!/bin/sh
# Measures nt_event's read_line and write_line, and a plain parser and printer in C++ that goes by the shapes of a schema and makes trees
# too; and read_line by serde_json, on the same lines with a blank in them that only serde_json reads. The lines are compared first.
# Each figure is a median of rounds, ours and theirs in turn.
set -eu
cd "$(dirname -- "$(readlink -f -- "$0")")"
made=$(mktemp -d)
trap 'rm -rf "$made"' EXIT
(cd ../crates/bench_event && rt lib >"$made/log" 2>&1) || { cat "$made/log" >&2; exit 1; }
c++ -std=c++17 -O3 -o "$made/event" event.cpp ../crates/bench_event/out/libbench_event.a "$(dirname "$(rt doc)")/c/liblibc_c.a"
"$made/event"
