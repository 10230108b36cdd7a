#!/bin/sh
# Measures what a name costs where nt_schema reads a description: of numbered names, of names with the same 200 bytes in front, and of
# names that would collide in a map with the kit's hasher of a fixed key. Each figure is the processor's time for one name in
# nanoseconds, the median of some rounds: a row that hardly grows says that the time is in proportion to the number of names.
set -eu
cd "$(dirname -- "$(readlink -f -- "$0")")"
made=$(mktemp -d)
trap 'rm -rf "$made"' EXIT
(cd ../crates/bench_schema && rt lib >"$made/log" 2>&1) || { cat "$made/log" >&2; exit 1; }
cc -O2 -o "$made/names" names.c ../crates/bench_schema/out/libbench_schema.a "$(dirname "$(rt doc)")/c/liblibc_c.a"
"$made/names"
