#!/bin/sh
# Measures nt_encode's encode and decode of split columns, and then the way from nt_column's buffers to pages; and plain C loops for the
# same work, built with -O2 and with -O3. The results are compared first. Each figure is a median of rounds, ours and theirs in turn.
set -eu
cd "$(dirname -- "$(readlink -f -- "$0")")"
made=$(mktemp -d)
trap 'rm -rf "$made"' EXIT
(cd ../crates/bench_encode && rt lib >"$made/log" 2>&1) || { cat "$made/log" >&2; exit 1; }
heap="$(dirname "$(rt doc)")/c/liblibc_c.a"
for level in -O2 -O3; do
    for program in encode columns; do
        cc $level -DBUILD="\"$level\"" -o "$made/$program" $program.c ../crates/bench_encode/out/libbench_encode.a "$heap"
        "$made/$program"
    done
done
