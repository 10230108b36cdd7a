#!/bin/sh
# Measures nt_xxh3's sum, and xxhash.h (Debian's libxxhash-dev) in its scalar build and in its SSE2 build.
# The results are compared first. Each figure is a median of rounds, ours and theirs in turn.
set -eu
cd "$(dirname -- "$(readlink -f -- "$0")")"
made=$(mktemp -d)
trap 'rm -rf "$made"' EXIT
(cd ../crates/bench_xxh3 && rt lib >"$made/log" 2>&1) || { cat "$made/log" >&2; exit 1; }
for vector in 0 1; do
    cc -O3 -DXXH_VECTOR=$vector -o "$made/xxh3" xxh3.c ../crates/bench_xxh3/out/libbench_xxh3.a
    "$made/xxh3"
done
