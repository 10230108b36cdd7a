#!/bin/sh
# Measures taking and giving back nt_turn's turn, a Mutex of the standard library and a pthread mutex, by 1, 2, 4 and 64 threads.
# Each figure is the median of rounds, one after the other of each, in nanoseconds from the first thread's start to the last one's end.
set -eu
cd "$(dirname -- "$(readlink -f -- "$0")")"
rounds=9 takings=2000000
made=$(mktemp -d)
trap 'rm -rf "$made"' EXIT
(cd ../crates/bench_turn && rt run >"$made/log" 2>&1 </dev/null) || { cat "$made/log" >&2; exit 1; }
ours=../crates/bench_turn/out/bench_turn
cc -O2 -pthread -o "$made/turn" turn.c
middle() { sort -n "$1" | sed -n "$(((rounds + 1) / 2))p"; }
one=
for threads in 1 2 4 64; do
    each=$((takings / threads)) round=0
    rm -f "$made/takes" "$made/locks" "$made/pthread"
    while [ $round -lt $rounds ]; do
        $ours turn $threads $each >>"$made/takes"
        $ours mutex $threads $each >>"$made/locks"
        "$made/turn" $threads $each >>"$made/pthread"
        round=$((round + 1))
    done
    turn=$(middle "$made/takes")
    one=${one:-$turn}
    echo "$threads threads: turn $turn ns, Mutex $(middle "$made/locks") ns, pthread $(middle "$made/pthread") ns;" \
        "by one thread's turn $(awk "BEGIN { printf \"%.2f\", $turn / $one }")"
done
