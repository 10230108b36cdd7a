#!/bin/sh
# Measures the program's `write`, `entries` and `scan`, and plain C++ for the same work, on the same inputs in memory. It compares the
# results: the files byte for byte (those of several inputs with the clusters in the order that the program printed), the lines, and the
# totals, which the C++ takes by four threads and by one.
#   program.sh [--bin PATH] [--rounds N]
# Without PATH the launcher builds the program first.
set -eu
cd "$(dirname -- "$(readlink -f -- "$0")")"
made=$(mktemp -d /dev/shm/ntuple.XXXXXX)
trap 'rm -rf "$made"' EXIT
c++ -std=c++17 -O2 -pthread -o "$made/plain" program.cpp
c++ -std=c++17 -O2 -o "$made/events" events.cpp
cc -O2 -o "$made/measured" measured.c
mkdir "$made/inputs"
"$made/events" "$made/inputs"
bin=
[ "${1-}" != --bin ] || { bin=$(readlink -f -- "$2"); shift 2; }
if [ -z "$bin" ]; then
    ../ntuple >/dev/null 2>&1 || [ $? -eq 2 ] || { echo "the program did not build" >&2; exit 1; }
    bin=$PWD/../.built/nt_tool
fi
python3 program.py "$made" "$bin" "$made/plain" "$@"
