#!/bin/sh
# Measures the program's `skim`, plain C++ for the same work, and the program's `entries` and `write` in a pipe, on a file in memory:
# three fields of wide events, of one entry in two, of all and of none. The files are compared byte for byte.
#   skim.sh [--bin PATH] [--rounds N]
# Without PATH the launcher builds the program first.
set -eu
cd "$(dirname -- "$(readlink -f -- "$0")")"
made=$(mktemp -d /dev/shm/ntuple.XXXXXX)
trap 'rm -rf "$made"' EXIT
c++ -std=c++17 -O2 -pthread -o "$made/plain" skim.cpp
c++ -std=c++17 -O2 -o "$made/events" events.cpp
cc -O2 -o "$made/measured" measured.c
mkdir "$made/inputs"
"$made/events" "$made/inputs"
bin=
[ "${1-}" != --bin ] || { bin=$(readlink -f -- "$2"); shift 2; }
if [ -z "$bin" ]; then
    ../ntuple >/dev/null 2>&1 || [ $? -eq 2 ] || { echo "the program did not build" >&2; exit 1; }
    bin=$PWD/../.built/nt_tool
fi
python3 -B skim.py "$made" "$bin" "$made/plain" "$@"
