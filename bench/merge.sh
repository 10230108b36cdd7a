#!/bin/sh
# Measures the program's `merge`, plain C++ for the same work, and `cat` of the same files, on files in memory: 8 files of wide events, and
# 64 of small ones. The merged files are compared byte for byte.
#   merge.sh [--bin PATH] [--rounds N]
# Without PATH the launcher builds the program first.
set -eu
cd "$(dirname -- "$(readlink -f -- "$0")")"
made=$(mktemp -d /dev/shm/ntuple.XXXXXX)
trap 'rm -rf "$made"' EXIT
c++ -std=c++17 -O2 -pthread -o "$made/plain" merge.cpp
c++ -std=c++17 -O2 -o "$made/events" events.cpp
cc -O2 -o "$made/measured" measured.c
mkdir "$made/inputs"
"$made/events" "$made/inputs"
bin=
[ "${1-}" != --bin ] || { bin=$(readlink -f -- "$2"); shift 2; }
if [ -z "$bin" ]; then
    ../ntuple >/dev/null 2>&1 || [ $? -eq 2 ] || { echo "the program did not build" >&2; exit 1; }
    bin=$PWD/../.built/nt_tool
fi
python3 -B merge.py "$made" "$bin" "$made/plain" "$@"
