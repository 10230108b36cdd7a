#!/usr/bin/env bash
# Measures what one more event, field, cluster, input or item of a list costs as their number grows, and peak memory. The cost is the
# processor's time or, with --count, instructions:
#   growth.sh [--bin PATH] [--count] [--most N] [--rounds N] [--only KIND]
# Without PATH the launcher builds the program first.
set -eu
bench=$(dirname -- "$(readlink -f -- "$0")")
made=$(mktemp -d /dev/shm/ntuple.XXXXXX)
trap 'rm -rf "$made"' EXIT
cc -O2 -o "$made/measured" "$bench/measured.c"
case " $* " in
*" --bin "*) ;;
*) "$bench/../ntuple" >/dev/null 2>&1 || [ $? -eq 2 ] || { echo "the program did not build" >&2; exit 1; } ;;
esac
python3 -B "$bench/growth.py" "$made" --bin "$bench/../.built/nt_tool" "$@"
