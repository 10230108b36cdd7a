#!/usr/bin/env bash
#SBATCH --job-name=merge --ntasks=1 --cpus-per-task=1
# One job: merges up to 64 files of a round into one of the next. FOLDER lies where every machine sees it.
#
#     merge_round.sh FOLDER ROUND [NUMBER]      ROUND is 1 or more; NUMBER is from 0, and without it the task of the array job gives it
set -eu
cd "$1"
round=$2 number=${3:-$SLURM_ARRAY_TASK_ID}
out=$(printf 'round-%d/%06d.root' "$round" "$number")
if ./ntuple schema "$out" >/dev/null 2>&1; then
    echo "$out is whole already"
    exit 0
fi
mkdir -p "round-$round"
count=$(wc -l <inputs.txt) # how many files the round before has: one for each input, and a 64th of these in each round
for ((k = 1; k < round; k++)); do
    count=$(((count + 63) / 64))
done
files=() # each by its number, so that a missing file is an error and isn't left out
for ((k = 64 * number; k < 64 * number + 64 && k < count; k++)); do
    files+=("$(printf 'round-%d/%06d.root' $((round - 1)) "$k")")
done
exec ./ntuple merge $(cat merge-options.txt 2>/dev/null) "$out" "${files[@]}"
