#!/usr/bin/env bash
#SBATCH --job-name=write --ntasks=1 --cpus-per-task=1
# One job: writes the events of one input as a file of its own. FOLDER lies where every machine sees it.
#
#     write_input.sh FOLDER [NUMBER]      NUMBER counts the lines of FOLDER/inputs.txt from 0; without it the task of the array job gives it
set -eu
cd "$1"
number=${2:-$SLURM_ARRAY_TASK_ID}
out=$(printf 'round-0/%06d.root' "$number")
if ./ntuple schema "$out" >/dev/null 2>&1; then
    echo "$out is whole already"
    exit 0
fi
mkdir -p round-0
input=$(sed -n "$((number + 1))p" inputs.txt)
exec ./ntuple write $(cat options.txt 2>/dev/null) "$out" schema.txt "$input"
