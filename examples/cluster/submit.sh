#!/usr/bin/env bash
# Submits the jobs of FOLDER to Slurm, and prints their numbers: an array job that writes, one for each round that merges, and a job
# that reads.
#
#     submit.sh FOLDER
#
# FOLDER has the built program as `ntuple`, `schema.txt`, `inputs.txt` with the name of an input in each line, and maybe options of
# `write` in `options.txt` and of `merge` in `merge-options.txt`. If jobs were lost, call it again: a job whose file is whole ends at once.
set -eu
here=$(cd "$(dirname "$0")" && pwd)
folder=$(cd "$1" && pwd)
mkdir -p "$folder/logs"

submit() { # COUNT AFTER SCRIPT WORD..: an array job of so many tasks, to start once all tasks of the job AFTER ended well; its number
    local count=$1 after=$2
    shift 2
    sbatch --parsable --array=0-$((count - 1)) ${after:+--dependency=afterok:$after --kill-on-invalid-dep=yes} \
        --output="$folder/logs/%x-%A-%a.log" "$here/$1" "$folder" "${@:2}"
}

count=$(wc -l <"$folder/inputs.txt")
round=0
job=$(submit "$count" '' write_input.sh)
echo "job $job writes $count files"
while [ "$count" -gt 1 ]; do
    count=$(((count + 63) / 64)) round=$((round + 1))
    job=$(submit "$count" "$job" merge_round.sh $round)
    echo "job $job merges them into $count, round $round"
done
job=$(submit 1 "$job" read_whole.sh $round)
echo "job $job reads the whole"
