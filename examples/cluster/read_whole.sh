#!/usr/bin/env bash
#SBATCH --job-name=read --ntasks=1 --cpus-per-task=1
# One job: the totals and the entries of the whole file, as FOLDER/whole.scan and FOLDER/whole.txt.
#
#     read_whole.sh FOLDER ROUND      ROUND is the last one
set -eu
cd "$1"
ln -sf "round-$2/000000.root" whole.root
./ntuple scan whole.root >whole.scan
./ntuple entries whole.root >whole.txt
