#!/usr/bin/env bash
# From drawn pairs of muons, as text, to a plot of their mass: one command, which takes some seconds once the program is built.
#
#     examples/dimuon/run.sh [FOLDER]      the files are made in FOLDER, or without it in a new folder
#
# NTUPLE names the program; without it that is the launcher of this repository. The plot needs matplotlib (Debian: python3-matplotlib), and
# isn't made if PLOT is `no`.
set -eu
here=$(cd "$(dirname "$0")" && pwd)
NTUPLE=$(realpath "${NTUPLE:-$here/../../ntuple}")
folder=${1:-$(mktemp -d)}
mkdir -p "$folder"
cd "$folder"

ntuple() { # says the command on err, and runs it
    echo "\$ ./ntuple $*" >&2
    "$NTUPLE" "$@"
}

for run in 101 102 103 104 105 106 107 108; do
    python3 "$here/draw.py" $run 5000 >$run.txt
done
cp "$here/schema.txt" .

# two periods of data taking, of four runs each: four inputs are written into one file at once
ntuple write first.root schema.txt 101.txt 102.txt 103.txt 104.txt
ntuple write second.root schema.txt 105.txt 106.txt 107.txt 108.txt

# merges both files, and prints the totals of every number
ntuple merge all.root first.root second.root
ntuple scan all.root

# copies run and mass of the runs from 103 to 106 to a smaller file
ntuple skim --where run --least 103 --greatest 106 few.root all.root run mass
ntuple scan few.root
ntuple entries few.root >few.txt

[ "${PLOT:-yes}" != no ] || exit 0
python=python3
"$python" -c 'import matplotlib' 2>/dev/null || python=/usr/bin/python3
if "$python" -c 'import matplotlib' 2>/dev/null; then
    "$python" "$here/plot.py" few.txt mass.png
    echo "the plot is $PWD/mass.png"
else
    echo "no plot: there is no matplotlib"
fi
