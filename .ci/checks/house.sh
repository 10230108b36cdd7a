#!/usr/bin/env bash
# The order of the house: crates, layers, names, lengths and what documents name; and that the chart of speed is that of its figures.
set -u
cd "$(dirname "$0")/../.." || exit 1
python3 -B .ci/checks/house.py
house=$?
python3 bench/chart.py --check && [ "$house" -eq 0 ]
