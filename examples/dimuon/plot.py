"""Plots the invariant mass of muon pairs as a histogram, from lines of `ntuple entries` with a run and a mass in MeV.

    python3 plot.py LINES PICTURE
"""
import json
import math
import sys

import matplotlib

matplotlib.use("Agg")
from matplotlib import pyplot

LEAST, GREATEST = 60, 120  # of the plot, in GeV; a bin has one GeV


def counts_of(path):
    """How many pairs each bin has."""
    counts = [0] * (GREATEST - LEAST)
    with open(path, encoding="utf-8") as lines:
        for line in lines:
            _, mass = json.loads(line)
            place = mass // 1000 - LEAST
            if 0 <= place < len(counts):
                counts[place] += 1
    return counts


def main():
    counts = counts_of(sys.argv[1])
    middles = [LEAST + k + 0.5 for k in range(len(counts))]
    pyplot.rcParams.update({"font.size": 12, "axes.titlesize": 13})
    figure, axes = pyplot.subplots(figsize=(7.2, 4.6))
    axes.stairs(counts, range(LEAST, GREATEST + 1), fill=True, color="#c6d9ec", edgecolor="#2f6ea5", linewidth=1.2)
    axes.errorbar(middles, counts, yerr=[math.sqrt(count) for count in counts], fmt="o", color="black", markersize=3, linewidth=1)
    axes.set_title("Drawn muon pairs (no data of an experiment), runs 103 to 106")
    axes.set_xlabel(r"invariant mass of $\mu^+\mu^-$ [GeV]", loc="right")
    axes.set_ylabel("pairs per GeV", loc="top")
    axes.set_xlim(LEAST, GREATEST)
    axes.set_ylim(0)
    axes.minorticks_on()
    axes.tick_params(which="both", direction="in", top=True, right=True)
    peak = max(range(len(counts)), key=counts.__getitem__)
    axes.text(0.97, 0.93, f"{sum(counts)} pairs\npeak at {LEAST + peak} to {LEAST + peak + 1} GeV", transform=axes.transAxes, ha="right", va="top")
    figure.tight_layout()
    figure.savefig(sys.argv[2], dpi=110, metadata={"Software": None})


if __name__ == "__main__":
    main()
