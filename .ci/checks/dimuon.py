"""Runs examples/dimuon without its plot, and ends with 1 where it prints or selects something else than it says."""
import json
import os
import subprocess
import sys
import tempfile

FOLDER = "examples/dimuon"
RUNS, FIRST, LAST = range(101, 109), 103, 106


def shown(path):
    """The lines that the README shows: those of its block that begins with a prompt."""
    blocks = open(path, encoding="utf-8").read().split("```\n")
    return next(block for block in blocks if block.startswith("$ ./ntuple ")).splitlines()


def in_order(lines):
    """The lines, with the numbers of those that tell an order of clusters sorted."""
    return [" ".join(sorted(line.split(" "), reverse=True)) if line.startswith("order") else line for line in lines]


def masses(folder):
    """Run and mass of each event of the runs that are selected, by the texts, sorted."""
    events = [json.loads(line) for run in RUNS for line in open(f"{folder}/{run}.txt", encoding="utf-8")]
    return sorted([event[0], event[4]] for event in events if FIRST <= event[0] <= LAST)


def main():
    with tempfile.TemporaryDirectory() as folder:
        done = subprocess.run([f"{FOLDER}/run.sh", folder], stdout=subprocess.PIPE, stderr=subprocess.STDOUT, text=True, timeout=120,
                              env={**os.environ, "NTUPLE": sys.argv[1], "PLOT": "no"})
        if done.returncode or in_order(done.stdout.splitlines()) != in_order(shown(f"{FOLDER}/README.md")):
            print(f"amiss: status {done.returncode}, and it printed\n{done.stdout}", file=sys.stderr)
            return 1
        selected = sorted(json.loads(line) for line in open(f"{folder}/few.txt", encoding="utf-8"))
        if selected != masses(folder):
            print("amiss: other masses than those of the texts", file=sys.stderr)
            return 1
    print(f"dimuon: {len(selected)} masses, as drawn")
    return 0


if __name__ == "__main__":
    os.chdir(os.path.join(os.path.dirname(os.path.abspath(__file__)), "../.."))
    sys.exit(main())
