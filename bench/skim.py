"""Runs `skim` of the program and of the plain C++ in turn on the file of the wide events, and a pipe of `entries` and `write`; see skim.sh.

Each round runs each once, in turn first; the first round is compared and not counted. Each figure is the middle one of the rounds."""
import argparse
import os
import statistics
import subprocess
import sys
import time

NAMES = ["a", "ids", "name"]
# The numbers of `a` are drawn evenly from 0 to 2^62.
CASES = {"one entry in two": 1 << 61, "all entries": 0, "no entry": 1 << 62}


def seconds(words, out):
    begun = time.perf_counter()
    status = subprocess.run(words, stdout=out, stderr=subprocess.DEVNULL).returncode
    return status, time.perf_counter() - begun


def is_same(one, other):
    return subprocess.run(["cmp", one, other]).returncode == 0


class Bench:
    def __init__(self, folder, ours, plain, rounds):
        self.folder, self.ours, self.plain, self.rounds = folder, ours, plain, rounds
        self.file = f"{folder}/wide.root"
        self.amiss = 0

    def fail(self, what):
        print(f"amiss: {what}", file=sys.stderr)
        self.amiss += 1

    def write(self):
        status, _ = seconds([self.ours, "write", self.file, f"{self.folder}/inputs/wide.schema", f"{self.folder}/inputs/wide"],
                            subprocess.DEVNULL)
        if status != 0:
            sys.exit("the file was not written")

    def words(self, name, least):
        if name == "pipe":
            inner = f"'{self.ours}' entries '{self.file}' | '{self.ours}' write '{self.folder}/pipe.root' " + \
                f"'{self.folder}/inputs/wide.schema' /dev/stdin"
            return ["sh", "-c", inner]
        program = self.ours if name == "ours" else self.plain
        test = ["--where", "a", "--least", str(least)]
        return [program] + ["skim"] * (name == "ours") + test + [f"{self.folder}/{name}.root", self.file, *NAMES]

    def measure(self, case, least):
        seen = {"ours": [], "plain": [], "pipe": []}
        for turn in range(self.rounds + 1):
            for name in sorted(seen, reverse=turn % 2 == 0):
                with open(f"{self.folder}/{name}.out", "wb") as out:
                    status, took = seconds(self.words(name, least), out)
                if status != 0:
                    return self.fail(f"{case}: {name} ended with {status}")
                if turn > 0:
                    seen[name].append(took)
            if turn == 0 and not is_same(f"{self.folder}/ours.root", f"{self.folder}/plain.root"):
                self.fail(f"{case}: the files differ")
            if turn == 0 and not is_same(f"{self.folder}/ours.out", f"{self.folder}/plain.out"):
                self.fail(f"{case}: the lines differ")
        ours, plain, pipe = (statistics.median(seen[name]) for name in ("ours", "plain", "pipe"))
        print(f"{case:<20}{ours * 1000:>9.1f}{plain * 1000:>9.1f}{ours / plain:>8.2f}{pipe * 1000:>9.1f}{ours / pipe:>8.2f}", flush=True)


def main():
    parser = argparse.ArgumentParser()
    for word in ("folder", "ours", "plain"):
        parser.add_argument(word)
    parser.add_argument("--rounds", type=int, default=9)
    words = parser.parse_args()
    bench = Bench(words.folder, words.ours, words.plain, words.rounds)
    bench.write()
    print(f"{'case':<20}{'ours, ms':>9}{'C++, ms':>9}{'by it':>8}{'pipe, ms':>9}{'by it':>8}")
    for case, least in CASES.items():
        bench.measure(case, least)
    return 1 if bench.amiss else 0


if __name__ == "__main__":
    sys.exit(main())
