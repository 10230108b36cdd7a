"""Runs the program and the plain C++ in turn on the inputs of a folder; see program.sh.

An input with a value of each shape is written and printed by both first, in several ways. Then a round runs each once, in turn first;
the first round is compared and not counted. Each figure is the middle one of the rounds, and each peak the highest.
"""
import argparse
import os
import statistics
import subprocess
import sys

TITLES = f"{'case':<26}{'events':>9}{'MB':>7}{'events/s':>12}{'MB/s':>7}{'peak MB':>9}" + \
    f"{'C++ events/s':>14}{'MB/s':>7}{'peak MB':>9}{'time by C++':>13}"


def run(measured, words, out):
    """The status, the seconds and the peak of resident memory in MB of a command whose out goes to this file."""
    figures = os.path.dirname(measured) + "/figures"
    with open(out, "wb") as file:
        status = subprocess.run([measured, figures, *words], stdout=file, stderr=subprocess.DEVNULL).returncode
    with open(figures, encoding="utf-8") as file:
        seconds, peak = file.read().split()
    return status, float(seconds), int(peak) / 1024


def is_same(one, other):
    return subprocess.run(["cmp", one, other]).returncode == 0


class Bench:
    def __init__(self, folder, ours, plain, rounds):
        self.folder, self.programs, self.rounds = folder, {"ours": ours, "plain": plain}, rounds
        self.amiss = 0

    def run(self, words, out):
        return run(f"{self.folder}/measured", words, out)

    def input(self, name):
        return f"{self.folder}/inputs/{name}"

    def fail(self, what):
        print(f"amiss: {what}", file=sys.stderr)
        self.amiss += 1

    def rate(self, words_of):
        """The seconds and the peak of each program, which is called with the words for its name; or None where one fails."""
        seen = {name: [] for name in self.programs}
        for turn in range(self.rounds + 1):
            for name in sorted(self.programs, reverse=turn % 2 == 0):
                words = [self.programs[name]] + words_of(name)
                status, seconds, peak = self.run(words, f"{self.folder}/{name}.out" if turn == 0 else os.devnull)
                if status != 0:
                    self.fail(f"{name} ended with {status}: {' '.join(words[1:])}")
                    return None
                if turn > 0:
                    seen[name].append((seconds, peak))
        return {name: (statistics.median(s for s, _ in runs), max(p for _, p in runs)) for name, runs in seen.items()}

    def show(self, case, events, size, rates):
        line = f"{case:<26}{events:>9}{size / 1e6:>7.1f}"
        for name, width in (("ours", 12), ("plain", 14)):
            seconds, peak = rates[name]
            line += f"{events / seconds:>{width}.0f}{size / seconds / 1e6:>7.1f}{peak:>9.1f}"
        print(line + f"{rates['ours'][0] / rates['plain'][0]:>13.2f}", flush=True)

    def compare(self, options):
        """Writes an input with a value of each shape by both, with these options, and prints it again."""
        files = {name: f"{self.folder}/{name}.root" for name in self.programs}
        for name, program in self.programs.items():
            self.run([program, "write", *options, files[name], self.input("shapes.schema"), self.input("shapes")], os.devnull)
        if not is_same(files["ours"], files["plain"]):
            self.fail(f"each shape, {' '.join(options)}: the files differ")
        for name, program in self.programs.items():
            self.run([program, "entries", files[name]], f"{self.folder}/{name}.out")
            if not is_same(f"{self.folder}/{name}.out", self.input("shapes")):
                self.fail(f"each shape, {' '.join(options)}: the entries of {name} aren't the events")

    def measure(self, case, schema, inputs, options=()):
        """Writes the inputs, with these options, and prints the entries by both, and compares; the seconds of the program for each, or None.
        The ranges of staged clusters stand in an order that is not printed, so of these only the entries are compared."""
        paths, files = [self.input(name) for name in inputs], {name: f"{self.folder}/{name}.root" for name in self.programs}
        size = sum(os.path.getsize(path) for path in paths)
        events = sum(open(path, "rb").read().count(b"\n") for path in paths)
        written = self.rate(lambda name: ["write", *options, files[name], self.input(schema), *paths])
        if written is None:
            return None
        # the last round's order was not kept, so the file is written once more, and the C++ follows what is printed then
        self.run([self.programs["ours"], "write", *options, files["ours"], self.input(schema), *paths], f"{self.folder}/ours.out")
        with open(f"{self.folder}/ours.out") as out:
            order = out.read().strip()
        self.run([self.programs["plain"], "write", *options, "--order", order, files["plain"], self.input(schema), *paths], os.devnull)
        if not options and not is_same(files["ours"], files["plain"]):
            self.fail(f"{case}: the files differ")
        self.show("write " + case, events, size, written)
        printed = self.rate(lambda name: ["entries", files["plain" if options and name == "plain" else "ours"]])
        if printed is None:
            return None
        if not is_same(f"{self.folder}/ours.out", f"{self.folder}/plain.out"):
            self.fail(f"{case}: the entries differ")
        if len(paths) == 1 and not is_same(f"{self.folder}/ours.out", paths[0]):
            self.fail(f"{case}: the entries aren't the events")
        self.show("entries " + case, events, size, printed)
        return written["ours"][0] / events, printed["ours"][0] / events

    def total(self, case, inputs):
        """Totals the file of the inputs that was measured last by both, the C++ with four threads and with one, and compares."""
        paths, file = [self.input(name) for name in inputs], f"{self.folder}/ours.root"
        size = sum(os.path.getsize(path) for path in paths)
        events = sum(open(path, "rb").read().count(b"\n") for path in paths)
        for threads in ("4", "1"):
            rates = self.rate(lambda name: ["scan", *(["--threads", threads] if name == "plain" else []), file])
            if rates is None:
                return
            if not is_same(f"{self.folder}/ours.out", f"{self.folder}/plain.out"):
                self.fail(f"{case}: the totals differ")
            self.show(f"scan {case}, C++ by {threads}", events, size, rates)


def main():
    parser = argparse.ArgumentParser()
    for word in ("folder", "ours", "plain"):
        parser.add_argument(word)
    parser.add_argument("--rounds", type=int, default=5)
    words = parser.parse_args()
    bench = Bench(words.folder, words.ours, words.plain, words.rounds)
    for sizes in ([], ["--cluster", "7", "--page", "3", "--group", "2"], ["--cluster", "1", "--page", "1", "--group", "1"]):
        bench.compare(sizes)
        bench.compare(["--plain", *sizes])
        bench.compare(["--staged", *sizes])
    print(TITLES)
    for count in (1, 2, 4, 8):
        bench.measure(f"of {count} small", "small.schema", [f"small-{i}" for i in range(count)])
    bench.total("of 8 small", [f"small-{i}" for i in range(8)])
    bench.measure("of 8 small, staged", "small.schema", [f"small-{i}" for i in range(8)], ["--staged"])
    bench.measure("of 1 wide", "wide.schema", ["wide"])
    bench.total("of 1 wide", ["wide"])
    each = {many: bench.measure(f"of {many} events", "small.schema", [f"many-{many}"]) for many in (10000, 100000, 1000000)}
    if all(each.values()):
        for k, command in enumerate(("write", "entries")):
            grown = [f"{each[many][k] / each[10000][k]:.2f}" for many in each]
            print(f"{command}: time an event of {', '.join(map(str, each))} events by that of the first: {', '.join(grown)}")
    return 1 if bench.amiss else 0


if __name__ == "__main__":
    sys.exit(main())
