"""Runs `merge` of the program, the plain C++ and `cat` in turn on files of events; see merge.sh.

Each round runs each once, in turn first; the first round is compared and not counted. Each time is the middle one of the rounds, by the
clock and, in brackets, of the processor; each peak is the highest."""
import argparse
import os
import shutil
import statistics
import subprocess
import sys

# How many files, and what each is made of: its schema, and the inputs of which the files have one after the other.
CASES = [(8, "wide.schema", ["wide"]), (64, "small.schema", [f"small-{i}" for i in range(8)])]


def is_same(one, other):
    return subprocess.run(["cmp", one, other]).returncode == 0


class Bench:
    def __init__(self, folder, ours, plain, rounds):
        self.folder, self.ours, self.plain, self.rounds = folder, ours, plain, rounds
        self.amiss = 0

    def fail(self, what):
        print(f"amiss: {what}", file=sys.stderr)
        self.amiss += 1

    def run(self, words, out):
        """The status of a command whose out goes to this file, its seconds by the clock and of the processor, and its peak of resident
        memory in MB."""
        with open(out, "wb") as file:
            _, status, used = os.wait4(subprocess.Popen([f"{self.folder}/measured", f"{self.folder}/figures", *words], stdout=file).pid, 0)
        with open(f"{self.folder}/figures", encoding="utf-8") as file:
            seconds, peak = file.read().split()
        return os.waitstatus_to_exitcode(status), float(seconds), used.ru_utime + used.ru_stime, int(peak) / 1024

    def files(self, count, schema, inputs):
        """So many files, each with its own bytes in memory."""
        names = [f"{self.folder}/{k}.root" for k in range(count)]
        for k, name in enumerate(names):
            if k >= len(inputs):
                shutil.copyfile(names[k % len(inputs)], name)
                continue
            words = [self.ours, "write", name, f"{self.folder}/inputs/{schema}", f"{self.folder}/inputs/{inputs[k]}"]
            if subprocess.run(words, stdout=subprocess.DEVNULL).returncode != 0:
                sys.exit("a file was not written")
        return names

    def once(self, name, files):
        """One run: ours, the C++ or `cat`, whose out is its file."""
        made = f"{self.folder}/{name}.made"
        words = {"ours": [self.ours, "merge", made], "plain": [self.plain, made], "cat": ["/bin/cat"]}[name]
        return self.run(words + files, made if name == "cat" else f"{self.folder}/{name}.out")

    def measure(self, count, schema, inputs):
        files = self.files(count, schema, inputs)
        size = sum(os.path.getsize(name) for name in files)
        case = f"{count} files of {inputs[0].split('-')[0]}"
        seen = {"ours": [], "plain": [], "cat": []}
        for turn in range(self.rounds + 1):
            for name in sorted(seen, reverse=turn % 2 == 0):
                status, *figures = self.once(name, files)
                if status != 0:
                    return self.fail(f"{case}: {name} ended with {status}")
                if turn > 0:
                    seen[name].append(figures)
            if turn == 0:
                for what in ("made", "out"):
                    if not is_same(f"{self.folder}/ours.{what}", f"{self.folder}/plain.{what}"):
                        self.fail(f"{case}: what was {what} differs")
        time, work = ({name: statistics.median(run[k] for run in runs) for name, runs in seen.items()} for k in (0, 1))
        line = f"{case:<18}{size / 1e6:>7.1f}{time['ours'] * 1000:>10.1f}{max(run[2] for run in seen['ours']):>6.1f} MB"
        for name in ("plain", "cat"):
            ratios = f"{time['ours'] / time[name]:.2f} ({work['ours'] / work[name]:.2f})"
            line += f"{time[name] * 1000:>10.1f}{max(run[2] for run in seen[name]):>6.1f} MB{ratios:>13}"
        print(line, flush=True)


def main():
    parser = argparse.ArgumentParser()
    for word in ("folder", "ours", "plain"):
        parser.add_argument(word)
    parser.add_argument("--rounds", type=int, default=9)
    words = parser.parse_args()
    bench = Bench(words.folder, words.ours, words.plain, words.rounds)
    print(f"{'case':<18}{'MB':>7}{'ours, ms':>10}{'peak':>9}" + f"{'C++, ms':>10}{'peak':>9}{'by it':>13}" + f"{'cat, ms':>10}{'peak':>9}{'by it':>13}")
    for case in CASES:
        bench.measure(*case)
    return 1 if bench.amiss else 0


if __name__ == "__main__":
    sys.exit(main())
