"""What one unit costs (an event, a field, a cluster, an item ..) as the number of units grows, and peak memory; see growth.sh.

A row is a command over files of one kind, and a column is a number of units. The first column has the cost of one unit, counted from the
smallest file; each other column has its own cost of one unit divided by that: a row that hardly grows says that the cost grows no faster
than the work. The cost is the processor's time, of the program and of the system for it, the least of the rounds. With `--count` it is the
number of instructions by valgrind, which other work on the machine doesn't change, but which takes some fifty times as long; `--most N`
leaves out numbers above N. Peaks are of resident memory, in MB."""
import argparse
import os
import re
import subprocess
import sys

SMALL = "run u32\nids vec<u32>\ntag string\n"
BLOCK, EVENTS = 10000, 640000
MOST, ENOUGH = 25, 0.4
GROUPS = [[], ["--group", "1"], ["--group", "10000"]]


class Rows:
    def __init__(self, words):
        self.folder, self.ours, self.rounds, self.count = words.folder, os.path.abspath(words.bin), words.rounds, words.count
        self.most, self.seed = words.most, 1
        os.chdir(self.folder)

    def draw(self, below):
        self.seed = self.seed * 48271 % 2147483647
        return self.seed % below

    def run(self, words):
        """The processor's seconds and the peak in MB."""
        child = subprocess.Popen([f"{self.folder}/measured", "figures", self.ours, *words], stdout=subprocess.DEVNULL)
        _, status, used = os.wait4(child.pid, 0)
        child.returncode = os.waitstatus_to_exitcode(status)
        if child.returncode != 0:
            sys.exit(f"{' '.join(words)[:200]} ended with {child.returncode}")
        with open("figures", encoding="utf-8") as file:
            return used.ru_utime + used.ru_stime, int(file.read().split()[1]) / 1024

    def instructions(self, words):
        counter = ["valgrind", "--tool=cachegrind", "--cache-sim=no", "--cachegrind-out-file=/dev/null", self.ours, *words]
        told = subprocess.run(counter, stdout=subprocess.DEVNULL, stderr=subprocess.PIPE, check=True).stderr.decode()
        return int(re.search(r"I\s+refs:\s+([\d,]+)", told).group(1).replace(",", ""))

    def cost(self, words):
        """What a run costs, and its peak. Short runs are repeated until they took a while together."""
        runs = [self.run(words)]
        if self.count:
            return self.instructions(words), runs[0][1]
        while len(runs) < self.rounds or len(runs) < MOST and sum(seconds for seconds, _ in runs) < ENOUGH:
            runs.append(self.run(words))
        return min(seconds for seconds, _ in runs), max(peak for _, peak in runs)

    def show(self, kind, sizes, make, work=lambda size: size):
        """The rows of files of one kind. `make` makes the files of a size and gives the words of each command."""
        seen, sizes = {}, [size for size in sizes if size <= self.most]
        for size in [1, *sizes]:
            for command, words in make(size).items():
                seen.setdefault(command, []).append((work(size), *self.cost(words)))
        print(f"\n{kind + ': cost of one more, peak MB, by number':<52}" + "".join(f"{size:>12}" for size in sizes))
        for command, runs in seen.items():
            least, cost, _ = runs[0] if runs[-1][0] > runs[0][0] else (0, 0, 0)
            each = [(run[1] - cost) / (run[0] - least) for run in runs[1:]]
            unit = f"{each[0]:>12.0f}" if self.count else f"{each[0] * 1e9:>10.0f}ns"
            cells = [unit] + [f"{figure / (each[0] or 1):>12.2f}" for figure in each[1:]]
            print(f"{kind + ': ' + command:<52}" + "".join(cells), flush=True)
            print(f"{'':<52}" + "".join(f"{run[2]:>9.1f} MB" for run in runs[1:]), flush=True)

    def save(self, name, parts):
        with open(name, "w", encoding="utf-8") as file:
            file.writelines(parts)

    def small(self, name, count):
        """So many small events, whose later ones repeat the first."""
        def event():
            ids = ",".join(str(self.draw(1000000)) for _ in range(self.draw(4)))
            return f'[{self.draw(1000)},[{ids}],"t{self.draw(10)}"]\n'
        block = [event() for _ in range(min(count, BLOCK))]
        self.save(name, ("".join(block) if left >= BLOCK else "".join(block[:left]) for left in range(count, 0, -BLOCK)))
        self.save("schema", SMALL)


def reading(skims, merging=()):
    """The words of the commands that read the file `o`; a skim for each list of words, and `merge` with these options, unless it refuses."""
    words = {command: [command, "o"] for command in ("schema", "entries", "scan")}
    words |= {f"skim {name}": ["skim", *options, "p", "o", *names] for name, options, names in skims}
    return words if merging is None else words | {"merge": ["merge", *merging, "p", "o"]}


def events(rows):
    def make(count):
        rows.small("in", count)
        rows.run(["write", "o", "schema", "in"])
        skims = [("of all", [], ["run", "ids", "tag"]), ("of half", ["--where", "run", "--least", "500"], ["run", "ids", "tag"])]
        return {"write": ["write", "o", "schema", "in"], "seq": ["seq", "o", "schema", "in"]} | reading(skims)
    rows.show("events", [10 ** 4, 10 ** 5, 10 ** 6, 10 ** 7], make)


def fields(rows):
    def make(count):
        rows.save("schema", (f"f{k} u32\n" for k in range(count)))
        rows.save("in", ("[" + ",".join(str(rows.draw(1000)) for _ in range(count)) + "]\n" for _ in range(20)))
        rows.run(["write", "o", "schema", "in"])
        half = [f"f{k}" for k in range(0, count, 2)]
        skims = [("of one", [], ["f0"]), ("of half", [], half), ("of half by a test", ["--where", "f0", "--least", "500"], half)]
        return {"write": ["write", "o", "schema", "in"], "seq": ["seq", "o", "schema", "in"]} | reading(skims)
    rows.show("fields, 20 events", [64, 512, 1024, 4096], make)


def members(rows):
    def make(count):
        rows.save("schema", ["r rec{" + ",".join(f"m{k}:u32" for k in range(count)) + "}\n"])
        rows.save("in", ("[[" + ",".join(str(rows.draw(1000)) for _ in range(count)) + "]]\n" for _ in range(20)))
        rows.run(["write", "o", "schema", "in"])
        return {"write": ["write", "o", "schema", "in"]} | reading([("of all", [], ["r"])])
    rows.show("members, 20 events", [64, 512, 4095], make)


def added(rows):
    def make(count):
        rows.save("schema", ["f0 u32\n"])
        rows.save("in", [*(f"+ f{k} u32\n" for k in range(1, count)), "[" + ",".join("7" * count) + "]\n"])
        rows.run(["seq", "o", "schema", "in"])
        return {"seq": ["seq", "o", "schema", "in"]} | reading([("of one", [], ["f0"])])
    rows.show("fields that a script adds at once", [64, 512, 4096], make)


def late(rows):
    def make(count):
        rows.save("schema", ["f0 u32\n"])
        rows.save("in", (f"[{','.join('7' * k)}]\n+ f{k} u32\n" for k in range(1, count)))
        rows.run(["seq", "o", "schema", "in"])
        return {"seq": ["seq", "o", "schema", "in"]} | reading([("of one", [], ["f0"])], None)
    rows.show("late fields, by columns of clusters", [64, 256, 1024], make, lambda count: count * (count - 1) // 2)


def clusters(rows):
    for group in GROUPS:
        def make(count):
            rows.small("in", count)
            options = ["--cluster", "1", *group]
            rows.run(["write", *options, "o", "schema", "in"])
            skims = [("of all", options, ["run", "ids", "tag"]), ("of half", [*options, "--where", "run", "--least", "500"], ["run"])]
            commands = {command: [command, *options, "o", "schema", "in"] for command in ("write", "seq")}
            return commands | reading(skims, group)
        rows.show(" ".join(["clusters", *group]), [10 ** 3, 10 ** 4, 10 ** 5], make)


def whole(rows):
    def make(count):
        rows.small("in", count)
        words = ["write", "--cluster", "1000000", "o", "schema", "in"]
        rows.run(words)
        return {"write": words} | reading([("of all", words[1:3], ["run", "ids", "tag"])])
    rows.show("events of one cluster", [10 ** 4, 10 ** 5, 10 ** 6], make)


def pages(rows):
    def make(count):
        rows.small("in", count)
        words = ["write", "--cluster", "1000000", "--page", "1", "o", "schema", "in"]
        rows.run(words)
        return {"write": words} | reading([("of all", words[1:5], ["run", "ids", "tag"])])
    rows.show("pages, an element each, of one cluster", [10 ** 3, 10 ** 4, 10 ** 5], make)


def empty(rows):
    """Events that have no value in most columns: the cost of a column more, by event."""
    def make(count):
        rows.save("schema", ["x vec<rec{" + ",".join(f"m{k}:u32" for k in range(count)) + "}>\n"])
        rows.save("in", ["[[]]\n" * 20000])
        rows.run(["write", "o", "schema", "in"])
        return {"write": ["write", "o", "schema", "in"]} | reading([("of all", [], ["x"])])
    rows.show("columns without elements, 20000 events", [64, 512, 4094], make)


def behind(rows):
    """Clusters that leave out the fields that are added behind them: the cost of a field more, by 2000 clusters."""
    def make(count):
        rows.save("schema", ["f0 u32\n"])
        rows.save("in", ["[7]\n" * 2000, *(f"+ f{k} u32\n" for k in range(1, count))])
        words = ["seq", "--cluster", "1", "o", "schema", "in"]
        rows.run(words)
        return {"seq": words} | reading([("of one", [], ["f0"])], None)
    rows.show("fields that 2000 clusters leave out", [64, 512, 1024], make)


def drawn(rows):
    rows.show("events of gen", [10 ** 4, 10 ** 5, 10 ** 6], lambda count: {"gen": ["gen", "1", str(count), "1", "o"]})
    rows.show("contexts of gen, 10000 events each", [4, 16, 64], lambda count: {"gen": ["gen", str(count), "10000", "1", "o"]})


def inputs(rows):
    def make(count):
        names = [f"in{k}" for k in range(count)]
        for name in names:
            rows.small(name, EVENTS // count)
            rows.run(["write", f"f{name}", "schema", name])
        words = {"write": ["write", "o", "schema", *names], "write --contexts 4": ["write", "--contexts", "4", "o", "schema", *names]}
        return words | {"merge": ["merge", "o", *(f"f{name}" for name in names)]}
    rows.show(f"inputs of {EVENTS} events in all", [1, 8, 64], make, lambda count: EVENTS)


def long(rows):
    def make_with(schema, line):
        def make(count):
            rows.save("schema", [schema])
            rows.save("in", [line(count)])
            rows.run(["write", "o", "schema", "in"])
            return {"write": ["write", "o", "schema", "in"]} | reading([("of all", [], ["x"])])
        return make
    numbers = lambda count: ",".join(str(rows.draw(1000000)) for _ in range(count))
    texts = lambda count: ",".join(f'"t{rows.draw(1000)}"' for _ in range(count))
    rows.show("items of a list", [10 ** 4, 10 ** 5, 10 ** 6], make_with("x vec<u32>\n", lambda count: f"[[{numbers(count)}]]\n"))
    rows.show("texts of a list", [10 ** 4, 10 ** 5, 10 ** 6], make_with("x vec<string>\n", lambda count: f"[[{texts(count)}]]\n"))
    rows.show("letters of a text", [10 ** 4, 10 ** 6, 10 ** 7], make_with("x string\n", lambda count: f'["{"ab" * (count // 2)}"]\n'))
    rows.show("escapes of a text", [10 ** 4, 10 ** 5, 10 ** 6], make_with("x string\n", lambda count: '["' + "\\n\\u00e4" * (count // 2) + '"]\n'))


def names(rows):
    def make(count):
        letters = max(count // 400 - 9, 1)
        rows.save("schema", (f"{'n' * letters}{k:03} u32\n" for k in range(400)))
        rows.save("in", ["[" + ",".join("7" * 400) + "]\n"])
        rows.run(["write", "o", "schema", "in"])
        return {"write": ["write", "o", "schema", "in"]} | reading([("of one", [], ["n" * letters + "000"])])
    rows.show("bytes of a schema text of 400 fields", [10 ** 4, 3 * 10 ** 4, 10 ** 5], make, lambda count: max(count, 9 * 400))


def main():
    parser = argparse.ArgumentParser()
    parser.add_argument("folder")
    parser.add_argument("--bin", default="../.built/nt_tool")
    parser.add_argument("--rounds", type=int, default=3)
    parser.add_argument("--count", action="store_true")
    parser.add_argument("--most", type=int, default=10 ** 7)
    parser.add_argument("--only", default="")
    words = parser.parse_args()
    rows = Rows(words)
    for kind in (events, fields, members, added, late, behind, empty, clusters, whole, pages, inputs, long, names, drawn):
        if words.only in kind.__name__:
            kind(rows)


if __name__ == "__main__":
    main()
