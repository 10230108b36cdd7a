"""Holds docs/ntuple.1 and completions/ against the README and the built program, and ends with 1 where something is amiss.

- The manual names the README's commands, options with their ranges, and exit codes.
- The completions name the manual's commands and options; those for zsh and fish also the ranges. What bash and fish would offer is
  asked of them; a shell that isn't there is left out.
- The program takes each option at both ends of its range and refuses it outside of them and where another command has it; so it does
  with the numbers of `gen` and how many inputs `write` and `merge` have. It prints what the manual's examples show.

Without a program its part is skipped.
"""
import os
import re
import shutil
import subprocess
import sys
import tempfile

FOR_BASH = 'compopt() { :; }; source completions/ntuple.bash; COMP_WORDS=(ntuple "$@"); COMP_CWORD=$#; _ntuple; printf "%s\\n" "${COMPREPLY[@]}"'


def text_of(path):
    with open(path, encoding="utf-8") as file:
        return file.read()


def number(text):
    return 1 << int(text[2:]) if text.startswith("2^") else int(text)


def range_in(text):
    """The first `A to B` of a text; nothing where there is none."""
    found = re.search(r"(-?\d+) to (\d+)", text)
    return (int(found[1]), int(found[2])) if found else None


class Manual:
    """What the manual names: commands, the options of each with their ranges, those that take a name, the numbers of `gen`, exit codes
    and examples."""

    def __init__(self, path):
        text = text_of(path).replace("\\-", "-")
        self.commands = re.findall(r"^\.B ntuple (\w+)$", text, re.M)
        self.options = {command: {} for command in self.commands}
        self.texts = set()
        for heading, body in re.findall(r"^\.SS Options of ([\w, ]+)\n(.*?)(?=^\.S)", text, re.M | re.S):
            rows = re.findall(r"^\.TP\n\.BI? (--[\w-]+)[^\n]*\n(.*?)(?=^\.TP|\Z)", body, re.M | re.S)
            self.texts |= {name for name in re.findall(r"^\.BI (--[\w-]+) \" NAME\"$", body, re.M)}
            for command in re.split(", | and ", heading):
                self.options[command].update({name: range_in(row) for name, row in rows})
        numbers = re.search(r"^\.SS Numbers of gen\n(.*?)(?=^\.S)", text, re.M | re.S)[1]
        self.numbers = [range_in(row) for row in numbers.split(".TP\n")[1:]]
        counted = re.findall(r"^\.TP\n\.B (\w+)\n(?:(?!\.TP).*\n)*?.*\(from (.*) of them\)", text, re.M)
        self.inputs = {command: range_in(row) for command, row in counted}
        self.codes = re.findall(r"^\.TP\n\.B (\d+)$", text, re.M)
        blocks = "".join(re.findall(r"^\.nf\n(.*?)^\.fi$", text, re.M | re.S))
        self.examples = [(shown.split("\n", 1)[0].split(), shown.split("\n", 1)[1]) for shown in blocks.split("$ ./ntuple ")[1:]]


def against_readme(manual):
    text = text_of("README.md")
    rows = re.findall(r"^\| `(\w+)((?: [^`]*)?)` \|", re.search(r"^## Commands\n(.*?)^## ", text, re.M | re.S)[1], re.M)
    if sorted(command for command, _ in rows) != sorted(manual.commands):
        yield f"the README has other commands than the manual: {[command for command, _ in rows]}"
    for command, words in rows:
        for name in re.findall(r"--[\w-]+", words):
            if name not in manual.options.get(command, {}):
                yield f"the manual has no {name} of {command}"
    for name, low, high, sets in re.findall(r"^\| `(--[\w-]+)[^`]*` \|[^|]*\| ([^|]*) \| ([^|]*) \| ([^|]*) \|", text, re.M):
        found = (number(low), number(high)) if low.strip() else None
        among = ["write"] if sets.startswith("of `write` alone") else ["write", "seq", "skim"]
        for command in among + ["merge"] * ("`merge` too" in sets):
            if manual.options[command].get(name, ()) != found:
                yield f"the manual has another range of {name} of {command} than the README: {found}"
    codes = re.findall(r"^\| (\d+) \|", re.search(r"^## Exit codes\n(.*?)^## ", text, re.M | re.S)[1], re.M)
    if sorted(set(codes)) != sorted(manual.codes):
        yield f"the README has other exit codes than the manual: {codes}"


def in_zsh():
    """What the file for zsh names: the commands, the options of each, and the numbers of `gen`."""
    text = text_of("completions/_ntuple")
    listed = re.search(r"commands=\(\n(.*?)^    \)", text, re.M | re.S)[1]
    shared = {name: re.search(rf"{name}=\(\n.*?^    \)", text, re.M | re.S)[0] for name in ("writing", "storing")}
    arms = dict(re.findall(r"^        (\w+)\)(.*?);;", text, re.M | re.S))
    rows = {command: re.sub(r"\$(writing|storing)", lambda name: shared[name[1]], arm) for command, arm in arms.items()}
    options = {command: {name: range_in(row) for name, row in re.findall(r"'(--[\w-]+)\[([^]]*)\]", arm)} for command, arm in rows.items()}
    return re.findall(r"'(\w+):", listed), options, [range_in(row) for row in re.findall(r"'[123]:([^']*)'", arms["gen"])]


def in_fish():
    """What the file for fish names: the commands and the options of each."""
    text = text_of("completions/ntuple.fish")
    commands = re.findall(r"^complete .* -a (\w+) ", text, re.M)
    options = {command: {} for command in commands}
    for among, name, row in re.findall(r"^complete -c ntuple -n '__ntuple_is ([\w ]+)' -l ([\w-]+) (.*)$", text, re.M):
        for command in among.split():
            options[command]["--" + name] = range_in(row)
    return commands, options


def against_completions(manual):
    commands, options, numbers = in_zsh()
    if (sorted(commands), options, numbers) != (sorted(manual.commands), manual.options, manual.numbers):
        yield f"the completions for zsh name other words or ranges than the manual: {commands}, {options}, {numbers}"
    commands, options = in_fish()
    if (sorted(commands), options) != (sorted(manual.commands), manual.options):
        yield f"the completions for fish name other words or ranges than the manual: {commands}, {options}"
    if shutil.which("zsh") and subprocess.run(["zsh", "-n", "completions/_ntuple"]).returncode:
        yield "zsh doesn't read its completions"
    shells = {"bash": lambda words: ["bash", "-c", FOR_BASH, "bash", *words]}
    if shutil.which("fish"):
        shells["fish"] = lambda words: ["fish", "--no-config", "-c", f"source completions/ntuple.fish; complete -C 'ntuple {' '.join(words)}'"]
    for shell, asked in shells.items():
        for words, named in [([""], manual.commands), *(([command, "--"], manual.options[command]) for command in manual.commands)]:
            done = subprocess.run(asked(words), capture_output=True, text=True, timeout=60)
            offered = [line.split("\t")[0] for line in done.stdout.split("\n") if line]
            if done.returncode or done.stderr or sorted(offered) != sorted(named):
                yield f"{shell} offers other words behind {words} than the manual has: {offered} {done.stderr}"


class Program:
    """The built program in a folder with a schema, a text and a file."""

    def __init__(self, path):
        self.path = path
        for name, text in (("schema", "x u64\n"), ("events", "[1]\n")):
            with open(name, "w", encoding="utf-8") as file:
                file.write(text)
        self.names = {"write": ["out.root", "schema", "events"], "seq": ["out.root", "schema", "events"], "gen": ["1", "1", "1", "out.root"],
                      "skim": ["out.root", "file.root", "x"], "merge": ["out.root", "file.root"]}
        subprocess.run([path, "write", "file.root", "schema", "events"], check=True, stdout=subprocess.DEVNULL)

    def takes(self, command, *options):
        words = self.names.get(command, ["file.root"])
        beside = ["--where", "x"] if command == "skim" and options and options[0].startswith(("--least", "--greatest")) else []
        return self.takes_words(command, *beside, *options, *words)

    def takes_words(self, *words):
        done = subprocess.run([self.path, *words], capture_output=True, text=True, timeout=120)
        if done.returncode not in (0, 2, 5) or done.returncode == 2 and done.stderr != "ntuple: usage\n":
            raise ValueError(f"{words}: status {done.returncode}, and it says {done.stderr!r}")
        return done.returncode != 2


def at_ends(found):
    """Numbers, and whether they lie in the range: its ends, and those outside of it."""
    low, high = found
    return [(low, True), (high, True), (high + 1, False)] + [(low - 1, False)] * (low != 0)


def against_program(manual, program):
    for command in manual.commands:
        if not program.takes(command):
            yield f"the program doesn't take {command}"
        for name in {name for options in manual.options.values() for name in options}:
            found, has = manual.options[command].get(name), name in manual.options[command]
            for value, fits in at_ends(found) if found else [("x" if name in manual.texts else 1 << 20, has)]:
                words = [f"{name}={value}"] if not has or found or name in manual.texts else [name]
                for spelled in (words, [name, str(value)]) if found and value >= 0 else (words,):
                    if program.takes(command, *spelled) != (has and fits):
                        yield f"the manual is wrong on {command} {' '.join(spelled)}"
    for place, found in enumerate(manual.numbers):
        for value, fits in at_ends(found):
            words = ["1", "0" if value else "1", "1", "out.root"]
            words[place] = str(value)
            if program.takes_words("gen", *words) != fits:
                yield f"the manual is wrong on gen {' '.join(words)}"
    for command, found in manual.inputs.items():
        for count, fits in at_ends(found):
            *words, name = program.names[command]
            if program.takes_words(command, *words, *[name] * count) != fits:
                yield f"the manual is wrong on {count} inputs of {command}"


def against_examples(manual, path):
    for words, expected in manual.examples:
        done = subprocess.run([path, *words], capture_output=True, text=True, timeout=120)
        if done.returncode or done.stdout != expected:
            yield f"the manual's {' '.join(words)}: status {done.returncode}, and it printed\n{done.stdout}{done.stderr}"


def main():
    manual, path = Manual("docs/ntuple.1"), sys.argv[1]
    amiss = [*against_readme(manual), *against_completions(manual)]
    if os.access(path, os.X_OK):
        with tempfile.TemporaryDirectory() as folder:
            shutil.copytree("examples", f"{folder}/examples")
            os.chdir(folder)
            amiss += [*against_program(manual, Program(path)), *against_examples(manual, path)]
            os.chdir("/")
    else:
        print(f"skipped: no program at {path}")
    for fault in amiss:
        print(f"amiss: {fault}", file=sys.stderr)
    options = {name for of in manual.options.values() for name in of}
    print(f"manual: {len(manual.commands)} commands, {len(options)} options, {len(manual.examples)} examples, {len(amiss)} amiss")
    return 1 if amiss or not manual.examples else 0


if __name__ == "__main__":
    os.chdir(os.path.join(os.path.dirname(os.path.abspath(__file__)), "../.."))
    sys.exit(main())
