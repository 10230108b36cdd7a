"""Tests what the README shows, and ends with 1 where something is amiss.

- Each line `$ ./ntuple ..` is run, one after the other in one folder, and prints the lines behind it.
- Its Rust stands in a file of example_library, line by line, but for lines `// ..`, which stand for what is left out.
"""
import os
import shlex
import shutil
import subprocess
import sys
import tempfile


def shown(path):
    """The commands with the lines that stand behind each, up to the next one or the end of the block."""
    commands, lines = [], None
    for line in open(path, encoding="utf-8").read().split("\n"):
        if line.startswith("$ ./ntuple "):
            lines = []
            commands.append((shlex.split(line[2:]), lines))
        elif line.startswith("```"):
            lines = None
        elif lines is not None:
            lines.append(line + "\n")
    return [(words, "".join(lines)) for words, lines in commands]


def quoted(path):
    """The parts of its blocks of Rust, each up to a line that stands for what is left out."""
    parts = [[]]
    for block in open(path, encoding="utf-8").read().split("```rust\n")[1:]:
        for line in block.split("```")[0].splitlines():
            if line.strip().startswith("// .."):
                parts.append([])
            else:
                parts[-1].append(line)
        parts.append([])
    return ["\n".join(part) + "\n" for part in parts if part]


def unquoted():
    """The parts that stand in no file of the example."""
    folder = "crates/example_library/src"
    texts = [open(f"{folder}/{name}", encoding="utf-8").read() for name in sorted(os.listdir(folder))]
    return [part for part in quoted("README.md") if not any(part in text for text in texts)]


def main():
    program, amiss = sys.argv[1], 0
    for part in unquoted():
        amiss += 1
        print(f"amiss: this stands in no file of example_library:\n{part}", file=sys.stderr)
    commands = shown("README.md")
    with tempfile.TemporaryDirectory() as folder:
        shutil.copytree("examples", f"{folder}/examples")
        for words, expected in commands:
            done = subprocess.run([program, *words[1:]], capture_output=True, text=True, cwd=folder, timeout=60)
            if done.returncode or done.stdout != expected:
                amiss += 1
                print(f"amiss: {' '.join(words)}: status {done.returncode}, and it printed\n{done.stdout}{done.stderr}", file=sys.stderr)
    print(f"README: {len(commands)} commands, {len(quoted('README.md'))} pieces of code, {amiss} amiss")
    return 1 if amiss or not commands else 0


if __name__ == "__main__":
    os.chdir(os.path.join(os.path.dirname(os.path.abspath(__file__)), "../.."))
    sys.exit(main())
