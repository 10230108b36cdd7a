"""Tests that the documents and the crates agree. It reads files alone, and ends with 1 where something is amiss.

- Each crate of crates.txt has a row in the table of docs/ARCHITECTURE.md with a layer, and its root file begins with `//!`.
- A crate stands on crates of its own layer or of a lower one.
- The README has each crate but those of tests and benchmarks, and no document names a crate that isn't there.
- Each path that a document names is there.
- No name of a definition stands in the specs of two crates, inside `module _` or not, but for those of SHARED and KNOWN_TWICE.
- No line of specs or proofs has more than 140 characters.
- A function has at most five clauses.
- What an edit in must-fail/ changes stands once in the file that it names.
- Functions of more than six parameters and lemma files over 250 lines are named, and there are no more of them than LIMITS says.
- Bodies of functions over 40 lines and other files over 250 are named; they are no failure.

Of each kind it prints how many it found.
"""
import collections
import os
import re
import subprocess
import sys

from lengths import lines_of, long_bodies, long_lemmas, long_lines, many_clauses, wide_functions

LAYERS = ["definitions", "codecs", "data", "plans", "threads", "whole files", "program", "benchmarks", "tests", "examples"]

# Names that several crates may define: those of a type's own model.
SHARED = set("state_of".split())

# Names that two crates define and that are still to be changed: each that is mended goes from this list.
KNOWN_TWICE = set()

# How many there may be at most, which is how many there were: who mends one lowers the number.
LIMITS = {"wide": 0, "long lemmas": 3}

DOCUMENTS = ["README.md"] + sorted("docs/" + name for name in os.listdir("docs") if name.endswith(".md"))


def tracked():
    listed = subprocess.run(["git", "ls-files"], capture_output=True, text=True, check=True).stdout
    return [path for path in listed.split("\n") if path and os.path.exists(path)]


def crates_of(path):
    """The crates of crates.txt, each with those of the repository that it stands on."""
    rows = {}
    for line in lines_of(path):
        line = line.split("#")[0].strip()
        if line:
            head, _, deps = line.partition(":")
            rows[head.split()[0]] = deps.split()
    return {name: [dep for dep in deps if dep in rows] for name, deps in rows.items()}


def layers_of(path):
    """The layer of each crate by the table whose rows begin with a crate and a layer."""
    rows = {}
    for line in lines_of(path):
        cells = [cell.strip() for cell in line.strip().strip("|").split("|")]
        if len(cells) >= 3 and re.fullmatch(r"(?:nt|test|bench|example)_\w+", cells[0]) and cells[1] in LAYERS:
            rows[cells[0]] = cells[1]
    return rows


def check_crates(crates, layers):
    for name, deps in crates.items():
        if name not in layers:
            yield f"docs/ARCHITECTURE.md: no row with a layer for {name}"
            continue
        root = next((p for p in (f"crates/{name}/src/lib.rt", f"crates/{name}/src/main.rt") if os.path.exists(p)), None)
        if root is None or not lines_of(root)[0].startswith("//!"):
            yield f"crates/{name}: its root file has no head"
        for dep in deps:
            if dep in layers and LAYERS.index(layers[dep]) > LAYERS.index(layers[name]):
                yield f"crates.txt: {name} ({layers[name]}) stands on {dep} ({layers[dep]})"
    for document in DOCUMENTS:
        named = {word for line in lines_of(document) for word in re.findall(r"\b(?:nt|test|bench|example)_[a-z0-9_]*[a-z0-9]\b", line)}
        for name in sorted(named - set(crates)):
            yield f"{document}: {name} is no crate"
        if document == "README.md":
            for name in sorted(set(crates) - named):
                if name.startswith("nt_"):
                    yield f"README.md: {name} isn't there"


def check_paths(crates, files):
    """Words in code spans that look like paths: from the top, from crates/, or from a crate that the words before name."""
    folders = {os.path.dirname(path) for path in files}
    for path in list(folders):
        while path:
            folders.add(path)
            path = os.path.dirname(path)
    known = set(files) | folders
    for document in DOCUMENTS:
        for number, line in enumerate(lines_of(document), 1):
            for word in re.findall(r"`([\w./-]+)`", line):
                word = word.removeprefix("./").rstrip("/")
                if "/" not in word or word.startswith("/") or not re.search(r"(^|/)(src|specs|proofs|must-fail|docs|bench|examples|\.ci)(/|$)", word):
                    continue
                if word in known or "crates/" + word in known:
                    continue
                if any(f"crates/{name}/{word}" in known for name in crates):
                    continue
                yield f"{document}:{number}: {word} isn't there"


def defined_names(path):
    """The names of definitions in a file of specs: at column 0, or one step inside each `module _` and `mutual` around them."""
    pattern = re.compile(r"(?:abbrev |unfoldable )*pub (?:record |data |abbrev |mutual )*([^\s:({]+)")
    around = []
    for line in lines_of(path):
        text = line.lstrip(" ")
        indent = len(line) - len(text)
        if not text or text.startswith("--"):
            continue
        while around and indent <= around[-1]:
            around.pop()
        if re.match(r"(module|mutual)\b", text):
            around.append(indent)
        elif indent == (around[-1] + 2 if around else 0):
            found = pattern.match(text)
            if found and found.group(1) not in ("use", "mod", "mutual"):
                yield found.group(1)


def names_twice(files):
    """The names that the specs of two crates define, each with these crates."""
    places = collections.defaultdict(set)
    for path in files:
        inside = re.match(r"crates/(\w+)/specs/", path)
        for name in defined_names(path) if inside else ():
            places[name].add(inside.group(1))
    return {name: ", ".join(sorted(crates)) for name, crates in sorted(places.items()) if len(crates) > 1 and name not in SHARED}


def edits(files):
    for path in files:
        found = re.match(r"(crates/\w+)/must-fail/.*\.edit$", path)
        if not found:
            continue
        texts, name, old = {}, None, None
        for line in lines_of(path):
            word, _, rest = line.partition(": ")
            if word == "file":
                name = f"{found.group(1)}/{rest}"
                texts.setdefault(name, "\n".join(lines_of(name)))
            elif word == "old":
                old = rest
                if texts[name].count(old) != 1:
                    yield f"{path}: its old text stands {texts[name].count(old)} times in {name}"
            elif word == "new":
                texts[name] = texts[name].replace(old, rest)


def main():
    files = tracked()
    crates = crates_of("crates.txt")
    layers = layers_of("docs/ARCHITECTURE.md")
    twice = names_twice(files)
    notes = {
        "wide": [*wide_functions(files)],
        "long lemmas": [*long_lemmas(files)],
        "known twice": [f"{name} is defined in {places}" for name, places in twice.items() if name in KNOWN_TWICE],
        "long": [*long_bodies(files)],
    }
    amiss = {
        "crates": [*check_crates(crates, layers)],
        "paths": [*check_paths(crates, files)],
        "names": [f"specs: {name} is defined in {places}" for name, places in twice.items() if name not in KNOWN_TWICE],
        "long lines": [*long_lines(files)],
        "clauses": [*many_clauses(files)],
        "edits": [*edits(files)],
        "limits": [f"{len(notes[kind])} of the kind '{kind}' are more than {limit}" for kind, limit in LIMITS.items() if len(notes[kind]) > limit],
    }
    for kind, found in notes.items():
        for note in found:
            print(f"{kind}: {note}")
    for kind, found in amiss.items():
        for fault in found:
            print(f"amiss, {kind}: {fault}", file=sys.stderr)
    print("noted: " + ", ".join(f"{kind} {len(found)}" + (f" of at most {LIMITS[kind]}" if kind in LIMITS else "") for kind, found in notes.items()))
    print("amiss: " + ", ".join(f"{kind} {len(found)}" for kind, found in amiss.items()))
    return 1 if any(amiss.values()) else 0


if __name__ == "__main__":
    sys.exit(main())
