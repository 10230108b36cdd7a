"""Holds examples/reader against the built program, and ends with 1 where one line is another.

- The examples: `entries` prints what the reader prints as a command, with and without the checksums of pages.
- FILES drawn files, of types of all kinds inside one another: by `write` of up to five inputs, staged or not, or by `seq` with fields
  that are added late; with clusters, pages and groups of any size, split or plain; or by `merge` of some files of the same fields. What the
  reader reads is what `entries` prints, and both are what was drawn: the chunks of the inputs in the order that `write` prints, with the zeros
  of the late fields, and the entries of merged files one file behind the other.
- Of each drawn file a byte of a page is changed: both refuse it.
"""
import collections
import json
import os
import random
import subprocess
import sys
import tempfile
import time

from runs import Amiss, bytes_of, call, dealt, order_of, save

TOP = os.path.dirname(os.path.dirname(os.path.dirname(os.path.abspath(__file__))))
sys.path.insert(0, f"{TOP}/examples/reader")
from outline import read_outline  # noqa: E402
from read_ntuple import Fault, entries  # noqa: E402

FILES = 200
BYTES = {"char": (0, 255), "byte": (0, 255)}
INTEGERS = {f"i{bits}": (-(1 << bits - 1), (1 << bits - 1) - 1) for bits in (8, 16, 32, 64)}
NATURALS = {f"u{bits}": (0, (1 << bits) - 1) for bits in (8, 16, 32, 64)}
RANGES = {**BYTES, **INTEGERS, **NATURALS}
LETTERS = "aZ09 _~\"\\/\b\f\n\r\t\0\x1f\x7f\u00e4\u20ac\u2028\U0001f600"

# A type: its text, what draws a value of it, and its zero; values are as JSON.
Type = collections.namedtuple("Type", "text value zero")


def number_of(name, draws):
    low, high = RANGES[name]
    return Type(name, lambda: str(draws.choice((low, high, 0, low // 2, draws.randint(low, high), draws.randint(low, high)))), "0")


def text_of(draws):
    def value():
        count = draws.choice((0, 1, 3, 8, 16, 40, 100)) if draws.randrange(40) else draws.randrange(3000)
        if draws.randrange(8):
            return json.dumps("".join(draws.choices(LETTERS, k=count)), ensure_ascii=False)
        count += 1
        return json.dumps({"hex": (draws.randbytes(count - 1) + b"\xff").hex()}, separators=(",", ":"))
    return Type("string", value, '""')


def leaf_of(draws):
    name = draws.choice(["bool", "string", "string", *RANGES])
    if name == "bool":
        return Type(name, lambda: draws.choice(("true", "false")), "false")
    return text_of(draws) if name == "string" else number_of(name, draws)


def joined(values):
    return "[" + ",".join(values) + "]"


def list_of(draws, inside):
    return Type(f"vec<{inside.text}>", lambda: joined(inside.value() for _ in range(draws.choice((0, 0, 1, 2, 3)))), "[]")


def parts_of(draws, inside, is_record):
    texts = [f"{name}:{part.text}" for name, part in zip("abcd", inside)] if is_record else [part.text for part in inside]
    text = "rec{" + ",".join(texts) + "}" if is_record else "tuple<" + ",".join(texts) + ">"
    return Type(text, lambda: joined(part.value() for part in inside), joined(part.zero for part in inside))


def choice_of(draws, inside):
    def value():
        tag = draws.randint(0, len(inside))
        return joined((str(tag), inside[tag - 1].value())) if tag else "null"
    return Type(f"var<{','.join(part.text for part in inside)}>", value, "null")


def optional_of(draws, inside):
    return Type(f"opt<{inside.text}>", lambda: inside.value() if draws.randrange(2) else "null", "null")


def type_of(draws, depth, records=True, nothing=True):
    """A type of at most so much depth, with records inside or without, and with values that are nothing or without."""
    kinds = ["leaf", "vec", "vec", "tuple"] + ["rec", "rec"] * records + ["var", "opt", "opt"] * nothing
    kind = draws.choice(kinds) if depth > 1 else "leaf"
    if kind == "leaf":
        return leaf_of(draws)
    if kind == "vec":
        return list_of(draws, type_of(draws, depth - 1, records))
    if kind == "opt":
        return optional_of(draws, type_of(draws, depth - 1, False, False))
    several = [type_of(draws, depth - 1, records and kind != "var") for _ in range(draws.randint(1, 4))]
    return choice_of(draws, several) if kind == "var" else parts_of(draws, several, kind == "rec")


def fields_of(draws, first, count):
    return [(f"f{first + k}", type_of(draws, draws.choice((1, 2, 3, 4, 6)))) for k in range(count)]


def lines_of(fields, count):
    return [joined(of.value() for _, of in fields) + "\n" for _ in range(count)]


def options_of(draws):
    """The options of a file, and how many entries its clusters have."""
    cluster = draws.choice((1, 2, 3, 5, 8, 100))
    words = ["--cluster", str(cluster), "--page", str(draws.choice((1, 2, 7, 64, 4096))), "--group", str(draws.choice((1, 2, 3, 1000)))]
    return words + ["--plain"] * draws.randrange(2), cluster


def written(program, draws):
    """Writes up to five inputs; the lines that are to be read."""
    fields, (options, cluster) = fields_of(draws, 0, draws.randint(1, 5)), options_of(draws)
    save("schema", "".join(f"{name} {of.text}\n" for name, of in fields))
    texts = [lines_of(fields, draws.choice((0, 1, 4, 9, 25))) for _ in range(draws.randint(1, 5))]
    for number, text in enumerate(texts):
        save(f"in-{number}", "".join(text))
    staged = ["--staged"] * draws.randrange(2)
    order = order_of(call(program, "write", *options, *staged, "out.root", "schema", *(f"in-{number}" for number in range(len(texts)))))
    return dealt(order, [[text[at:at + cluster] for at in range(0, len(text), cluster)] for text in texts])


def scripted(program, draws):
    """Writes a script of up to four segments; the lines that are to be read."""
    fields, (options, _) = fields_of(draws, 0, draws.randint(1, 3)), options_of(draws)
    save("schema", "".join(f"{name} {of.text}\n" for name, of in fields))
    script, segments = "", []
    for number in range(draws.randint(1, 4)):
        added = fields_of(draws, len(fields), draws.randrange(3)) if number else []
        fields += added
        lines = lines_of(fields, draws.choice((0, 1, 4, 9, 25)))
        script += "".join(f"+ {name} {of.text}\n" for name, of in added) + "".join(lines)
        segments.append((len(fields), lines))
    save("script", script)
    call(program, "seq", *options, "out.root", "schema", "script")
    return "".join(line[:-2] + "".join("," + of.zero for _, of in fields[known:]) + "]\n" for known, lines in segments for line in lines)


def merged(program, draws):
    """Writes up to four files of the same fields, and merges some of them in any order; the lines that are to be read."""
    fields, coding = fields_of(draws, 0, draws.randint(1, 4)), ["--plain"] * draws.randrange(2)
    save("schema", "".join(f"{name} {of.text}\n" for name, of in fields))
    texts = [lines_of(fields, draws.choice((0, 1, 4, 9, 25))) for _ in range(draws.randint(1, 4))]
    for number, text in enumerate(texts):
        save("in", "".join(text))
        options = [word for word in options_of(draws)[0] if word != "--plain"]
        call(program, "write", *options, *coding, *["--staged"] * (number % 2), f"part-{number}.root", "schema", "in")
    chosen = [draws.randrange(len(texts)) for _ in range(draws.randint(1, 6))]
    group = str(draws.choice((1, 2, 3, 1000)))
    told = call(program, "merge", "--group", group, "out.root", *(f"part-{number}.root" for number in chosen))
    if not told.endswith(f" entries {sum(len(texts[number]) for number in chosen)}\n"):
        raise Amiss(f"other entries than those of the files: {told}")
    return "".join(line for number in chosen for line in texts[number])


def is_refused(program, data):
    """Whether both refuse the file."""
    with open("bent.root", "wb") as file:
        file.write(data)
    done = subprocess.run([program, "entries", "bent.root"], capture_output=True)
    try:
        collections.deque(entries(data), maxlen=0)
    except Fault:
        return done.returncode == 3
    return False


def bend(program, draws, data):
    """Changes a byte of a page."""
    pages = [page for cluster in read_outline(data)[1] for column in cluster.pages for page in column]
    if pages:
        page, bent = draws.choice(pages), bytearray(data)
        bent[page.place + draws.randrange(page.size)] ^= 1 << draws.randrange(8)
        if not is_refused(program, bytes(bent)):
            raise Amiss(f"a changed page at {page.place} isn't refused by both")


def drawn_files(program):
    """The drawn files; how many bytes and lines they have."""
    sizes, count = 0, 0
    for seed in range(FILES):
        draws = random.Random(seed)
        lines = (written, merged, scripted)[seed % 3](program, draws)
        data = bytes_of("out.root")
        printed = call(program, "entries", "out.root")
        if printed != lines:
            raise Amiss(f"seed {seed}: the program doesn't print what was drawn")
        if "".join(entries(data)) != printed:
            raise Amiss(f"seed {seed}: the reader reads something else")
        bend(program, draws, data)
        sizes, count = sizes + len(data), count + lines.count("\n")
    return sizes, count


def examples(program):
    call(program, "write", "events.root", f"{TOP}/examples/schema.txt", f"{TOP}/examples/events.txt")
    call(program, "seq", "late.root", f"{TOP}/examples/schema.txt", f"{TOP}/examples/script.txt")
    call(program, "write", "two.root", f"{TOP}/examples/schema.txt", f"{TOP}/examples/events.txt", f"{TOP}/examples/events.txt")
    for name in ("events.root", "late.root", "two.root"):
        printed = call(program, "entries", name)
        for options in ([], ["--no-page-checksums"]):
            if call(sys.executable, "-B", f"{TOP}/examples/reader/read_ntuple.py", *options, name) != printed:
                raise Amiss(f"{name}: the reader prints something else")


def main():
    program, begun = os.path.abspath(sys.argv[1]), time.monotonic()
    with tempfile.TemporaryDirectory() as folder:
        os.chdir(folder)
        try:
            examples(program)
            sizes, count = drawn_files(program)
        except (Amiss, Fault) as fault:
            print(f"amiss: {fault}", file=sys.stderr)
            return 1
        finally:
            os.chdir("/")
    print(f"reader: the examples and {FILES} drawn files of {sizes} bytes and {count} entries, in {time.monotonic() - begun:.1f} seconds")
    return 0


if __name__ == "__main__":
    sys.exit(main())
