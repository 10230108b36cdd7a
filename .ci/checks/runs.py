"""Runs the built program over real files, and ends with 1 where something is amiss.

- RUNS times eight small inputs are written, in clusters, pages and groups of other sizes each time, and printed again. The order line deals
  out the chunks of each input, whole, once and in their order, and the lines that are printed are just these chunks.
- So are 1, 2, 8 and 64 inputs with `--staged`, STAGED times in all; in the order line the chunks of each input stand together.
- An input of 100000 events is written with the defaults, listed, and printed again; what is printed is written again as the same file.
- An input of 100000 events with optional values, one in three of them null, is written and printed again, and so is what is printed.
- So are lines from some bytes to 280 kB, of which a long list, a list of optional numbers, a long text, one with escapes and many records
  are now longer and now shorter than the room that is left for lines.
- Eight inputs of 100000 drawn events each are written with the defaults: ten clusters of each, dealt out in the order that is told.
- Sixty-four small files are merged at once, and by eights in two rounds: the same file, with the entries of all in their order.
- The generator makes these eight inputs' events ten times, with the same lines each time; its file has just their chunks, each context's
  in their order. Of one context its file is that which `write` makes of the text.
"""
import json
import os
import subprocess
import sys
import tempfile
import time

RUNS = 200
STAGED = {1: 3, 2: 15, 8: 40, 64: 6}
SCHEMA = "context u8\nnumber i32\nnames vec<string>\nhit var<u8,vec<u16>>\n"
LENGTHS = [40, 1, 17, 0, 23, 6, 31, 12]
LONG_SCHEMA = "run u32\nids vec<u32>\ntag string\n"
LONG_FIELDS = '[0,0,"run","std::uint32_t",0,[20],true]\n[1,1,"ids","std::vector<std::uint32_t>",1,[27],true]\n' \
    '[2,2,"tag","std::string",0,[27,2],true]\n[3,1,"_0","std::uint32_t",0,[20],true]\n'


class Amiss(Exception):
    """What is amiss."""


def call(program, *words):
    """What a command that is done prints."""
    done = subprocess.run([program, *words], capture_output=True)
    if done.returncode != 0 or done.stderr:
        raise Amiss(f"status {done.returncode}, err {done.stderr!r}: {' '.join(words)}")
    return done.stdout.decode()


def save(name, text):
    with open(name, "w", encoding="utf-8") as file:
        file.write(text)


def bytes_of(name):
    with open(name, "rb") as file:
        return file.read()


def small_lines(context, count):
    hits = ["null", "[1,7]", "[2,[]]", f"[2,[{context},65535]]"]
    names = ['""', '"a"', '"\u00e4\\n"']
    return [f"[{context},{k - 5},[{','.join(names[:k % 4])}],{hits[k % 4]}]\n" for k in range(count)]


def dealt(order, chunks):
    """The lines of the chunks, one by one in the order; each context's in their order."""
    left = [list(of) for of in chunks]
    lines = []
    for context in order:
        if context >= len(left) or not left[context]:
            raise Amiss(f"the order has too many chunks of context {context}: {order}")
        lines += left[context].pop(0)
    if any(left):
        raise Amiss(f"the order lacks chunks: {order}")
    return "".join(lines)


def order_of(printed):
    words = printed.split(" ")
    if not printed.endswith("\n") or words[0].strip() != "order":
        raise Amiss(f"no order line: {printed!r}")
    return [int(word) for word in words[1:]]


def is_grouped(order):
    """Whether the chunks of each context stand together."""
    return sum(k == 0 or order[k - 1] != context for k, context in enumerate(order)) == len(set(order))


def small_run(program, run, texts, staged=()):
    """Writes the inputs in one way and prints them again; the order."""
    cluster = 1 + run % 7
    options = ["--cluster", str(cluster), "--page", str(1 + run % 5), "--group", str(1 + run % 3), *staged] + ["--plain"] * (run % 4 == 3)
    inputs = [f"small-{context}" for context in range(len(texts))]
    order = order_of(call(program, "write", *options, "small.root", "small.schema", *inputs))
    chunks = [[text[at:at + cluster] for at in range(0, len(text), cluster)] for text in texts]
    if call(program, "entries", "small.root") != dealt(order, chunks):
        raise Amiss(f"run {run}: the entries aren't the chunks in the order {order}")
    if staged and not is_grouped(order):
        raise Amiss(f"run {run}: the chunks of an input don't stand together: {order}")
    return order


def small_runs(program):
    texts = [small_lines(context, count) for context, count in enumerate(LENGTHS)]
    save("small.schema", SCHEMA)
    for context, text in enumerate(texts):
        save(f"small-{context}", "".join(text))
    orders = {(run % 7, tuple(small_run(program, run, texts))) for run in range(RUNS)}
    return len(orders)


def staged_runs(program):
    """Writes inputs whose clusters are staged; how many orders they published in."""
    texts = [small_lines(context, LENGTHS[context % 8]) for context in range(max(STAGED))]
    save("small.schema", SCHEMA)
    for context, text in enumerate(texts):
        save(f"small-{context}", "".join(text))
    orders = {tuple(dict.fromkeys(small_run(program, run, texts[:count], ["--staged"])))
              for count, runs in STAGED.items() for run in range(runs)}
    return len(orders)


def long_run(program):
    lines = [f'[{k % 1000},[{",".join(str(k * j % 1000000) for j in range(k % 4))}],"t{k % 10}"]\n' for k in range(100000)]
    save("long.schema", LONG_SCHEMA)
    save("long", "".join(lines))
    for text, out in (("long", "first.root"), ("again", "second.root")):
        if call(program, "write", out, "long.schema", text) != "order" + " 0" * 10 + "\n":
            raise Amiss(f"{out}: another order line than that of ten clusters")
        if call(program, "schema", out) != LONG_FIELDS:
            raise Amiss(f"{out}: other fields")
        save("again", call(program, "entries", out))
        if bytes_of("again") != bytes_of("long"):
            raise Amiss(f"{out}: the entries aren't the events")
    if bytes_of("first.root") != bytes_of("second.root"):
        raise Amiss("the entries, written again, are another file")


def optional_run(program):
    def number(k, most):
        return "null" if k % 3 == 0 else str(k * 48271 % most)

    lines = []
    for k in range(100000):
        text = "null" if k % 5 == 0 else f'"t{k % 10}"'
        lines.append(f'[{number(k, 1 << 32)},{text},[{",".join(number(k + j, 1 << 16) for j in range(k % 7))}]]\n')
    save("optional.schema", "n opt<u32>\ntag opt<string>\nids vec<opt<u16>>\n")
    save("optional", "".join(lines))
    for text, out in (("optional", "first.root"), ("again", "second.root")):
        call(program, "write", out, "optional.schema", text)
        save("again", call(program, "entries", out))
        if bytes_of("again") != bytes_of("optional"):
            raise Amiss(f"{out}: the entries aren't the events with optional values")
    if bytes_of("first.root") != bytes_of("second.root"):
        raise Amiss("the entries with optional values, written again, are another file")


def unlike_run(program):
    """Lines of many lengths, in which each kind of value is the one that doesn't fit behind those before it."""
    lengths = [0, 1, 7, 40, 300, 1500, 2044, 2046, 2048, 5000, 13000, 40000]
    lines = []
    for k in range(600):
        one, two, three, four, five = (lengths[(k * step + k // 12) % 12] for step in (1, 5, 7, 11, 1 + k % 4))
        numbers = ",".join(str((k + j) * 48271 % 4294967296) for j in range(one // 4))
        optional = ",".join("null" if (k + j) % 9 == 0 else str((k - j) * 48271) for j in range(two // 6))
        escaped = "ab\\n\u00e9" * (four // 7)
        records = ",".join(f'[{j % 256},"r{j}"]' for j in range(five // 12))
        lines.append(f'[{k},[{numbers}],[{optional}],"{"abcdefghij" * (three // 10)}","{escaped}",[{records}],{k % 2 * 18446744073709551615}]\n')
    save("unlike.schema", "n u16\nids vec<u32>\nmaybe vec<opt<i64>>\ntext string\nescaped string\n"
         "parts vec<rec{a:u8,b:string}>\nlast u64\n")
    save("unlike", "".join(lines))
    for words in ([], ["--cluster", "7", "--page", "64", "--plain"]):
        call(program, "write", *words, "unlike.root", "unlike.schema", "unlike")
        save("again", call(program, "entries", "unlike.root"))
        if bytes_of("again") != bytes_of("unlike"):
            raise Amiss(f"the entries aren't the events of unlike lengths, with {words}")


def drawn_lines(number):
    """100000 events, by draws that multiply the number before by 48271, modulo 2^31 - 1."""
    lines = []
    for _ in range(100000):
        number = number * 48271 % 2147483647
        run, drawn = number % 1000, []
        number = number * 48271 % 2147483647
        for _ in range(number % 4):
            number = number * 48271 % 2147483647
            drawn.append(str(number % 1000000))
        number = number * 48271 % 2147483647
        lines.append(f'[{run},[{",".join(drawn)}],"t{number % 10}"]\n')
    return lines


def eight_long(program):
    texts = [drawn_lines(1 + context) for context in range(8)]
    for context, text in enumerate(texts):
        save(f"drawn-{context}", "".join(text))
    inputs = [f"drawn-{context}" for context in range(8)]
    order = order_of(call(program, "write", "drawn.root", "long.schema", *inputs))
    if sorted(order) != [context for context in range(8) for _ in range(10)]:
        raise Amiss(f"not ten clusters of each: {order}")
    chunks = [[text[at:at + 10000] for at in range(0, len(text), 10000)] for text in texts]
    if call(program, "entries", "drawn.root") != dealt(order, chunks):
        raise Amiss(f"the entries aren't the chunks in the order {order}")


def merged_files(program):
    """Merges 64 files at once, and by eights in two rounds."""
    texts = ["".join(small_lines(context, 1 + context % 5)) for context in range(64)]
    save("small.schema", SCHEMA)
    names = [f"part-{context}.root" for context in range(64)]
    for name, text in zip(names, texts):
        save("part", text)
        call(program, "write", "--cluster", "2", "--group", str(1 + len(text) % 3), name, "small.schema", "part")
    told = call(program, "merge", "--group", "7", "all.root", *names)
    rounds = [f"round-{k}.root" for k in range(8)]
    for k, name in enumerate(rounds):
        call(program, "merge", name, *names[8 * k:8 * k + 8])
    if call(program, "merge", "--group", "7", "again.root", *rounds) != told or bytes_of("all.root") != bytes_of("again.root"):
        raise Amiss("merged in two rounds it is another file than merged at once")
    if call(program, "entries", "all.root") != "".join(texts):
        raise Amiss("the merged file hasn't the entries of its sources")


def totals_of(texts):
    """The generator's lines: the clusters and entries of each context, and the sum of its runs and ids."""
    lines = []
    for context, text in enumerate(texts):
        events = [json.loads(line) for line in text]
        total = sum(run + sum(ids) for run, ids, _ in events)
        lines.append(f"context {context} clusters {-(-len(text) // 10000)} entries {len(text)} sum {total}\n")
    return "".join(lines)


def order_among(lines, chunks):
    """The order in which chunks stand one behind the other as these lines, each context's in their order."""
    left = [list(of) for of in chunks]
    order = []
    while lines:
        context = next((i for i, of in enumerate(left) if of and lines[:len(of[0])] == of[0]), None)
        if context is None:
            raise Amiss(f"no context's next chunk stands behind {order}")
        lines = lines[len(left[context].pop(0)):]
        order.append(context)
    if any(left):
        raise Amiss(f"chunks are missing: {order}")
    return order


def generated(program):
    """Makes the same eight inputs by the generator, ten times; how many orders they came in."""
    texts = [drawn_lines(1 + context) for context in range(8)]
    chunks = [[text[at:at + 10000] for at in range(0, len(text), 10000)] for text in texts]
    totals = totals_of(texts)
    orders = set()
    for _ in range(10):
        if call(program, "gen", "8", "100000", "1", "made.root") != totals:
            raise Amiss("the generator's lines are others")
        orders.add(tuple(order_among(call(program, "entries", "made.root").splitlines(keepends=True), chunks)))
    if call(program, "gen", "1", "100000", "3", "one.root") != totals_of(texts[2:3]):
        raise Amiss("the generator's line of one context is another")
    save("drawn-2", "".join(texts[2]))
    call(program, "write", "other.root", "long.schema", "drawn-2")
    if bytes_of("one.root") != bytes_of("other.root"):
        raise Amiss("the generator's file of one context isn't that of its text")
    return len(orders)


def main():
    program = os.path.abspath(sys.argv[1])
    begun = time.monotonic()
    with tempfile.TemporaryDirectory() as folder:
        os.chdir(folder)
        try:
            orders = small_runs(program)
            staged = staged_runs(program)
            long_run(program)
            optional_run(program)
            unlike_run(program)
            eight_long(program)
            merged_files(program)
            made = generated(program)
        except Amiss as fault:
            print(f"amiss: {fault}", file=sys.stderr)
            return 1
        finally:
            os.chdir("/")
    print(f"runs: {RUNS} of eight inputs in {orders} orders, {sum(STAGED.values())} staged in {staged} orders, a long one, one of optional values, one of unlike lines, eight long ones, 64 that are merged, and what the generator makes in {made} orders, in {time.monotonic() - begun:.1f} seconds")
    return 0


if __name__ == "__main__":
    sys.exit(main())
