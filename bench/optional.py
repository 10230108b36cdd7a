"""Writes and prints wide events with `opt<u32>` in place of `u32`, and with `u32`, in turn, in memory, and prints the time of the first
divided by that of the second.

Events have four numbers, a list of 10 to 30 and a text. The same text is written by both schemas; in the second pair of rows one number
in ten is null, compared with the same numbers without nulls. Each figure is the middle one of the rounds; the first isn't counted."""
import os
import random
import statistics
import subprocess
import sys
import tempfile
import time

EVENTS, ROUNDS = 100000, 9
PLAIN = "a u32\nb u32\nc u32\nd u32\nids vec<u32>\nname string\n"
FIELDS = PLAIN.replace("a u32\nb u32\nc u32\nd u32", "a opt<u32>\nb opt<u32>\nc opt<u32>\nd opt<u32>")
ITEMS = PLAIN.replace("vec<u32>", "vec<opt<u32>>")


def lines(nulls, items):
    draw = random.Random(1)

    def number(may_lack):
        text = str(draw.randrange(1 << draw.randrange(1, 33)))
        return "null" if draw.randrange(10) == 0 and nulls and may_lack else text

    for _ in range(EVENTS):
        numbers = ",".join(number(not items) for _ in range(4))
        ids = ",".join(number(items) for _ in range(draw.randrange(10, 31)))
        yield f'[{numbers},[{ids}],"event {draw.randrange(10 ** 12)}"]\n'


def save(name, text):
    with open(name, "w", encoding="utf-8") as file:
        file.writelines(text)


def seconds(words):
    begun = time.perf_counter()
    subprocess.run(words, check=True, stdout=subprocess.DEVNULL)
    return time.perf_counter() - begun


def compare(case, one, other):
    """The middle time of one by that of the other, in turn."""
    times = {0: [], 1: []}
    for turn in range(ROUNDS + 1):
        for which in (0, 1) if turn % 2 else (1, 0):
            took = seconds((one, other)[which])
            if turn:
                times[which].append(took)
    print(f"{case:<34}{statistics.median(times[0]) / statistics.median(times[1]):>6.2f}", flush=True)


def main():
    program = os.path.abspath(sys.argv[1])
    with tempfile.TemporaryDirectory(dir="/dev/shm") as folder:
        os.chdir(folder)
        save("plain", PLAIN)
        save("fields", FIELDS)
        save("items", ITEMS)
        save("all", lines(False, False))
        for schema, items in (("fields", False), ("items", True)):
            save("some", lines(True, items))
            for text in ("all", "some"):
                write = [program, "write", "o", schema, text]
                compare(f"write, optional {schema}, {text}", write, [program, "write", "p", "plain", "all"])
                compare(f"entries, optional {schema}, {text}", [program, "entries", "o"], [program, "entries", "p"])
        os.chdir("/")


if __name__ == "__main__":
    main()
