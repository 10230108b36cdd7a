"""Writes the same small events as 64 inputs of 20,000 by `--contexts K`, and as K inputs with as many events in all, in turn, in memory,
and prints the time of the first divided by that of the second, for K of 1, 2 and 4; and of 64 inputs the time by 64 workers divided by that
by 4 workers.

An event has a number, up to three ids and a short text. What was written is compared first: the entries of both files, sorted. Each
figure is the middle one of the rounds; the first isn't counted."""
import os
import random
import statistics
import subprocess
import sys
import tempfile
import time

INPUTS, EVENTS, ROUNDS = 64, 20000, 9
SCHEMA = "run u32\nids vec<u32>\ntag string\n"


def lines(number):
    draw = random.Random(number)
    for _ in range(EVENTS):
        ids = ",".join(str(draw.randrange(1000000)) for _ in range(draw.randrange(4)))
        yield f'[{draw.randrange(1000)},[{ids}],"t{draw.randrange(10)}"]\n'


def save(name, text):
    with open(name, "w", encoding="utf-8") as file:
        file.writelines(text)


def seconds(words):
    begun = time.perf_counter()
    subprocess.run(words, check=True, stdout=subprocess.DEVNULL)
    return time.perf_counter() - begun


def entries(program, file):
    done = subprocess.run([program, "entries", file], check=True, capture_output=True)
    return sorted(done.stdout.split(b"\n"))


def compare(case, one, other):
    """The middle time of one by that of the other, in turn."""
    times = {0: [], 1: []}
    for turn in range(ROUNDS + 1):
        for which in (0, 1) if turn % 2 else (1, 0):
            took = seconds((one, other)[which])
            if turn:
                times[which].append(took)
    print(f"{case:<40}{statistics.median(times[0]) / statistics.median(times[1]):>6.2f}", flush=True)


def main():
    program = os.path.abspath(sys.argv[1])
    with tempfile.TemporaryDirectory(dir="/dev/shm") as folder:
        os.chdir(folder)
        save("schema", SCHEMA)
        short = [f"short{number}" for number in range(INPUTS)]
        for number, name in enumerate(short):
            save(name, lines(number))
        for workers in (1, 2, 4):
            long = [f"long{workers}_{number}" for number in range(workers)]
            each = INPUTS // workers
            for number, name in enumerate(long):
                save(name, (line for part in range(each) for line in lines(number * each + part)))
            many = [program, "write", "--contexts", str(workers), "o", "schema", *short]
            few = [program, "write", "p", "schema", *long]
            seconds(many)
            seconds(few)
            if entries(program, "o") != entries(program, "p"):
                sys.exit(f"other entries by {workers} workers")
            compare(f"{INPUTS} inputs by {workers} workers, by {workers} inputs", many, few)
            for name in long:
                os.remove(name)
        by = lambda workers: [program, "write", "--contexts", str(workers), "o", "schema", *short]
        compare(f"{INPUTS} inputs by {INPUTS} workers, by 4 workers", by(INPUTS), by(4))
        os.chdir("/")


if __name__ == "__main__":
    main()
