"""Kills `write` of eight inputs, also with `--staged`, and `merge` of their eight files at many moments, by SIGKILL, and ends with 1 where
what it leaves is neither unfinished nor whole.

Every second time OUT is a finished file of an earlier run. What is left must be that file as it was, no file where there was none, a
file that `entries` refuses as unfinished, or the whole file: its lines are the chunks of the inputs, each input's in their order, and
together with `--staged`.
A kill leaves to the system all that was written, so it shows nothing of what the disk keeps when power fails.
"""
import collections
import os
import random
import signal
import subprocess
import sys
import tempfile
import time

from runs import Amiss, LONG_SCHEMA, bytes_of, call, drawn_lines, is_grouped, order_among, save

KILLS = {"write": 80, "write --staged": 30, "merge": 40}
UNFINISHED = "ntuple: file: 1 Unfinished at 0\n"
OUT = "killed.root"


def make_inputs(program):
    """Eight inputs, and the file of each; their lines, in chunks of 10000."""
    texts = [drawn_lines(1 + context) for context in range(8)]
    save("schema", LONG_SCHEMA)
    for context, text in enumerate(texts):
        save(f"in-{context}", "".join(text))
        call(program, "write", f"part-{context}.root", "schema", f"in-{context}")
    return [[text[at:at + 10000] for at in range(0, len(text), 10000)] for text in texts]


def words_of(program, command):
    if command == "merge":
        return [program, "merge", OUT, *[f"part-{context}.root" for context in range(8)]]
    return [program, *command.split(), OUT, "schema", *[f"in-{context}" for context in range(8)]]


def put_before(before):
    """OUT as it is before a run: these bytes, or no file."""
    if before is not None:
        with open(OUT, "wb") as file:
            file.write(before)
    elif os.path.exists(OUT):
        os.remove(OUT)


def kill_at(words, wait):
    """Starts a run and kills it after so many seconds; whether it was still at work."""
    run = subprocess.Popen(words, stdout=subprocess.DEVNULL, stderr=subprocess.DEVNULL)
    time.sleep(wait)
    run.send_signal(signal.SIGKILL)
    return run.wait() == -signal.SIGKILL


def stage_of(program, command, before, chunks):
    """What a killed run left, by name."""
    if not os.path.exists(OUT):
        return "not created"
    left = bytes_of(OUT)
    if before is not None and left == before:
        return "not created, or whole again"
    read = subprocess.run([program, "entries", OUT], capture_output=True, text=True)
    if not left or left[0] == 0:
        if (read.returncode, read.stdout, read.stderr) != (3, "", UNFINISHED):
            raise Amiss(f"an unfinished file of {len(left)} bytes: status {read.returncode}, err {read.stderr!r}")
        return "empty" if not left else "begun"
    if read.returncode != 0 or read.stderr:
        raise Amiss(f"a file that looks finished: status {read.returncode}, err {read.stderr!r}")
    order = order_among(read.stdout.splitlines(keepends=True), chunks)
    if "--staged" in command and not is_grouped(order):
        raise Amiss(f"the chunks of an input don't stand together: {order}")
    return "whole"


def kill_runs(program, command, chunks):
    words, took = words_of(program, command), []
    for _ in range(3):
        put_before(None)
        begun = time.monotonic()
        call(*words)
        took.append(time.monotonic() - begun)
    whole, draws, stages = bytes_of(OUT), random.Random(1), collections.Counter()
    for number in range(KILLS[command]):
        before = whole if number % 2 else None
        put_before(before)
        was_at_work = kill_at(words, sorted(took)[1] * (number + draws.random()) * 1.1 / KILLS[command])
        stage = stage_of(program, command, before, chunks)
        if not was_at_work and stage not in ("whole", "not created, or whole again"):
            raise Amiss(f"a run that ended by itself left a file that is {stage}")
        stages[stage if was_at_work else "ended before the kill"] += 1
    return stages


def main():
    program = os.path.abspath(sys.argv[1])
    with tempfile.TemporaryDirectory() as folder:
        os.chdir(folder)
        try:
            chunks = make_inputs(program)
            stages = {command: kill_runs(program, command, chunks) for command in KILLS}
        except Amiss as fault:
            print(f"amiss: {fault}", file=sys.stderr)
            return 1
        finally:
            os.chdir("/")
    for command, seen in stages.items():
        print(f"kills of {command}: " + ", ".join(f"{count} {stage}" for stage, count in sorted(seen.items())))
    return 0


if __name__ == "__main__":
    sys.exit(main())
