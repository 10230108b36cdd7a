"""Refuses each request for memory of some small runs in turn. Each run must end with the status that it has with ample memory, or with 7
and the line of want of memory, and must leave no file that looks finished and lacks entries; else this ends with 1."""
import os
import subprocess
import sys
import tempfile

TEXTS = {
    "one": "x u64\n", "one-in": "[1]\n[18446744073709551615]\n",
    "two-in": "[11]\n[12]\n",
    "choice": "v var<u8,string>\n", "choice-in": '[null]\n[[2,"a"]]\n[[1,7]]\n[[2,"b"]]\n',
    "start": "x u32\n", "script": '[1]\n[2]\n+ y u16\n+ t string\n+ v vec<u8>\n[3,4,"a",[5]]\n',
    "maybe": "o opt<u16>\n", "maybe-in": "[null]\n[7]\n[null]\n",
}
RUNS = [
    ["write", "OUT", "one", "one-in"],
    ["write", "--cluster", "1", "OUT", "one", "one-in", "two-in"],
    ["write", "--staged", "--cluster", "1", "--group", "1", "OUT", "one", "one-in", "two-in"],
    ["write", "OUT", "choice", "choice-in"],
    ["write", "OUT", "maybe", "maybe-in"],
    ["seq", "OUT", "start", "script"],
    ["entries", "numbers.root"],
    ["merge", "OUT", "numbers.root", "numbers.root"],
    ["schema", "numbers.root"],
    ["entries", "script.root"],
]


class Amiss(Exception):
    """What is amiss."""


def run(program, words, refuse=0):
    """Status, out, err, and how many requests there were."""
    environ = dict(os.environ, LD_PRELOAD=sys.argv[2], REFUSE=str(refuse), REQUESTS="requests")
    done = subprocess.run([program, *words], capture_output=True, env=environ, timeout=60)
    with open("requests", "rb") as file:
        return done.returncode, done.stdout, done.stderr, int.from_bytes(file.read(), "little")


def looks_finished(name):
    with open(name, "rb") as file:
        return file.read(1) not in (b"", b"\0")


def check(program, words, refuse, wanted):
    """One run with one request refused; whether there were so many."""
    status, out, err, requests = run(program, words, refuse)
    where = f"{' '.join(words)}, request {refuse}"
    if status not in (wanted[0], 7):
        raise Amiss(f"{where}: status {status}, err {err!r}")
    if status == 7 and (err not in (b"ntuple: memory\n", b"") or not wanted[1].startswith(out)):
        if words[0] != "write" or not out.startswith(b"order"):
            raise Amiss(f"{where}: out {out!r}, err {err!r}")
    if status == wanted[0] and len(out) != len(wanted[1]):
        raise Amiss(f"{where}: out {out!r} in place of {wanted[1]!r}")
    if words[0] in ("write", "seq", "merge") and os.path.exists("OUT") and looks_finished("OUT"):
        read = subprocess.run([program, "entries", "OUT"], capture_output=True)
        if read.returncode != 0 or sorted(read.stdout.split(b"\n")) != wanted[2]:
            raise Amiss(f"{where}: a file that looks finished lacks entries: {read.stdout!r}")
    if os.path.exists("OUT"):
        os.remove("OUT")
    return refuse <= requests


def refuse_each(program, words):
    """How many requests a run makes, each of which was refused once."""
    status, out, _, _ = run(program, words)
    entries = []
    if os.path.exists("OUT"):
        entries = sorted(subprocess.run([program, "entries", "OUT"], capture_output=True).stdout.split(b"\n"))
        os.remove("OUT")
    number = 1
    while check(program, words, number, (status, out, entries)):
        number += 1
    return number - 1


def main():
    program = os.path.abspath(sys.argv[1])
    sys.argv[2] = os.path.abspath(sys.argv[2])
    with tempfile.TemporaryDirectory() as folder:
        os.chdir(folder)
        for name, text in TEXTS.items():
            with open(name, "w", encoding="utf-8") as file:
                file.write(text)
        subprocess.run([program, "write", "numbers.root", "one", "one-in"], check=True, stdout=subprocess.DEVNULL)
        subprocess.run([program, "seq", "script.root", "start", "script"], check=True, stdout=subprocess.DEVNULL)
        try:
            for words in RUNS:
                print(f"{refuse_each(program, words)} requests, each refused once: {' '.join(words)}")
        except Amiss as fault:
            print(f"amiss: {fault}", file=sys.stderr)
            return 1
        finally:
            os.chdir("/")
    return 0


if __name__ == "__main__":
    sys.exit(main())
