#!/usr/bin/env python3
"""Refuses memory in two ways, and looks at what the program makes of it.

    scripts/refused_memory.py [--btb PROGRAM] [--replicate PROGRAM] [--part allocations|spaces] [--spaces COUNT]

allocations: for each number N a run is done again, and the C library's N-th call for memory answers that there is none.
spaces: wide runs with many threads, and a demo, are done in a small address space, 300 sizes of it each, so that also a new thread's
stack can't be had, and no stack can grow. Each time the program answers either as it would have, or status 6, the note
for it, and a prefix of the text. Anything else is printed, and fails. It stands outside the gate: it takes half an hour.
"""
import argparse
import collections
import os
import pathlib
import resource
import subprocess
import sys
import tempfile

TOP = pathlib.Path(__file__).resolve().parent.parent
EXAMPLES = TOP / "examples"
SHOP = (TOP / "crates/btb/stdin").read_bytes()
NO_MEMORY = (6, b"out of memory\n")
LONGEST = 300  # seconds
LEAST_SPACE, MOST_SPACE = 4_000_000, 2_200_000_000  # bytes; with less the loader ends before the program begins


def cases():
    """A name, the words and the input of each run."""
    bank = (EXAMPLES / "bank.toml").read_text()
    cut = "\n".join(line for line in bank.splitlines() if not line.startswith("limit")).replace("format = 1", "format = 1\nlimit = 200", 1)
    yield "shop on two nodes", ["run", "--nodes", "2"], SHOP
    yield "totals of the shop", ["totals"], SHOP
    yield "bank, 200 events on four nodes", ["run", "--nodes", "4"], cut.encode()
    yield "reading of a network", ["one"], (EXAMPLES / "clinic.toml").read_bytes().replace(b"format", b"limit = 1\nformat", 1)
    yield "a demo", ["demo", "4"], b""


def replicate_cases():
    """The same of `replicate`."""
    hops = b"""
format = 1
model = "phold"
end = 8
[phold]
objects = 1
each = 1
to = "uniform"
delay = { law = "uniform", low = 1, high = 10 }
"""
    yield "replications of the shop", ["3", "--workers", "1"], SHOP
    yield "replications of the shop by four workers", ["9"], SHOP
    yield "replications of hops by 64 workers", ["70", "--workers", "64"], hops


def programs_cases(given):
    """The cases of both programs, each with the path of its program before it."""
    for program, its_cases in ((given.btb, cases()), (given.replicate, replicate_cases())):
        for case in its_cases:
            yield program, *case


class Preload:
    """The library that refuses, built into a folder of its own."""

    def __init__(self, folder):
        self.library = pathlib.Path(folder) / "refuse.so"
        self.count = pathlib.Path(folder) / "count"
        source = pathlib.Path(__file__).with_name("refuse.c")
        subprocess.run(["cc", "-O2", "-shared", "-fPIC", "-o", self.library, source], check=True)

    def run(self, program, words, data, number):
        """The status, the text and the notes of a run, and how many calls for memory it made."""
        self.count.write_bytes(bytes(8))
        given = dict(os.environ, LD_PRELOAD=str(self.library), REFUSE=str(number), REFUSE_COUNT=str(self.count))
        done = subprocess.run([program, *words], input=data, capture_output=True, env=given, timeout=LONGEST)
        calls = int.from_bytes(self.count.read_bytes(), sys.byteorder)
        return done.returncode, done.stdout, done.stderr, calls


def is_lawful(got, whole):
    status, text, notes, _ = got
    if (status, text, notes) == whole[:3]:
        return True
    return (status, notes) == NO_MEMORY and whole[1].startswith(text)


def refuse_each(preload, program, words, data):
    """How often each status came, and what was answered against the rule."""
    whole = preload.run(program, words, data, 0)
    statuses, wrong, number = collections.Counter(), [], 0
    while True:
        number += 1
        got = preload.run(program, words, data, number)
        # Threads may make a call more or less from run to run: the last number is the one that no run reaches.
        if number > max(got[3], whole[3]):
            return statuses, wrong
        statuses[got[0]] += 1
        if not is_lawful(got, whole):
            wrong.append((number, got))


def wide(objects, limit):
    """PHOLD with four events an object, all of one tick: cycles of all events, so that all threads get work."""
    return f"""
format = 1
model = "phold"
end = 70368744177663
limit = {limit}
[phold]
objects = {objects}
each = 4
to = "uniform"
delay = {{ law = "fixed", value = 1099511627776 }}
""".encode()


def wide_cases():
    yield "16 workers on 64 nodes", ["run", "--nodes", "64", "--workers", "16"], wide(65536, 600_000)
    yield "64 workers on 64 nodes", ["run", "--nodes", "64", "--workers", "64"], wide(65536, 300_000)
    yield "64 nodes", ["run", "--nodes", "64"], wide(65536, 300_000)
    yield "16 workers, fewer objects", ["run", "--nodes", "64", "--workers", "16"], wide(8192, 100_000)
    yield "a demo of 256 stations", ["demo", "256"], b""


def run_within(program, words, data, space):
    """The status, the text and the notes of a run within so many bytes of address space; 0: as many as it takes."""

    def confine():
        if space:
            resource.setrlimit(resource.RLIMIT_AS, (space, space))

    done = subprocess.run([program, *words], input=data, capture_output=True, preexec_fn=confine, timeout=LONGEST)
    return done.returncode, done.stdout, done.stderr, 0


def refuse_spaces(program, words, data, count):
    """As refuse_each, of runs in this many sizes of the address space, each larger by the same factor."""
    whole = run_within(program, words, data, 0)
    statuses, wrong = collections.Counter(), []
    for number in range(count):
        space = int(LEAST_SPACE * (MOST_SPACE / LEAST_SPACE) ** (number / max(count - 1, 1)))
        got = run_within(program, words, data, space)
        statuses[got[0]] += 1
        if not is_lawful(got, whole):
            wrong.append((space, got))
    return statuses, wrong


def tell(name, what, statuses, wrong):
    """Prints how the runs of a case ended, and the first that ended against the rule."""
    told = ", ".join(f"status {status}: {count}" for status, count in sorted(statuses.items()))
    print(f"{name}: {sum(statuses.values())} {what}; {told}", flush=True)
    for number, got in wrong[:5]:
        print(f"  number {number}: status {got[0]}, text {got[1][-60:]!r}, notes {got[2]!r}")


def main():
    parser = argparse.ArgumentParser(description=__doc__.splitlines()[0])
    parser.add_argument("--btb", default=str(TOP / "crates/btb/out/btb"), help="the built program")
    parser.add_argument("--replicate", default=str(TOP / "crates/replicate/out/replicate"), help="the built program `replicate`")
    parser.add_argument("--part", choices=["allocations", "spaces"], help="one of the two parts alone")
    parser.add_argument("--spaces", type=int, default=300, help="how many sizes of the address space")
    given = parser.parse_args()
    failed = False
    if given.part != "spaces":
        with tempfile.TemporaryDirectory() as folder:
            preload = Preload(folder)
            for program, name, words, data in programs_cases(given):
                statuses, wrong = refuse_each(preload, program, words, data)
                tell(name, "allocations refused", statuses, wrong)
                failed |= bool(wrong)
    if given.part != "allocations":
        for name, words, data in wide_cases():
            statuses, wrong = refuse_spaces(given.btb, words, data, given.spaces)
            tell(name, "sizes of the address space", statuses, wrong)
            failed |= bool(wrong)
    sys.exit(failed)


if __name__ == "__main__":
    main()
