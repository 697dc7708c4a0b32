#!/usr/bin/env python3
"""Sends hostile input at the built program, and looks at what it makes of it.

    scripts/hostile_input.py [--btb PROGRAM] [--count K] [--seed S]

Random bytes, spoiled and cut models, TOML at its limits, models at theirs, and streams that fail. Of each run: the status
is one that may come, nothing but the one line of the status is noted, a refused model prints nothing, and it takes at most
2 seconds of processor time and 300 MB. It stands outside the gate: it takes some minutes.
"""
import argparse
import collections
import os
import pathlib
import random
import resource
import subprocess
import sys
import tempfile

TOP = pathlib.Path(__file__).resolve().parent.parent
EXAMPLES = sorted((TOP / "examples").glob("*.toml"))
MEBIBYTE = 1_048_576
MOST_SECONDS = 2.0
MOST_KILOBYTES = 300_000
LONGEST = 60  # seconds of wall time, on a machine that does other things
RUN, REFUSED = {0, 1, 7}, {3}
HEAD = 'format = 1\nmodel = "network"\nend = 70368744177663\n'


class Run:
    """One run of the program: its status, what it wrote, and what it took."""

    def __init__(self, program, words, data, **streams):
        with tempfile.TemporaryFile() as given, tempfile.TemporaryFile() as text, tempfile.TemporaryFile() as notes:
            given.write(data)
            given.seek(0)
            opened = dict({"stdin": given, "stdout": text, "stderr": notes}, **streams)
            child = subprocess.Popen([program, *words], **opened)
            _, status, used = os.wait4(child.pid, 0)
            self.status = os.waitstatus_to_exitcode(status)
            self.seconds = used.ru_utime + used.ru_stime
            self.kilobytes = used.ru_maxrss
            text.seek(0)
            notes.seek(0)
            self.size = text.seek(0, os.SEEK_END)
            self.notes = notes.read()


# ---- texts

def spoiled(r, data):
    """A model with a few bytes changed, left out, doubled or cut off."""
    data = bytearray(data)
    for _ in range(r.choice([1, 1, 2, 5])):
        at = r.randrange(len(data) or 1)
        way = r.randrange(5)
        if way == 0:
            data[at:at + 1] = bytes([r.randrange(256)])
        elif way == 1:
            del data[at:at + r.randint(1, 30)]
        elif way == 2:
            data[at:at] = data[at:at + r.randint(1, 60)]
        elif way == 3:
            data[at:at] = r.choice([b"[", b"{", b'"', b"'''", b"\\u", b"=", b"\n", b"-", b"9" * 30, b"\xff", b"\r"])
        else:
            del data[at:]
    return bytes(data)


def random_texts(r, count):
    """Bytes of nothing, and models that are almost right. None of them asks for many events."""
    models = [path.read_bytes().replace(b"\nend", b"\nlimit = 2000\nend", 1) for path in EXAMPLES]
    for _ in range(count):
        if r.random() < 0.2:
            yield "random bytes", r.randbytes(r.randint(0, 400))
        else:
            yield "a spoiled model", spoiled(r, r.choice(models))


def long_texts():
    """One mebibyte of one thing each."""
    def filled(head, piece):
        return (head + piece * (MEBIBYTE // len(piece)))[:MEBIBYTE]

    yield "brackets", filled(b"", b"[")
    yield "closed brackets", filled(b"a = ", b"[]")
    yield "nested arrays", b"a = " + b"[" * 500_000 + b"]" * 500_000
    yield "nested tables", b"a = " + b"{a=" * 300_000
    yield "empty objects", filled(HEAD.encode(), b"[[object]]\n")
    yield "one long name", filled(HEAD.encode() + b'[[object]]\nname = "', b"n")
    yield "one long key", filled(b"", b"k")
    yield "a dotted key", filled(b"", b"k.")
    yield "escapes", filled(b'a = "', b"\\u0041")
    yield "half an escape", filled(b'a = "', b"\\U0010FFF")
    yield "a long number", filled(b"end = ", b"9")
    yield "comments", filled(b"", b"#\n")
    yield "carriage returns", filled(b"", b"\r")
    yield "zeros", bytes(MEBIBYTE)
    yield "many keys", b"".join(b"k%d=1\n" % i for i in range(90_000))[:MEBIBYTE]
    yield "one byte too many", filled(b"", b"\n") + b"\n"


# ---- models at their limits, cut after 10,000 events where they have many

def network(*lines, limit=10_000):
    return (f"limit = {limit}\n{HEAD}" + "\n".join(lines) + "\n").encode()


def object_of(name, kind, *fields):
    return f'[[object]]\nname="{name}"\nkind="{kind}"\n' + "\n".join(fields)


def fixed(ticks):
    return f'{{law="fixed",value={ticks}}}'


def hostile_models():
    sink = object_of("z", "sink")
    yield "PHOLD of 65,536 objects without delay", (
        b'format=1\nmodel="phold"\nend=5\nlimit=10000\n[phold]\nobjects=65536\nto="next"\neach=1\ndelay={law="fixed",value=0}\n')
    # (as many routers as a mebibyte has room for)
    ring = [f'[[object]]\nname="{i}"\nkind="router"\nnext=["{(i + 1) % 19_000}"]' for i in range(19_000)]
    yield "a ring of routers without delay", network(*ring, '[[job]]\ntime=0\nat="0"', limit=30_000)
    source = object_of("s", "source", "first=0", "every=" + fixed(0), "count=1000000", 'next="z"')
    yield "a source of 1,000,000 jobs in one tick", network(source, sink, limit=30_000)
    yield "a source of 1,000,000 jobs", network(source.replace("value=0", "value=1"), sink, limit=30_000)
    ways = ",".join(['"z"'] * 64)
    weights = ",".join(["65535"] * 64)
    router = object_of("r", "router", f"next=[{ways}]", f"weights=[{weights}]")
    many = object_of("s", "source", "first=0", "every=" + fixed(1), "count=1000000", 'next="r"')
    yield "a router of 64 ways", network(many, router, sink, limit=30_000)
    station = object_of("q", "station", "servers=1024", "line=65536", "service=" + fixed(2**40), 'next="z"')
    flood = object_of("s", "source", "first=0", "every=" + fixed(0), "count=65535", 'next="q"')
    yield "a line of 65,536 places", network(flood, station, sink, limit=30_000)
    slow = object_of("d", "delay", "delay=" + fixed(2**40), 'next="d"')
    yield "delays of 2^40 to an end of 2^46 - 1", network(slow, '[[job]]\ntime=0\nat="d"', limit=30_000)
    jobs = [f'[[job]]\ntime={i}\nat="z"' for i in range(40_000)]
    yield "40,000 jobs", network(sink, *jobs, limit=30_000)


# ---- streams

def stream_runs(program, shop):
    """A name, the statuses that may come, and the run."""
    endless = shop.replace(b"limit", b"# limit")
    full = pathlib.Path("/dev/full")
    with open(full, "wb") as device:
        yield "a full device as output", {5}, Run(program, ["run"], shop, stdout=device)
    with open(full, "wb") as device:
        yield "a full device for notes", {2}, Run(program, ["go"], b"", stderr=device)
    reading, writing = os.pipe()
    os.close(reading)
    yield "a pipe that nobody reads", {5}, Run(program, ["run"], shop, stdout=writing)
    os.close(writing)
    folder = os.open("/", os.O_RDONLY)
    yield "a folder as input", {4}, Run(program, ["run"], b"", stdin=folder)
    os.close(folder)
    for closed, allowed in ((0, {4}), (1, {5}), (2, {0})):
        command = ["sh", "-c", f'exec "$0" run {closed}{"<" if closed == 0 else ">"}&-', program]
        yield f"stream {closed} closed", allowed, Run(command[0], command[1:], endless)
    long = b'format=1\nmodel="phold"\nend=70368744177663\nlimit=1000000000\n[phold]\nobjects=4\nto="next"\neach=1\ndelay={law="fixed",value=1}\n'
    reading, writing = os.pipe()
    reader = subprocess.Popen(["head", "-c", "100000"], stdin=reading, stdout=subprocess.DEVNULL)
    os.close(reading)
    yield "a limit of 1,000,000,000 into a pipe that closes", {5}, Run(program, ["run"], long, stdout=writing)
    os.close(writing)
    reader.wait()


# ---- what may come

def faults_of(run, allowed):
    if run.status not in allowed:
        yield f"status {run.status}"
    if run.status == 3 and run.size:
        yield "a refused model printed something"
    if run.notes.count(b"\n") > 1 or (run.status == 3) != run.notes.startswith(b"model: "):
        yield f"notes {run.notes[:80]!r}"
    if run.seconds > MOST_SECONDS:
        yield f"{run.seconds:.1f} s"
    if run.kilobytes > MOST_KILOBYTES:
        yield f"{run.kilobytes / 1000:.0f} MB"


class Tally:
    """What came of a kind of runs."""

    def __init__(self, name):
        self.name, self.statuses, self.wrong = name, collections.Counter(), []
        self.seconds = self.kilobytes = 0

    def take(self, name, run, allowed, data=None):
        self.statuses[run.status] += 1
        self.seconds = max(self.seconds, run.seconds)
        self.kilobytes = max(self.kilobytes, run.kilobytes)
        found = list(faults_of(run, allowed))
        if found:
            self.wrong.append((name, found, data))

    def tell(self):
        told = ", ".join(f"status {status}: {count}" for status, count in sorted(self.statuses.items()))
        print(f"{self.name}: {sum(self.statuses.values())} runs; {told}; at most {self.seconds:.2f} s and {self.kilobytes / 1000:.0f} MB")
        for name, found, data in self.wrong[:5]:
            print(f"  {name}: {', '.join(found)}" + (f" of {data[:300]!r}" if data and len(data) < 5_000 else ""))
        return not self.wrong


def main():
    parser = argparse.ArgumentParser(description=__doc__.splitlines()[0])
    parser.add_argument("--btb", default=str(TOP / "crates/btb/out/btb"), help="the built program")
    parser.add_argument("--count", type=int, default=3_000, help="how many random texts")
    parser.add_argument("--seed", default="1")
    given = parser.parse_args()
    r = random.Random(given.seed)
    resource.setrlimit(resource.RLIMIT_CORE, (0, 0))
    texts, longs, models, streams = map(Tally, ("random texts", "long texts", "hostile models", "streams"))
    for name, data in random_texts(r, given.count):
        words = r.choice([["run"], ["one"], ["totals"], ["run", "--nodes", "7", "--ahead", "3"]])
        texts.take(name, Run(given.btb, words, data), RUN | REFUSED, data)
    for name, data in long_texts():
        longs.take(name, Run(given.btb, ["run"], data), REFUSED)
    for name, data in hostile_models():
        for words in (["one"], ["run"], ["totals"], ["run", "--nodes", "64"]):
            models.take(f"{name}, {' '.join(words)}", Run(given.btb, words, data), RUN)
    for name, allowed, run in stream_runs(given.btb, (TOP / "crates/btb/stdin").read_bytes()):
        streams.take(name, run, allowed)
    sys.exit(not all([tally.tell() for tally in (texts, longs, models, streams)]))


if __name__ == "__main__":
    main()
