#!/usr/bin/env python3
"""Compares `explain` with the built program: on mistakes that people make, on models at their limits, and on spoiled ones.

    scripts/try_explain.py [--btb PROGRAM] [--count K] [--seed S]

Of each model: `explain` names the code and the item that `btb` does, or accepts it as `btb` does. Of each mistake: the line
is the right one, and the sentence has the words that tell the mistake. It stands outside the gate, and takes a minute.
"""
import argparse
import collections
import importlib.machinery
import importlib.util
import pathlib
import random
import re
import subprocess
import sys

TOP = pathlib.Path(__file__).resolve().parent.parent
EXAMPLES = [path.read_text() for path in sorted((TOP / "examples").glob("*.toml"))]


def load(name):
    """A script as a module."""
    loader = importlib.machinery.SourceFileLoader(name, str(TOP / "scripts" / name))
    module = importlib.util.module_from_spec(importlib.util.spec_from_loader(name, loader))
    sys.path.insert(0, str(TOP / "scripts"))
    loader.exec_module(module)
    return module


explain = load("explain")


def answer_of(program, data):
    """The note of a refusal, or None. `save 0` reads the model and simulates nothing."""
    done = subprocess.run([program, "save", "0"], input=data, capture_output=True, timeout=60)
    note = done.stderr.decode()
    return note.strip() if done.returncode == 3 else None


def sentence_of(data):
    """The note of a refusal and the sentence about it, or twice None."""
    try:
        explain.walk(data)
    except explain.Refused as refused:
        return refused.note(), explain.sentence("MODEL", data, refused)
    return None, None


# ---- mistakes that people make

SHOP = """format = 1
model = "network"
end = 100
seed = 7

[[object]]
name = "door"
kind = "source"
first = 0
every = { law = "geometric", p = 429496729, cap = 200 }
count = 20
next = "desk"

[[object]]
name = "desk"
kind = "station"
servers = 2
service = { law = "uniform", low = 5, high = 25 }
line = 10
next = "ways"

[[object]]
name = "ways"
kind = "router"
next = ["out", "desk"]
weights = [9, 1]

[[object]]
name = "out"
kind = "sink"

[[job]]
time = 4
at = "desk"
"""
CIRCUIT = """format = 2
model = "circuit"
end = 100

[[gate]]
name = "in"
kind = "input"
flips = [10, 20]

[[gate]]
name = "out"
kind = "and"
from = ["in", "in"]
"""
PHOLD = """format = 2
model = "phold"
end = 40

[phold]
objects = 8
delay = { law = "fixed", value = 3 }
to = "uniform"
start = [ { time = 0, at = 1 },
          { time = 5, at = 7 } ]
"""

# the model, what is written and what was meant by it, the code, the item, the line, and words of the sentence
MISTAKES = [
    (SHOP, 'low = 5, high = 25 }', 'low = 5, high = 25', 2, 0, 19, "a `,` or a `}` has to follow in the table that begins in line 18"),
    (SHOP, 'kind = "station"', "kind = station", 2, 0, 16, "`station` is no value: a text stands in quotes"),
    (SHOP, 'name = "desk"', 'name = "desk', 2, 0, 15, "no closing quote"),
    (SHOP, '[[object]]\nname = "desk"', '[object]\nname = "desk"', 2, 0, 14, "`object` came before, in line 6"),
    (SHOP, "[[job]]", "[job]", 5, 0, 32, "`job` of the top table is a table; it has to be an array"),
    (SHOP, "line = 10", "line = 10\nline = 11", 2, 0, 20, "the key `line` came before, in line 19"),
    (SHOP, "count = 20", "count = 020", 2, 0, 11, "no zero before its digits"),
    (SHOP, "count = 20", "count 20", 2, 0, 11, "a `=` has to follow"),
    (SHOP, "seed = 7", "seed = 9223372036854775808", 2, 0, 4, "64 bits"),
    (SHOP, "end = 100\n", "", 3, 0, 1, "`end` of the top table is missing"),
    (SHOP, "end = 100", "end = 100.0", 5, 0, 3, "100.0, which is no whole number"),
    (SHOP, 'model = "network"', 'model = "netwrok"', 5, 0, 2, "perhaps `network` is meant"),
    (SHOP, 'model = "network"', 'model = "circuit"', 5, 0, 2, "came with format 2"),
    (SHOP, "format = 1", "format = 3", 5, 0, 1, "it has to be 1 or 2"),
    (SHOP, 'kind = "station"', 'kind = "statoin"', 5, 2, 16, 'of the object "desk" is the text "statoin"'),
    (SHOP, 'name = "desk"', 'name = "the desk"', 5, 2, 15, "1 to 16 letters, digits"),
    (SHOP, 'name = "out"', 'name = "door"', 5, 4, 29, "that of item 1 too"),
    (SHOP, "servers = 2", "servers = 0", 5, 2, 17, "`servers` of the object \"desk\" is 0; it has to be a whole number from 1 to 1024 (its table begins in line 14)"),
    (SHOP, "servers = 2", "servers = 2000", 7, 2, 17, "from 1 to 1024"),
    (SHOP, "service =", "servise =", 3, 2, 18, "`service` of the object \"desk\" is missing; it has to be a law, as { law = \"fixed\", value = 5 }; perhaps `servise` is meant"),
    (SHOP, "line = 10", "lines = 10", 4, 2, 19, "perhaps `line` is meant"),
    (SHOP, "low = 5, high", "low = 50, high", 5, 2, 18, "`service.high` of the object \"desk\" is 25; it has to be at least `low`, which is 50"),
    (SHOP, 'law = "uniform"', 'law = "normal"', 5, 2, 18, '`service.law` of the object "desk" is the text "normal"; it has to be "fixed", "uniform" or "geometric"'),
    (SHOP, "cap = 200", "cap = 0", 5, 1, 10, "`every.cap`"),
    (SHOP, ", cap = 200", "", 3, 1, 10, "`every.cap` of the object \"door\" is missing"),
    (SHOP, 'next = "desk"', 'next = "desks"', 6, 1, 12, "perhaps `desk` is meant"),
    (SHOP, 'next = "ways"', 'next = "door"', 6, 2, 20, "a source, to which nothing can go"),
    (SHOP, "[9, 1]", "[9, 1, 1]", 5, 3, 26, "as many as `next` has"),
    (SHOP, "[9, 1]", "[0, 0]", 5, 3, 26, "all 0"),
    (SHOP, '["out", "desk"]', '[]', 5, 3, 25, "1 to 64 names"),
    (SHOP, 'at = "desk"\n', 'at = "desk"\nlimit = 50\n', 4, 5, 35, "belongs to the top table"),
    (SHOP, 'kind = "sink"', 'kind = "sink"\nquiet = true', 4, 4, 31, "came with format 2"),
    (SHOP, 'at = "desk"', 'at = "dusk"', 6, 5, 34, "`at` of job 1 names \"dusk\""),
    (SHOP, "time = 4", "time = -4", 5, 5, 33, "`time` of job 1 is -4"),
    (CIRCUIT, '["in", "in"]', '["in", "inn"]', 6, 2, 13, "no gate has this name"),
    (CIRCUIT, 'kind = "and"', 'kind = "not"', 5, 2, 13, "an array of one name in quotes"),
    (CIRCUIT, "[10, 20]", "[10, -20]", 5, 1, 8, "element 2 of `flips`"),
    (CIRCUIT, '["in", "in"]', '["in", "in"' + ', "in"' * 7 + "]", 5, 2, 13, "1 to 8 names"),
    (PHOLD, "at = 7", "at = 8", 6, 2, 10, "below `objects`, which is 8"),
    (PHOLD, "objects = 8", "objects = 65537", 7, 0, 6, "`objects` of the table `phold`"),
    (PHOLD, 'to = "uniform"', 'to = "random"', 5, 0, 8, '"next" or "uniform"'),
    (PHOLD, "[phold]", "[pholds]", 4, 0, 5, "perhaps `phold` is meant"),
]


def mistakes(program):
    """What is wrong of each."""
    for model, meant, written, code, item, line, words in MISTAKES:
        text = model.replace(meant, written, 1)
        data = text.encode()
        note, sentence = sentence_of(data)
        want = f"model: {code} {explain.NAMES[code]} item {item}"
        if text == model or note != want or answer_of(program, data) != want:
            yield f"{written!r}: {note} and not {want}, and btb says {answer_of(program, data)}"
        elif not sentence.startswith(f"MODEL:{line}:") or words not in sentence:
            yield f"{written!r}: {sentence}"


# ---- models at their limits

def limits():
    head = 'format = 2\nmodel = "network"\nend = 1\n'
    entry = '[[object]]\nname = "{}"\nkind = "sink"\n'
    for many in (1_048_576, 1_048_577):
        yield head + "#" * (many - len(head))
    for many in (65_536, 65_537):
        yield head + "job = [" + "1," * many + "]"
        yield head + "object = [" + "{}," * many + "]"
        yield PHOLD.replace("[ {", "[" + "{time=0,at=0}," * (many - 2) + " {")
    for many in (1, 64, 65):
        ways = ",".join(['"z"'] * many)
        yield head + entry.format("z") + f'[[object]]\nname = "r"\nkind = "router"\nnext = [{ways}]\n'
    for many in (299_998, 299_999):
        yield CIRCUIT.replace("[[gate]]", '[[gate]]\nname="first"\nkind="input"\nflips=[' + "1," * many + "]\n[[gate]]", 1)
    for many in (3, 4):
        yield CIRCUIT + "".join(f'[[gate]]\nname="g{k}"\nkind="or"\nfrom=["in","in"]\n' for k in range(many))
    for name in ("n" * 16, "n" * 17, "", "-", "é"):
        yield head + entry.format(name)
    for depth in (79, 80, 81):
        yield head + "x = " + "[" * depth + "]" * depth
        yield head + "x" + ".x" * (depth - 1) + " = 1"


# ---- spoiled models

NUMBERS = ["-1", "0", "1", "2", "4", "5", "255", "256", "1024", "1025", "65535", "65536", "65537", "1000000", "1000001", "1000000000",
           "1000000001", "4294967295", "4294967296", "1099511627776", "1099511627777", "70368744177663", "70368744177664",
           "9223372036854775807", "9223372036854775808", "0x10", "1_000", "1__0", "007", "+3", "-0"]
OTHERS = ["1.5", "inf", "true", "false", '""', '"x"', "'next'", "[]", "[1]", '["a"]', "{}", "[{}]", "1979-05-27", "07:32", "yes",
          '{ law = "fixed", value = 3 }', '{ law = "uniform", low = 9, high = 3 }', '{ law = "fixed", value = 3, cap = 2 }']
KEYS = ["format", "model", "end", "seed", "limit", "phold", "object", "job", "gate", "name", "kind", "next", "line", "weights", "rank",
        "quiet", "trace", "probe", "due", "color", "law", "each", "start", "time", "at", "delay", "flips", "from", "service"]
PIECES = ["[", "]", "{", "}", "=", ".", ",", '"', "'", "#", "\n", "\r", " ", "_", "\\", "\x00", "\x7f", "é", '"""', "\ufeff"]
PAIR = re.compile(r"^([A-Za-z_]+) *= *(.*)$")


def spoiled(r):
    """An example with one to three changes."""
    lines = [line for line in r.choice(EXAMPLES).split("\n") if line and not line.startswith("#")]
    for _ in range(r.choice([1, 1, 2, 3])):
        r.choice([spoil_pair, spoil_pair, spoil_number, spoil_text, spoil_line])(r, lines)
    data = "\n".join(lines).encode()
    if r.random() < 0.15:
        data = spoil_bytes(r, data)
    return data


def spoil_pair(r, lines):
    """A pair is left out, doubled, or has another key or value."""
    at = r.choice([k for k, line in enumerate(lines) if PAIR.match(line)] or [0])
    found = PAIR.match(lines[at])
    if not found:
        return
    key, value = found.groups()
    lines[at:at + 1] = r.choice([
        [], [lines[at]] * 2, [f"{r.choice(KEYS)} = {value}"], [f"{key}x = {value}"], [f"{key} = {r.choice(OTHERS)}"],
        [f"{key} = {r.choice(NUMBERS)}"], [lines[at], f"{r.choice(KEYS)} = {r.choice(NUMBERS + OTHERS)}"]])


def spoil_found(r, lines, pattern, others):
    """Something of the pattern becomes another thing."""
    places = [(k, found) for k, line in enumerate(lines) for found in re.finditer(pattern, line)]
    if places:
        k, found = r.choice(places)
        lines[k] = lines[k][:found.start()] + r.choice(others) + lines[k][found.end():]


def spoil_number(r, lines):
    spoil_found(r, lines, r"(?<![\w\"-])\d+(?![\w\"-])", NUMBERS)


def spoil_text(r, lines):
    names = [found.group() for line in lines for found in re.finditer(r'"[^"]*"', line)]
    spoil_found(r, lines, r'"[^"]*"', names + ['"no-such"', '"a name"', "5"])


def spoil_line(r, lines):
    at = r.randrange(len(lines))
    line = lines[at]
    lines[at:at + 1] = r.choice([[], [line, line], [line[:r.randint(0, len(line))]], [line, r.choice(["[[object]]", "[object]", "[[job]]", "[phold]", "[[gate]]", "[x]"])]])


def spoil_bytes(r, data):
    data = bytearray(data)
    for _ in range(r.randint(1, 3)):
        at = r.randint(0, len(data))
        data[at:at + r.randint(0, 2)] = r.choice(PIECES).encode() if r.random() < 0.8 else bytes([r.randrange(256)])
    return bytes(data)


def compare(program, name, models, found):
    """Prints what differs, and how many did."""
    wrong = 0
    for data in models:
        note, sentence = sentence_of(data)
        want = answer_of(program, data)
        found[" ".join((note or "accepted").split()[:3])] += 1
        if note != want:
            wrong += 1
            if wrong <= 5:
                print(f"{name}: {sentence or 'accepted'}, and btb says {want}: {data[-300:]!r}")
    return wrong


def main():
    parser = argparse.ArgumentParser(description=__doc__.splitlines()[0])
    parser.add_argument("--btb", default=str(TOP / "crates/btb/out/btb"), help="the built program")
    parser.add_argument("--count", type=int, default=2_000, help="how many spoiled models")
    parser.add_argument("--seed", default="1")
    given = parser.parse_args()
    r, found = random.Random(given.seed), collections.Counter()
    wrong = list(mistakes(given.btb))
    for line in wrong:
        print(line)
    print(f"mistakes: {len(MISTAKES)}, of which {len(wrong)} are told wrong")
    at_limits = [text.encode() for text in limits()]
    failed = compare(given.btb, "at a limit", at_limits, found)
    failed += compare(given.btb, "an example", [text.encode() for text in EXAMPLES], found)
    failed += compare(given.btb, "spoiled", (spoiled(r) for _ in range(given.count)), found)
    print(", ".join(f"{note}: {many}" for note, many in sorted(found.items())))
    print(f"{sum(found.values())} models, of which {failed} differ")
    sys.exit(bool(wrong or failed))


if __name__ == "__main__":
    main()
