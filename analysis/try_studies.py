#!/usr/bin/env python3
"""Runs what docs/STUDIES.md shows, and compares what is printed with what stands there.

    analysis/try_studies.py [--write FOLDER]

Blocks of Python run one after another in one interpreter, and blocks of the shell each by themselves; the block behind one,
if it names no language, is what it prints. With --write the page with what came, and its plots, go to that folder. The
programs are those that `btb_tables` finds. It takes some minutes, and stands outside the tests.
"""
import argparse
import contextlib
import difflib
import io
import os
import pathlib
import re
import shlex
import subprocess
import sys
import tempfile

TOP = pathlib.Path(__file__).resolve().parent.parent
PAGE = TOP / "docs/STUDIES.md"
BLOCK = re.compile(r"```(\w*)\n(.*?)```\n", re.S)
os.environ.setdefault("MPLBACKEND", "Agg")
sys.dont_write_bytecode = True
sys.path.insert(0, str(TOP / "analysis"))
import btb_tables


def fill(folder):
    """A folder that looks as the top of the repository, with the programs on the path."""
    for name in ("examples", "analysis"):
        (folder / name).symlink_to(TOP / name)
    programs = folder / "programs"
    programs.mkdir()
    for name, (variable, built) in btb_tables.PROGRAMS.items():
        script = programs / name
        script.write_text(f'#!/bin/sh\nexec {os.environ.get(variable, shlex.quote(str(built)))} "$@"\n')
        script.chmod(0o755)
    os.environ["PATH"] = f"{programs}:{os.environ['PATH']}"


def printed(language, block, names, before):
    """What a block prints, or None of one that isn't run."""
    if language == "python":
        with contextlib.redirect_stdout(io.StringIO()) as out:
            exec(compile(block, PAGE.name, "exec"), names)
        return out.getvalue()
    if language == "sh":
        return subprocess.run(["bash", "-euo", "pipefail", "-c", block], capture_output=True, text=True, check=True).stdout
    saved = re.search(r"Save this as `([^`]+)`:\s*$", before)
    if saved:
        pathlib.Path(saved[1]).write_text(block)
    return None


def run_again(page):
    """The page with what its blocks print now."""
    out, end, names, due = [], 0, {}, None
    for found in BLOCK.finditer(page):
        language, block = found.groups()
        before = page[end:found.start()]
        out.append(before)
        end = found.end()
        if not language and due is not None:
            out.append(f"```\n{due}```\n")
            due = None
            continue
        out.append(found.group())
        due = printed(language, block, names, before)
        print(f"{language or 'text'} block in line {page[:found.start()].count(chr(10)) + 1}", file=sys.stderr)
    return "".join(out) + page[end:]


def main():
    parser = argparse.ArgumentParser(description=__doc__.splitlines()[0])
    parser.add_argument("--write", type=pathlib.Path, help="where the page and its plots go")
    given = parser.parse_args()
    written = given.write and given.write.resolve()
    page = PAGE.read_text()
    with tempfile.TemporaryDirectory() as folder:
        os.chdir(folder)
        fill(pathlib.Path(folder))
        now = run_again(page)
        for plot in pathlib.Path(folder).glob("*.png"):
            if written:
                (written / plot.name).write_bytes(plot.read_bytes())
        os.chdir(TOP)
    if written:
        (written / PAGE.name).write_text(now)
    changes = list(difflib.unified_diff(page.splitlines(), now.splitlines(), "the page", "what was printed", lineterm=""))
    print("\n".join(changes) or "the page is what was printed")
    sys.exit(bool(changes))


if __name__ == "__main__":
    main()
