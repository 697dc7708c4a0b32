#!/usr/bin/env python3
"""Tries how the script btb builds the program, with a stand-in for rt that proves nothing and notes what it is asked for.

    scripts/first_build.py

On copies of the repository in which nothing is built: rt is given the crates of the program and nothing else; a second run
builds nothing, nor does a copy of the built tree; a failed build names its log; what a failed or an interrupted build has
proved is used by the next one, and by that of another program; a signal ends a build and nothing beside it; of two builds
at once the second waits; and without rt, or where nothing can be written, the script says so. Besides it tries how `rt_ci.py`
hands out processors. It stands outside the gate: it takes a minute or two.
"""
import functools
import importlib.util
import os
import pathlib
import shutil
import signal
import subprocess
import sys
import tempfile
import time

TOP = pathlib.Path(__file__).resolve().parent.parent
PARTS = ("src", "specs", "proofs")
STORED_RUN = ("args", "stdin", "stdout", "status", "data")
FAILED, NO_TOOLCHAIN = 126, 127
NOBODY = 65534
STAND_IN = r"""#!/usr/bin/env bash
# Stands for rt: a crate takes a twentieth of a second, and is kept by its sources. The program prints its words.
set -eu
notes="NOTES"
[ "$*" = ci ]
[ -d .git ] && [ -f HANDLES ]
[ "$(wc -l <crates.txt)" = "$(ls crates | wc -l)" ]
echo asked >>"$notes/asked"
for crate in $(sed 's/[ :].*//' crates.txt); do
    [ -d "crates/$crate/src" ] && [ ! -e "crates/$crate/must-fail" ]
    sum=$(find "crates/$crate" -type f -exec sha256sum {} + | sort | sha256sum | cut -c 1-64)
    if [ -f "$notes/kept-$crate-$sum" ]; then
        echo "rt: $crate is kept: an earlier run on this machine proved the same files over the same libraries"
        continue
    fi
    echo "$crate" >>"$notes/begun"
    sleep 0.05
    if [ -f "$notes/refuses_$crate" ]; then
        echo "rt: $crate NOT PROVED"
        exit 1
    fi
    touch "$notes/kept-$crate-$sum"
    echo "$crate" >>"$notes/built"
    echo "rt: $crate proved"
done
program=$(basename "$(dirname "$(dirname "$(ls crates/*/src/main.rt)")")")
mkdir "crates/$program/out"
printf '#!/bin/sh\necho ran "$@"\n' >"crates/$program/out/$program"
chmod +x "crates/$program/out/$program"
"""
# Starts the script, ends it once something is built, and says that it is still there.
PARENT = """
"$1" one &
job=$!
until [ -f "$2/built" ]; do sleep 0.1; done
kill -TERM "$job"
wait "$job"
echo "status $?, parent lives"
"""


class Tree:
    """A copy of the repository in which nothing is built, with a stand-in for rt, at a path with a space."""

    def __init__(self, room):
        self.top, self.notes, tools = room / "a tree", room / "notes", room / "tools"
        for folder in (self.top, self.notes, tools):
            folder.mkdir()
        for name in ("btb", "replicate", "crates.txt", "HANDLES"):
            shutil.copy2(TOP / name, self.top)
        (self.top / "scripts").mkdir()
        for name in ("build", "launch", "rt_ci.py"):
            shutil.copy2(TOP / "scripts" / name, self.top / "scripts")
        for crate in (TOP / "crates").iterdir():
            for part in PARTS:
                if (crate / part).is_dir():
                    shutil.copytree(crate / part, self.top / "crates" / crate.name / part)
            for file in STORED_RUN:
                if (crate / file).is_file():
                    shutil.copy2(crate / file, self.top / "crates" / crate.name)
            if (crate / "must-fail").is_dir():
                shutil.copytree(crate / "must-fail", self.top / "crates" / crate.name / "must-fail")
        self.out = self.top / "crates/btb/out"
        (tools / "rt").write_text(STAND_IN.replace("NOTES", str(self.notes)))
        (tools / "rt").chmod(0o755)
        self.environment = {"PATH": f"{tools}:{os.environ['PATH']}"}

    def start(self, script=None, environment=None, **how):
        """The script, begun as a job of its own."""
        return subprocess.Popen(
            [script or self.top / "btb", "one"], env=environment or self.environment, stdin=subprocess.DEVNULL,
            stdout=subprocess.PIPE, stderr=subprocess.PIPE, text=True, start_new_session=True, **how)

    def run(self, script=None, environment=None, **how):
        """The script, run to its end: its status, and what it wrote."""
        return ended(self.start(script, environment, **how))

    def wait_for(self, name, most_seconds=60):
        """Waits until something is noted."""
        for _ in range(10 * most_seconds):
            if (self.notes / name).exists():
                return
            time.sleep(0.1)

    def noted(self, name):
        """The lines of a note, in order; the note is taken away."""
        note = self.notes / name
        lines = note.read_text().splitlines() if note.exists() else []
        note.unlink(missing_ok=True)
        return lines


def ended(job):
    out, err = job.communicate(timeout=120)
    return job.returncode, out, err


def check(holds, what):
    print(("ok    " if holds else "FAILED"), what)
    if not holds:
        sys.exit(1)


def whole_build(tree):
    status, out, err = tree.run()
    begun, built = tree.noted("begun"), tree.noted("built")
    check((status, out) == (0, "ran one\n"), "a first run builds, and then runs the program")
    check(begun == built and len(built) == len(set(built)) and "btb" in built, f"each of {len(built)} crates is proved once")
    check("shop" not in built and "cross_tests" not in built, "and none on which the program doesn't stand")
    check(err.count("\n") == len(built) + 2, "a line for each crate says how far it is, one what is begun and one what is done")
    check(not (tree.out / "room").exists(), "no room is left")


def second_run(tree):
    status, out, err = tree.run()
    check((status, out, err) == (0, "ran one\n", "") and not tree.noted("begun"), "a second run builds nothing, and says nothing")


def by_a_link(tree):
    link, second = tree.top.parent / "link", tree.top.parent / "second link"
    link.symlink_to(tree.top / "btb")
    second.symlink_to(link)
    status, out, err = tree.run(script=second)
    check((status, out, err) == (0, "ran one\n", ""), "a link to a link runs the same program")


def copied_tree(tree):
    other = tree.top.parent / "copy"
    subprocess.run(["cp", "-r", tree.top, other], check=True)
    status, out, err = tree.run(script=other / "btb")
    check((status, out, err) == (0, "ran one\n", ""), "a copy of a built tree, with other times of its files, builds nothing")


def another_program(tree):
    status, out, err = tree.run(script=tree.top / "replicate")
    built = tree.noted("built")
    check((status, out) == (0, "ran one\n") and "building replicate" in err, "the other program is built and run by its own name")
    check("replicate" in built and "sim_io" not in built, "over the libraries that both stand on")
    link = tree.top.parent / "a link of another name"
    link.symlink_to(tree.top / "replicate")
    status, out, err = tree.run(script=link)
    check((status, out, err) == (0, "ran one\n", ""), "and by a link to it of any name")


def changed_source(tree):
    tree.noted("asked")
    source = tree.top / "crates/sim_io/src/lib.rt"
    source.touch()
    status, _, err = tree.run()
    check((status, err) == (0, ""), "a source with a new time and the same text builds nothing")
    source.write_text(source.read_text() + "// changed\n")
    status, out, _ = tree.run()
    check((status, out) == (0, "ran one\n") and tree.noted("built") == ["sim_io"], "where a source changed, rt is asked again, and proves what changed")
    test = next((tree.top / "crates").glob("worked_examples/src/*.rt"))
    test.write_text(test.read_text() + "// changed\n")
    status, _, err = tree.run()
    check((status, err) == (0, ""), "a source on which the program doesn't stand builds nothing")


def kept_work(tree):
    """What an author's own checks left stays."""
    works = [tree.top / "crates" / crate / "out/incremental" for crate in ("event_key", "btb")]
    for work in works:
        work.mkdir(parents=True)
        (work / "own").touch()
    tree.run()
    check(all((work / "own").exists() for work in works), "what an author's own checks have kept stays")


def failed_build(tree):
    refusal = tree.notes / "refuses_sim_spec"
    refusal.touch()
    status, out, err = tree.run()
    log = tree.out / "build.log"
    check(status == FAILED and out == "" and err.endswith(f"btb: the build of btb failed (log: {log})\n"), "a failed build names its log")
    check("sim_spec NOT PROVED" in log.read_text(), "which says what failed")
    check(not (tree.out / "room").exists() and not (tree.out / "btb").exists(), "and leaves no room and no program")
    built = set(tree.noted("built"))
    refusal.unlink()
    status, out, _ = tree.run()
    check((status, out) == (0, "ran one\n") and built and not built & set(tree.noted("built")), "the next run builds what is left")


def interrupted_build(tree):
    for number in (signal.SIGINT, signal.SIGTERM):
        job = tree.start()
        tree.wait_for("built")
        os.killpg(job.pid, number)
        job.communicate(timeout=60)
        built = set(tree.noted("built"))
        check(job.returncode == -number and built, f"a build that gets {number.name} ends by it, and with it what it runs")
    check(nothing_is_left(tree), "and nothing of it is left")
    status, out, _ = tree.run()
    check((status, out) == (0, "ran one\n") and not built & set(tree.noted("built")), "the next run builds what is left")


def ended_by_its_parent(tree):
    parent = subprocess.run(
        ["bash", "-c", PARENT, "parent", tree.top / "btb", tree.notes], env=tree.environment, stdin=subprocess.DEVNULL,
        capture_output=True, text=True, start_new_session=True, timeout=60)
    check(parent.stdout == "status 143, parent lives\n", "whoever ends a build that it runs lives on")
    check(nothing_is_left(tree), "and nothing of the build is left")


def killed_build(tree):
    job = tree.start()
    tree.wait_for("built")
    tree.noted("built")
    job.kill()
    status, out, err = tree.run()
    job.communicate()
    check((status, out) == (0, "ran one\n"), "after a build that was killed the next one builds")


def two_builds(tree):
    first = tree.start()
    tree.wait_for("begun")
    second = tree.start()
    results = [ended(it) for it in (first, second)]
    check([it[:2] for it in results] == 2 * [(0, "ran one\n")], "two builds at once both end with the program")
    check(len(tree.noted("asked")) == 1, "rt is asked once")
    check(results[1][2] == "btb: another build of this tree is under way: waiting for it\n", "the second says that it waits")


def no_toolchain(tree):
    status, out, err = tree.run(environment={"PATH": "/usr/bin:/bin"})
    check(status == NO_TOOLCHAIN and out == "" and err.count("\n") == 1 and "'rt'" in err, "without rt, the script says so")


def read_only_tree(tree):
    how = {"user": NOBODY} if os.geteuid() == 0 else {}
    tree.top.parent.chmod(0o755)
    for folder in (tree.top, tree.top / "crates/btb"):
        folder.chmod(0o555)
    status, out, err = tree.run(**how)
    check(status == FAILED and out == "" and err.count("\n") == 1 and str(tree.out) in err, "where nothing can be written, the script says so in a line")
    (tree.top / "crates/btb").chmod(0o755)


def handed_out(tree):
    """The tasks of five crates: `top` stands on all others, `long` and `last` are a chain, and `tried` alone has tests and edits."""
    module = loaded(tree.top / "scripts/rt_ci.py")
    below = {"base": [], "long": ["base"], "short": ["base"], "tried": ["base"], "last": ["base", "long"], "top": ["base", "long", "short", "tried", "last"]}
    lines = {"base": 10, "long": 300, "short": 50, "tried": 50, "last": 400, "top": 10}
    begun, tasks = [], {}
    for crate, uses in below.items():
        waits, has_more = [(it, "proof") for it in uses], crate == "tried"
        for part, on, size in (("proof", waits, lines[crate]), ("tests", waits, has_more), ("edits", [(crate, "proof"), (crate, "tests")], has_more)):
            tasks[crate, part] = (on, int(size), 1e9, functools.partial(noted_task, begun, (crate, part), on))
    given = module.Lanes([module.Task(key, said) for key, said in tasks.items()], 4, 4e9).run()
    check(set(given) == set(tasks) and all(given.values()), "each task is done once, after those for which it waits")
    jobs = dict(begun)
    check(all(jobs[it, "proof"] >= 2 for it in ("base", "long", "last", "top")), "a crate of the longest chain is proved by two processes or more")
    check(jobs["tried", "edits"] == 1, "and an edit by one")


def loaded(path):
    spec = importlib.util.spec_from_file_location(path.stem, path)
    module = importlib.util.module_from_spec(spec)
    spec.loader.exec_module(module)
    return module


def noted_task(begun, key, waits, given, jobs):
    """A task that takes a moment, and tells whether it could begin."""
    begun.append((key, jobs))
    time.sleep(0.01)
    return all(it in given for it in waits)


def nothing_is_left(tree):
    """Whether soon no process works in the tree or runs a file of it."""
    for _ in range(50):
        if not any(works_in(it, str(tree.top)) for it in pathlib.Path("/proc").glob("[0-9]*")):
            return True
        time.sleep(0.1)
    return False


def works_in(process, folder):
    try:
        return folder in f"{os.readlink(process / 'cwd')} {(process / 'cmdline').read_text()}"
    except OSError:
        return False


def main():
    for cases in (
        (handed_out, no_toolchain, read_only_tree, whole_build, second_run, by_a_link, copied_tree, another_program, changed_source), (failed_build,),
        (kept_work,), (interrupted_build,), (ended_by_its_parent, killed_build), (two_builds,),
    ):
        with tempfile.TemporaryDirectory() as room:
            tree = Tree(pathlib.Path(room))
            for case in cases:
                case(tree)


if __name__ == "__main__":
    main()
