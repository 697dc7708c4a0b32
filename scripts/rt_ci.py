#!/usr/bin/env python3
"""Runs the toolchain's `rt ci` in this folder, by its own code but for three parts, which decide when a crate is proved and what else
is looked for, and not what is proved of it.

    scripts/rt_ci.py

`scripts/build` builds by it, since a first build is bound by its longest chain of crates:

- To hand out processors `rt` counts the tests and the edits of a crate as work that waits, also if it has none, so a crate of that
  chain is proved by one process, even while three processors are idle. Here it gets two at least, and all that nothing else waits for.
- Before and after it proves a library `rt` sums up the sources of those below, anew for each path that leads to it, and there are
  thousands of paths. Here each is summed up once.
- Once a crate is proved `rt` has the prover look for contracts that no call can meet, of which it would warn: no verdict hangs on
  that. The gate has it look; here it isn't asked to.

With RT_JOBS, as under `rt ci`, so many processors are handed out, and no look is taken at memory. A toolchain that hasn't these parts is
run as it is. The gate runs `rt ci` itself.
"""
import concurrent.futures
import importlib.machinery
import importlib.util
import math
import os
import shutil
import sys

# What the command's text has where it has the parts that are replaced, and those that are used. The second says what a task is.
PARTS = (
    "def in_lanes(tasks):",
    "A task is what it waits for, its work in lines, its memory, and a call that gets what was given and how many jobs it may use.",
    "def processors():", "def free():", "rtlib = load()", 'if __name__ == "__main__":',
)
PROOF, EDITS = "proof", "edits"
WARNS_OF_EMPTY_CONTRACTS = "--empty-contracts"
CHAIN_JOBS, MOST_JOBS = 2, 4
# As rt reckons: what it may use of the free memory, and what a further process takes of what a proof needs.
USED, FURTHER = 0.85, 0.6


def has_parts(path):
    """Whether the command is a Python script of the form that is known here."""
    with open(path, encoding="utf-8", errors="replace") as script:
        text = script.read()
    return all(part in text for part in PARTS)


def load(path):
    """The command `rt`, as a module."""
    loader = importlib.machinery.SourceFileLoader("rt", path)
    module = importlib.util.module_from_spec(importlib.util.spec_from_loader("rt", loader))
    loader.exec_module(module)
    return module


class Task:
    """What `rt` says of a task: for what it waits, how many lines it has, how much memory it needs, and how it is done."""

    def __init__(self, key, said):
        self.key, (self.waits, self.lines, self.needs, self.call) = key, said
        self.jobs = 0

    def is_idle(self):
        """Whether there is nothing to do: tests or edits of a crate that has none."""
        return self.key[1] != PROOF and not self.lines

    def memory(self):
        return self.needs * (1 + FURTHER * (self.jobs - 1))


class Lanes:
    """Tasks side by side, on so many processors and in so much memory."""

    def __init__(self, tasks, processors, memory):
        self.processors, self.memory = processors, memory
        self.behind = chains(tasks)
        self.left = sorted(tasks, key=lambda it: -self.behind[it.key])
        self.running, self.given = {}, {}

    def run(self):
        """Does all tasks, and returns what each gave."""
        with concurrent.futures.ThreadPoolExecutor(self.processors) as pool:
            while self.left or self.running:
                self.begin_all(pool)
                ended = concurrent.futures.wait(self.running, return_when=concurrent.futures.FIRST_COMPLETED).done
                for it in ended:
                    self.given[self.running.pop(it).key] = it.result()
        return self.given

    def ready(self):
        return [it for it in self.left if all(below in self.given for below in it.waits)]

    def begin_all(self, pool):
        """Begins what can begin, those with the longest chain behind them first."""
        self.pass_idle()
        ready = self.ready()
        for place, task in enumerate(ready):
            task.jobs = self.jobs(task, len(ready) - place)
            if task.jobs:
                self.left.remove(task)
                self.running[pool.submit(task.call, self.given, task.jobs)] = task

    def pass_idle(self):
        """Does what is ready and has no work, for which no processor is needed."""
        while True:
            idle = [it for it in self.ready() if it.is_idle()]
            if not idle:
                return
            for task in idle:
                self.left.remove(task)
                self.given[task.key] = task.call(self.given, 1)

    def jobs(self, task, ready):
        """By how many processes a task begins now, of so many that are ready: 0 if it has to wait."""
        idle = self.processors - sum(it.jobs for it in self.running.values())
        room = self.memory - sum(it.memory() for it in self.running.values())
        if idle <= 0 or self.running and task.needs > room:
            return 0
        if task.key[1] == EDITS:
            return 1
        is_on_chain = self.behind[task.key] >= max(self.behind[it.key] for it in self.left)
        wanted = max(CHAIN_JOBS if is_on_chain else 1, idle // ready)
        fitting = 1 + max(0, (room / task.needs - 1) / FURTHER)
        return int(min(wanted, fitting, idle, MOST_JOBS))


def chains(tasks):
    """The lines of the longest chain of tasks that begins with each. A task comes after those for which it waits."""
    behind = {it.key: 0 for it in tasks}
    for task in reversed(tasks):
        behind[task.key] += task.lines
        for below in task.waits:
            behind[below] = max(behind[below], behind[task.key])
    return behind


def in_lanes(rt):
    """What stands for a function of this name in `rt`."""

    def run_all(tasks):
        fixed = os.environ.get("RT_JOBS", "")
        room = (int(fixed), math.inf) if fixed.isdigit() and int(fixed) else (rt.processors(), USED * rt.free())
        return Lanes([Task(key, said) for key, said in tasks.items()], *room).run()

    return run_all


def once_for_each(stamp):
    """Makes the sum of a crate's sources and of those below it once."""
    sums = {}

    def kept(crate):
        if crate.folder not in sums:
            sums[crate.folder] = stamp(crate)
        return sums[crate.folder]

    return kept


def without_warnings(help_of):
    """Makes the help by which `rt` learns what the prover can do, without the warning."""
    return lambda verb: help_of(verb).replace(WARNS_OF_EMPTY_CONTRACTS, "")


def main():
    path = os.path.realpath(shutil.which("rt"))
    if not has_parts(path):
        os.execv(path, [path, "ci"])
    sys.dont_write_bytecode = True
    rt = load(path)
    if not hasattr(rt.rtlib.Crate, "stamp") or not hasattr(rt.rtlib, "help_of"):
        os.execv(path, [path, "ci"])
    rt.in_lanes = in_lanes(rt)
    rt.rtlib.Crate.stamp = once_for_each(rt.rtlib.Crate.stamp)
    rt.rtlib.help_of = without_warnings(rt.rtlib.help_of)
    sys.exit(rt.main(["ci"]))


if __name__ == "__main__":
    main()
