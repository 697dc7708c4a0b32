#!/usr/bin/env python3
"""Tables, means with confidence, and plots of what `btb` and `replicate` print.

    from btb_tables import replicate, summary
    print(summary(replicate("examples/bank.toml", 30)))

    python3 analysis/btb_tables.py summary < table.csv

It needs pandas and scipy, and matplotlib for the plots (Debian: python3-pandas python3-scipy python3-matplotlib). The
programs are those that this repository builds, `crates/btb/out/btb` and `crates/replicate/out/replicate`, or the commands
that the environment variables BTB and REPLICATE have.

A model is the path of a file, or the text of a model itself, which has several lines. Times are ticks; the model says what a
tick is. Means and half-widths are over replications, which are independent of each other; nothing within one run is.
"""
import argparse
import io
import os
import pathlib
import shlex
import subprocess
import sys

try:
    import pandas as pd
    import scipy.stats
except ImportError:
    # another `python3` on the path may come without them
    system = "/usr/bin/python3"
    if __name__ != "__main__" or sys.executable == system or not os.path.exists(system):
        raise
    os.execv(system, [system, *sys.argv])

TOP = pathlib.Path(__file__).resolve().parent.parent
PROGRAMS = {"btb": ("BTB", TOP / "crates/btb/out/btb"), "replicate": ("REPLICATE", TOP / "crates/replicate/out/replicate")}
SIMULATED = (0, 1, 7)  # statuses with a whole text: the end, a fault, the limit of events
COUNTS = ["seed", "arrivals", "served", "lost", "busy", "waiting", "age", "longest", "ticks", "events"]


class Failed(Exception):
    """A program ended with a status that leaves no whole text. Its note is the message."""

    def __init__(self, program, status, note):
        hint = "; scripts/explain MODEL says what is wrong in it" if status == 3 else ""
        super().__init__(f"{program} ended with status {status}: {note}{hint}")
        self.status = status


# ---- runs

def run(program, words, model):
    """What a program prints on a model."""
    variable, built = PROGRAMS[program]
    command = shlex.split(os.environ[variable]) if variable in os.environ else [str(built)]
    text = text_of(model).encode()
    try:
        done = subprocess.run([*command, *map(str, words)], input=text, capture_output=True, check=False)
    except FileNotFoundError:
        raise FileNotFoundError(f"there is no {command[0]}: build it, or let {variable} say where it is") from None
    if done.returncode not in SIMULATED:
        raise Failed(program, done.returncode, done.stderr.decode(errors="replace").strip())
    return done.stdout.decode()


def text_of(model):
    """The text of a model that is given by its path, or as its text."""
    text = str(model)
    return text if "\n" in text else pathlib.Path(text).read_text(encoding="utf-8")


def replicate(model, count, first=None, start=0, workers=4):
    """Runs a model under `count` seeds, from `first` on, or from its own. A row for each replication and object.

    `start` is the first tick of the window that is counted (`--from`), and cuts off a warm-up. Columns, as `replicate`
    prints them: seed, object; arrivals, served, lost: how many; busy: servers times ticks; waiting: jobs times ticks; age:
    ticks, over all jobs that leave at a sink; longest: jobs in line; ticks: how long the window is; events: of the whole run;
    stop: "end", "limit" or "fault". A replication that stops at its limit or a fault is in the table like the others.
    """
    words = [count, "--from", start, "--workers", workers]
    if first is not None:
        words += ["--first", first]
    return read_table(io.StringIO(run("replicate", words, model)))


def read_table(file):
    """A table that `replicate` printed, or several that were joined, with one head line."""
    table = pd.read_csv(file, dtype=str, keep_default_na=False)  # an object may be called NA
    return table.assign(**{column: numbers(table[column]) for column in COUNTS})


def numbers(column):
    """A column of texts as whole numbers, or as floating ones where 64 bits don't hold a sum."""
    try:
        return column.astype("int64")
    except (OverflowError, ValueError):
        return column.map(int).astype("float64")


def records(model, words=("one",)):
    """Runs `btb` once. A row for each record, with the columns tick, step, object, word, a, b.

    The last line of the text, which says why the run stopped, is `records(..).attrs["last"]`. Lines of cycles are left out.
    """
    lines = run("btb", words, model).splitlines()
    rows = [line.replace(".", " ", 1).split(" ") for line in lines[:-1] if not line.startswith("cycle")]
    table = pd.DataFrame(rows, columns=["tick", "step", "object", "word", "a", "b"])
    table = table.assign(**{column: numbers(table[column]) for column in ("tick", "step", "a", "b")})
    table.attrs["last"] = lines[-1]
    return table


# ---- measures

MEASURES = {  # each from the columns of a table; ticks are those of the window
    "mean line": lambda t: t.waiting / t.ticks,
    "mean wait": lambda t: t.waiting / (t.arrivals - t.lost),
    "busy servers": lambda t: t.busy / t.ticks,
    "throughput": lambda t: t.served / t.ticks,
    "share lost": lambda t: t.lost / t.arrivals,
    "mean time": lambda t: t.age / t.arrivals,
    "longest line": lambda t: t.longest * 1.0,
}


def measures(table):
    """The measures of each replication and object, as columns, by seed and object.

    mean line     waiting / ticks                in jobs
    mean wait     waiting / (arrivals - lost)    in ticks, in the line of a station: Little's law over the window
    busy servers  busy / ticks                   in servers
    throughput    served / ticks                 in jobs a tick
    share lost    lost / arrivals                of 1
    mean time     age / arrivals                 in ticks, from a job's birth until it leaves at a sink
    longest line  longest                        in jobs

    A quotient by 0 is NaN. An object that isn't a station has no busy servers and no line, and only a sink has a mean time;
    there these are 0. Where arrivals stand in line at an end of the window, they are in `mean wait` with the ticks in it.
    """
    table = table.set_index(["seed", "object"])
    found = pd.DataFrame({name: formula(table) for name, formula in MEASURES.items()})
    return found.replace([float("inf"), -float("inf")], float("nan"))


def half_width(deviation, many, level=0.95):
    """Half of the interval that has the mean of independent, about normal values with this confidence.

    t s / sqrt(n), with s the standard deviation (by n - 1) of the n values, and t the quantile (1 + level) / 2 of Student's t
    with n - 1 degrees of freedom. NaN for fewer than two values.
    """
    return scipy.stats.t.ppf((1 + level) / 2, many - 1) * deviation / many**0.5


def summary(table, level=0.95):
    """Over the replications: each measure of each object, as a row by object and measure. See `measures` for formulas.

    Columns: mean, deviation (the standard one, by n - 1), half_width (see `half_width`), least, greatest, and replications,
    how many have the measure. Whether a replication stopped before its end, `table.stop` tells.
    """
    return over_replications(measures(table), level)


def over_replications(values, level):
    """The summary of columns of measures, which are by seed and object."""
    groups = pd.concat(dict(values.items()), names=["measure"]).groupby(level=["object", "measure"])
    deviation, many = groups.std(ddof=1), groups.count()
    found = pd.DataFrame({
        "mean": groups.mean(), "deviation": deviation, "half_width": half_width(deviation, many, level),
        "least": groups.min(), "greatest": groups.max(), "replications": many})
    objects = values.index.get_level_values("object").unique()
    return found.reindex(pd.MultiIndex.from_product([objects, values.columns], names=["object", "measure"]))


def compare(table, other, level=0.95):
    """How much a second model differs from the first under the same seeds, as a row by object and measure.

    Of each seed the difference is the second model's measure less the first one's. Columns: first and second (the means over
    the same seeds), difference (the mean one), half_width of it, and replications. As objects draw from streams of their own,
    a seed brings both models the same draws wherever the models are the same (common random numbers), so that differences
    vary less than measures do. Where `difference` is farther from 0 than `half_width`, the change makes a difference with
    this confidence. Only objects that both models have are compared. ValueError where the seeds differ.
    """
    if set(table.seed) != set(other.seed):
        raise ValueError("the tables have other seeds: replicate both models with the same `first` and `count`")
    first, second = measures(table), measures(other)
    both = first.index.intersection(second.index, sort=False)
    first, second = first.loc[both], second.loc[both]
    differences = over_replications(second - first, level).rename(columns={"mean": "difference"})
    means = {name: over_replications(values, level)["mean"] for name, values in (("first", first), ("second", second))}
    return differences.assign(**means)[["first", "second", "difference", "half_width", "replications"]]


# ---- what records tell

def line_of(records, station):
    """How many jobs wait at a station after each of its records that changes that, as a Series by tick. It begins with 0."""
    here = records[(records.object == station) & records.word.isin(["wait", "done"])]
    line = pd.Series(here.b.to_numpy(), here.tick.to_numpy(), name=station)
    return pd.concat([pd.Series([0], [0], name=station), line])


def services(records, stations):
    """Each service at the stations that ended in these records: station, server, job, begin, end, in ticks.

    Servers are counted from 0: a service takes the lowest that is free, and the next in line that of the job before. Where two
    jobs of one number are served at once, as two sources may make them, the first to begin is taken as the first to end.
    """
    found = []
    for station in stations:
        here = records[(records.object == station) & records.word.isin(["take", "wait", "done"])]
        waiting, serving = [], []
        for tick, word, job, line in here[["tick", "word", "a", "b"]].itertuples(index=False):
            if word == "wait":
                waiting.append(job)
                continue
            if word == "take":
                server = min(set(range(len(serving) + 1)) - {server for server, _, _ in serving})
            else:
                server, _, begin = ended = next(service for service in serving if service[1] == job)
                serving.remove(ended)
                found.append((station, server, job, begin, tick))
                if not waiting:
                    continue
                job = waiting.pop(0)
            serving.append((server, job, tick))
    return pd.DataFrame(found, columns=["station", "server", "job", "begin", "end"])


# ---- plots, by matplotlib; each draws on `ax`, or on a new one, and answers it

def new_axes(ax):
    if ax is not None:
        return ax
    import matplotlib.pyplot as plt
    return plt.subplots(figsize=(9, 3), layout="constrained")[1]


def plot_line(records, station, ax=None, unit="tick"):
    """Draws how many jobs wait at a station over time. `unit` is what a tick is."""
    ax = new_axes(ax)
    line = line_of(records, station)
    ax.step(line.index, line.to_numpy(), where="post", linewidth=0.8)
    ax.set(xlabel=f"time in {unit}s", ylabel=f"jobs that wait at {station}", xlim=(0, None), ylim=(0, None))
    return ax


def plot_means(table, object, what, level=0.95, ax=None):
    """Draws the mean of a measure at an object with its half-width as an error bar: of one table, or of several.

    `table` is a table, or a dict of tables by their labels, as {"2 desks": .., "3 desks": ..}. `what` is one of `MEASURES`.
    The small dots are the replications.
    """
    ax = new_axes(ax)
    tables = table if isinstance(table, dict) else {object: table}
    for place, one in enumerate(tables.values()):
        values = measures(one)[what].xs(object, level="object").dropna()
        spread = [place - 0.12 + 0.24 * k / max(len(values) - 1, 1) for k in range(len(values))]
        ax.plot(spread, values, ".", color="0.75", markersize=3, zorder=1)
        ax.errorbar(place, values.mean(), half_width(values.std(ddof=1), len(values), level), fmt="o", color="tab:blue", capsize=6, zorder=2)
    ax.set_xticks(range(len(tables)), [str(label) for label in tables])
    ax.set(ylabel=f"{what} at {object}", xlim=(-0.5, len(tables) - 0.5), ylim=(0, None))
    ax.set_title(f"means with {100 * level:g} % confidence, and each replication", fontsize="small")
    return ax


def gantt(records, stations, ax=None, unit="tick"):
    """Draws who is served when: a row for each server of the stations, a bar for each service, with the job's number.

    Numbers are left out where there are more than 60 services. `unit` is what a tick is.
    """
    ax = new_axes(ax)
    found = services(records, stations)
    rows = sorted(set(zip(found.station, found.server)), key=lambda row: (list(stations).index(row[0]), row[1]))
    several = {station for station, server in rows if server > 0}
    for station, server, job, begin, end in found.itertuples(index=False):
        row = rows.index((station, server))
        ax.barh(row, end - begin, left=begin, height=0.8, color=f"C{job % 10}", edgecolor="white", linewidth=0.5)
        if len(found) <= 60:
            ax.text((begin + end) / 2, row, str(job), ha="center", va="center", fontsize="x-small")
    ax.set_yticks(range(len(rows)), [f"{station} {server + 1}" if station in several else station for station, server in rows])
    ax.invert_yaxis()
    ax.set(xlabel=f"time in {unit}s", xlim=(0, None))
    return ax


# ---- as a program

def told(found):
    """A summary as a table for people: without rows where nothing happened."""
    found = found[found.drop(columns="replications").fillna(0).ne(0).any(axis=1)]
    lines = found.to_string(float_format=lambda number: f"{number:.5g}").splitlines()
    return "\n".join(line.rstrip() for line in lines)


def main():
    parser = argparse.ArgumentParser(description="Prints the means of a table of replicate, which is read from standard input.")
    parser.add_argument("command", choices=["summary"])
    parser.add_argument("--level", type=float, default=0.95, help="the confidence of the half-widths")
    given = parser.parse_args()
    table = read_table(sys.stdin)
    print(told(summary(table, given.level)))
    early = (table.groupby("seed").stop.first() != "end").sum()
    if early:
        print(f"{early} of {table.seed.nunique()} replications stopped before their end")


if __name__ == "__main__":
    main()
