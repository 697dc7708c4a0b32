"""Tests of `btb_tables`, on the built programs and the examples. Run them by `pytest analysis`.

Expected figures are computed from single records or by scipy's own tests and intervals, or come from queueing theory.
"""
import collections
import io
import os
import pathlib
import re
import shlex
import subprocess
import sys

import pytest

pd = pytest.importorskip("pandas")
stats = pytest.importorskip("scipy.stats")
matplotlib = pytest.importorskip("matplotlib")
matplotlib.use("Agg")
sys.path.insert(0, str(pathlib.Path(__file__).resolve().parent))
import btb_tables as tables

EXAMPLES = tables.TOP / "examples"
BANK = (EXAMPLES / "bank.toml").read_text()
SEEDS = range(1, 9)


def built(program):
    variable, path = tables.PROGRAMS[program]
    return pathlib.Path(shlex.split(os.environ.get(variable, str(path)))[0]).exists()


pytestmark = pytest.mark.skipif(not (built("btb") and built("replicate")), reason="btb or replicate isn't built")


def with_seed(text, seed):
    return re.sub(r"(?m)^seed = \d+", f"seed = {seed}", text)


def visits(text, station):
    """(arrival, begin, end) of each visit to a station, by its records, first come first served."""
    waiting, serving, found = collections.deque(), {}, []
    for tick, word, job in records_of(text, station):
        if word == "wait":
            waiting.append((job, tick))
        elif word == "take":
            serving[job] = (tick, tick)
        elif word == "done":
            found.append((*serving.pop(job), tick))
            if waiting:
                job, since = waiting.popleft()
                serving[job] = (since, tick)
    assert not serving and not waiting
    return found


def records_of(text, name):
    """(tick, word, job) of each record of an object, by the program's text alone."""
    found = []
    for line in tables.run("btb", ["one"], text).splitlines():
        parts = line.split()
        if parts[1] == name and len(parts) == 5:
            found.append((int(parts[0].split(".")[0]), parts[2], int(parts[3])))
    return found


@pytest.fixture(scope="module")
def bank():
    return tables.replicate(BANK, len(SEEDS), first=SEEDS[0])


@pytest.fixture(scope="module")
def waits():
    """By seed, the mean wait at the desks of the visits, one by one."""
    found = {}
    for seed in SEEDS:
        times = [begin - arrival for arrival, begin, _ in visits(with_seed(BANK, seed), "desks")]
        found[seed] = sum(times) / len(times)
    return found


# ---- means and half-widths

def test_mean_waits_are_those_of_the_visits(bank, waits):
    values = tables.measures(bank)["mean wait"].xs("desks", level="object")
    assert values.to_dict() == pytest.approx(waits)


def test_half_widths_are_those_of_scipys_interval(bank, waits):
    found = tables.summary(bank).loc[("desks", "mean wait")]
    sample = list(waits.values())
    low, high = stats.t.interval(0.95, len(sample) - 1, loc=stats.tmean(sample), scale=stats.sem(sample))
    assert found["mean"] == pytest.approx((low + high) / 2)
    assert found["half_width"] == pytest.approx((high - low) / 2)
    assert found["deviation"] == pytest.approx(stats.tstd(sample))
    assert (found["least"], found["greatest"], found["replications"]) == pytest.approx((min(sample), max(sample), len(sample)))


def test_another_level_is_another_interval(bank, waits):
    found = tables.summary(bank, level=0.8).loc[("desks", "mean wait"), "half_width"]
    low, high = stats.ttest_1samp(list(waits.values()), 0).confidence_interval(0.8)
    assert found == pytest.approx((high - low) / 2)


def test_the_other_measures_are_those_of_the_visits_too(bank):
    found = tables.measures(bank).loc[(SEEDS[0], "desks")]
    text = with_seed(BANK, SEEDS[0])
    seen, end = visits(text, "desks"), 43200
    lost = sum(word == "lose" for _, word, _ in records_of(text, "desks"))
    assert found["busy servers"] == pytest.approx(sum(done - begin for _, begin, done in seen) / end)
    assert found["mean line"] == pytest.approx(sum(begin - arrival for arrival, begin, _ in seen) / end)
    assert found["throughput"] == pytest.approx(len(seen) / end)
    assert found["share lost"] == pytest.approx(lost / (len(seen) + lost))
    changes = collections.Counter(arrival for arrival, begin, _ in seen if begin > arrival)
    changes.subtract(begin for arrival, begin, _ in seen if begin > arrival)
    line = longest = 0
    for tick in sorted(changes):
        line += changes[tick]
        longest = max(longest, line)
    assert longest <= found["longest line"] <= longest + 1  # one may leave the line in the tick in which another joins it


def test_the_mean_time_is_that_of_single_customers(bank):
    text = with_seed(BANK, SEEDS[0])
    made = {job: tick for tick, word, job in records_of(text, "door")}
    times = [tick - made[job] for tick, word, job in records_of(text, "exit")]
    assert tables.measures(bank).loc[(SEEDS[0], "exit"), "mean time"] == pytest.approx(sum(times) / len(times))


def test_compare_is_scipys_paired_test(bank):
    four = tables.replicate(BANK.replace("servers = 3", "servers = 4"), len(SEEDS), first=SEEDS[0])
    found = tables.compare(bank, four).loc[("desks", "mean wait")]
    first, second = (tables.measures(t)["mean wait"].xs("desks", level="object") for t in (bank, four))
    paired = stats.ttest_rel(second, first)
    low, high = paired.confidence_interval(0.95)
    assert found["difference"] == pytest.approx((low + high) / 2)
    assert found["half_width"] == pytest.approx((high - low) / 2)
    assert found["difference"] / found["half_width"] * stats.t.isf(0.025, len(SEEDS) - 1) == pytest.approx(paired.statistic)
    assert (found["first"], found["second"]) == pytest.approx((first.mean(), second.mean()))


def test_compare_wants_the_same_seeds(bank):
    with pytest.raises(ValueError, match="seeds"):
        tables.compare(bank, tables.replicate(BANK, 2, first=100))


# ---- theory

QUEUE = """format = 1
model = "network"
end = {end}
limit = 1000000000

[[object]]
name = "in"
kind = "source"
first = 0
every = {{ law = "geometric", p = {arrive}, cap = 65536 }}
count = 1000000
next = "queue"

[[object]]
name = "queue"
kind = "station"
servers = {servers}
service = {{ law = "geometric", p = {serve}, cap = 65536 }}
next = "out"

[[object]]
name = "out"
kind = "sink"
"""


def exact_wait(arrive, serve, servers, most=2000):
    """The mean wait in ticks where a job comes with the probability `arrive` and each service ends with `serve` in each tick.

    The jobs there after a tick are a Markov chain: services end first, a binomial number of those under way, and then a job
    may come. Its stationary distribution gives the mean line, and Little's law the mean wait.
    """
    numpy = pytest.importorskip("numpy")
    present = numpy.zeros(most)
    present[0] = 1.0
    leave = [stats.binom.pmf(range(servers + 1), min(n, servers), serve) for n in range(servers + 1)]
    change = numpy.zeros((most, most))
    for n in range(most):
        for left, chance in enumerate(leave[min(n, servers)]):
            if chance > 0:
                change[n, n - left] += chance * (1 - arrive)
                change[n, min(n - left + 1, most - 1)] += chance * arrive
    balance = change.T - numpy.eye(most)
    balance[-1] = 1.0
    stationary = numpy.linalg.solve(balance, numpy.eye(most)[-1])
    return sum(max(n - servers, 0) * share for n, share in enumerate(stationary)) / arrive


def test_the_exact_wait_at_one_server_is_the_known_formula():
    arrive, serve = 1 / 20, 1 / 15
    assert exact_wait(arrive, serve, 1, most=500) == pytest.approx(arrive * (1 - serve) / (serve * (serve - arrive)))


@pytest.mark.parametrize("servers, between, service", [(1, 20, 12), (3, 10, 20)])
def test_waits_agree_with_theory(servers, between, service):
    model = QUEUE.format(end=60_000, arrive=2**32 // between, serve=2**32 // service, servers=servers)
    found = tables.summary(tables.replicate(model, 12, first=1, start=10_000)).loc[("queue", "mean wait")]
    assert abs(found["mean"] - exact_wait(1 / between, 1 / service, servers, most=400)) < found["half_width"]


# ---- tables

def test_objects_and_sums_of_any_kind_are_read():
    head = "seed,object,arrivals,served,lost,busy,waiting,age,longest,ticks,events,stop\n"
    table = tables.read_table(io.StringIO(head + "7,NA,1,1,0,36893488147419103232,0,0,0,10,2,end\n7,007,0,0,0,0,0,0,0,10,2,end\n"))
    assert list(table.object) == ["NA", "007"]
    assert table.busy[0] == 2.0**65


def test_replications_that_stop_early_are_in_the_table():
    assert set(tables.replicate(EXAMPLES / "job-shop.toml", 1).stop) == {"fault"}
    assert set(tables.replicate("limit = 5\n" + BANK, 2).stop) == {"limit"}


def test_the_window_begins_at_start():
    found = tables.replicate(BANK, 1, start=10_000)
    assert set(found.ticks) == {33_200}
    served = sum(tick >= 10_000 for tick, word, _ in records_of(BANK, "desks") if word == "done")
    assert found.set_index("object").served["desks"] == served


def test_a_refused_model_says_why():
    with pytest.raises(tables.Failed, match="model: 5 BadValue item 2.*scripts/explain"):
        tables.replicate(BANK.replace("servers = 3", "servers = 0"), 1)


def test_records_are_the_lines_of_the_text():
    found = tables.records(EXAMPLES / "phold.toml", words=("run", "--cycles"))
    *lines, last = (EXAMPLES / "phold.txt").read_text().splitlines()
    assert found.attrs["last"] == last
    assert [f"{r.tick}.{r.step} {r.object} {r.word} {r.a} {r.b}" for r in found.itertuples()] == lines


# ---- lines, services and plots

def test_the_line_over_time_has_the_sums_of_the_table(bank):
    found = tables.line_of(tables.records(with_seed(BANK, SEEDS[0])), "desks")
    ticks = list(found.index[1:]) + [43200]
    total = sum(line * (until - since) for line, since, until in zip(found, found.index, ticks))
    row = bank.set_index(["seed", "object"]).loc[(SEEDS[0], "desks")]
    assert (total, found.max()) == (row.waiting, row.longest)


def test_services_are_those_of_the_visits_and_servers_serve_one_at_a_time():
    found = tables.services(tables.records(BANK), ["desks"])
    assert sorted(zip(found.begin, found.end)) == sorted((begin, end) for _, begin, end in visits(BANK, "desks"))
    assert set(found.server) == {0, 1, 2}
    for _, one in found.sort_values(["begin", "end"]).groupby("server"):
        assert (one.begin.iloc[1:].to_numpy() >= one.end.iloc[:-1].to_numpy()).all()


def test_plots_have_labels_and_what_was_measured(bank):
    run = tables.records(BANK)
    line = tables.plot_line(run, "desks", unit="second")
    assert (line.get_xlabel(), line.get_ylabel()) == ("time in seconds", "jobs that wait at desks")
    assert max(line.lines[0].get_ydata()) == tables.line_of(run, "desks").max()
    means = tables.plot_means({"one": bank, "two": bank}, "desks", "mean wait")
    (_, low), (_, high) = means.collections[0].get_segments()[0]
    found = tables.summary(bank).loc[("desks", "mean wait")]
    assert (low, high) == pytest.approx((found["mean"] - found["half_width"], found["mean"] + found["half_width"]))
    chart = tables.gantt(run[run.tick < 600], ["desks"])
    assert [label.get_text() for label in chart.get_yticklabels()] == ["desks 1", "desks 2", "desks 3"]
    assert len(chart.patches) == len(tables.services(run[run.tick < 600], ["desks"]))


def test_the_program_prints_the_means(bank):
    given = bank.to_csv(index=False)
    done = subprocess.run([sys.executable, tables.__file__, "summary"], input=given, capture_output=True, text=True, check=True)
    assert "mean wait" in done.stdout and f"{tables.summary(bank).loc[('desks', 'mean wait'), 'half_width']:.5g}" in done.stdout
