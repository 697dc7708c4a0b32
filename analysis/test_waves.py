"""Tests of `examples/vcd.awk`, on the built program and the circuits of the examples. Run them by `pytest analysis`."""
import pathlib
import subprocess
import tomllib

import pytest

import test_btb_tables as shared

EXAMPLES = shared.EXAMPLES
CIRCUITS = ["adder", "counter", "full-adder", "latch"]
VALUES = {"buf": all, "not": lambda pins: not pins[0], "and": all, "or": any, "xor": lambda pins: sum(pins) % 2,
          "nand": lambda pins: not all(pins), "nor": lambda pins: not any(pins)}

pytestmark = pytest.mark.skipif(not shared.built("btb"), reason="btb isn't built")


def awk(model, records):
    words = ["-v", f"model={model}"] if model else []
    return subprocess.run(["awk", *words, "-f", EXAMPLES / "vcd.awk"], input=records, capture_output=True, text=True, check=False)


def levels(vcd, end):
    """Of each wire its level at the end of each tick from 0 to `end`."""
    names, now, tick, waves = {}, {}, 0, {}

    def fill(until):
        for code, name in names.items():
            waves.setdefault(name, []).extend([now[code]] * (until - tick))

    for line in vcd.splitlines():
        if line.startswith("$var"):
            _, _, _, code, name, _ = line.split()
            names[code], now[code] = name, None
        elif line[0] == "#":
            fill(int(line[1:]))
            tick = int(line[1:])
        elif line[0] in "01":
            now[line[1:]] = int(line[0])
    fill(end + 1)
    return waves


def probed(name, folder):
    """A circuit of the examples in which lines tell of all gates, as a file and as a document."""
    text = (EXAMPLES / f"{name}.toml").read_text().replace("probe = false", "probe = true")
    model = folder / "model.toml"
    model.write_text(text)
    return model, tomllib.loads(text)


@pytest.mark.parametrize("name", CIRCUITS)
def test_with_the_model_a_wire_follows_the_wires_that_feed_its_gate_by_its_delay(name, tmp_path):
    model, document = probed(name, tmp_path)
    end = document["end"]
    waves = levels(awk(model, shared.tables.run("btb", ["one"], model)).stdout, end)
    compared = 0
    for gate in document["gate"]:
        if gate["kind"] == "input":
            continue
        late = gate.get("delay", 1)
        still = [0] * (end + 1)
        wave, pins = waves.get(gate["name"], still), [waves.get(pin, still) for pin in gate["from"]]
        for tick in range(1, end + 1 - late):
            if gate["kind"] != "dff":
                expected = VALUES[gate["kind"]]([pin[tick] for pin in pins])
            elif pins[1][tick - 1] < pins[1][tick]:
                expected = pins[0][tick]
            else:
                expected = wave[tick + late - 1]
            assert wave[tick + late] == expected, (gate["name"], tick)
            compared += 1
    assert compared > 100


@pytest.mark.parametrize("name", CIRCUITS)
def test_without_the_model_a_wire_turns_when_its_record_says(name):
    text = shared.tables.run("btb", ["one"], EXAMPLES / f"{name}.toml")
    end = int(text.splitlines()[-1].split()[1])
    waves = levels(awk(None, text).stdout, end)
    last = {}
    for line in text.splitlines()[:-1]:
        stamp, gate, _, level, _ = line.split()
        last[gate, int(stamp.split(".")[0])] = int(level)
    assert set(waves) == {gate for gate, _ in last}
    for gate, wave in waves.items():
        level = 0
        for tick in range(end + 1):
            level = last.get((gate, tick), level)
            assert wave[tick] == level, (gate, tick)


def test_a_model_in_another_form_is_told(tmp_path):
    model = tmp_path / "model.toml"
    model.write_text('gate = [ { name = "X0", kind = "input" } ]\n')
    done = awk(model, "50.0 X0 level 1 0\nend 60 events 1\n")
    assert (done.returncode, done.stdout) == (1, "")
    assert "has no gate X0" in done.stderr
    assert "can't read" in awk(pathlib.Path("no-such.toml"), "").stderr
