# Makes a VCD file (IEEE 1364), which GTKWave and other viewers of waves read, of the records of a circuit:
#
#   ./btb run < examples/counter.toml | awk -f examples/vcd.awk > counter.vcd
#   ./btb run < examples/counter.toml | awk -v model=examples/counter.toml -f examples/vcd.awk > counter.vcd
#
# Each gate that a line tells of is one wire, 0 at first. The steps of a tick stand at one time, in their order.
#
# A record tells when a gate computes its output, and the gates that it feeds take that 'delay' ticks later. The first line
# shows the outputs as they are computed. The second one shows them as they are taken, each later by its gate's delay, as
# wires in Verilog do; what is taken after the last tick is left out. It reads the delays from the model, which has to be
# written as the examples are: a header '[[gate]]', and each field in a line of its own.

BEGIN {
    wires = queues = last = 0
    if (model != "") read_delays()
}

# Fills delay_of: an input has 0, and another gate 1 where nothing is said.
function read_delays(    line, field, gates, name, kind, delay, got, i) {
    while ((got = (getline line < model)) > 0) {
        sub(/#.*/, "", line)
        gsub(/[ \t\r"]/, "", line)
        if (line == "[[gate]]") { gates++; delay[gates] = 1 }
        field = line
        sub(/=.*/, "", field)
        sub(/^[^=]*=/, "", line)
        if (field == "name") name[gates] = line
        if (field == "kind") kind[gates] = line
        if (field == "delay") { gsub(/_/, "", line); delay[gates] = line }
    }
    if (got < 0) give_up("can't read " model)
    for (i = 1; i <= gates; i++) delay_of[name[i]] = kind[i] == "input" ? 0 : delay[i]
}

function give_up(why) {
    print "vcd.awk: " why > "/dev/stderr"
    failed = 1
    exit 1
}

# The code of a wire: the printable characters are the digits.
function code_of(number,    code) {
    code = sprintf("%c", 33 + number % 94)
    while (number >= 94) {
        number = int(number / 94) - 1
        code = code sprintf("%c", 33 + number % 94)
    }
    return code
}

# Changes of one delay come in the order of their ticks, so each delay has a queue of its own.
function append(delay, tick, change) {
    if (!(delay in length_of)) { queue[queues++] = delay; first[delay] = 0 }
    tick_of[delay, length_of[delay] + 0] = tick
    change_of[delay, length_of[delay]++] = change
}

# The delay whose queue has the earliest change, or "" where all are empty.
function earliest(    i, delay, best) {
    best = ""
    for (i = 0; i < queues; i++) {
        delay = queue[i]
        if (first[delay] < length_of[delay] && (best == "" || tick_of[delay, first[delay]] < tick_of[best, first[best]])) best = delay
    }
    return best
}

$3 == "level" {
    if (model != "" && !($2 in delay_of)) give_up(model " has no gate " $2 " in the form that is read here")
    if (!($2 in code)) {
        code[$2] = code_of(wires)
        wire[wires++] = $2
    }
    last = int($1)
    append(delay_of[$2] + 0, last + delay_of[$2], $4 code[$2])
}

$1 == "end" { last = $2; ended = 1 }

END {
    if (failed) exit 1
    print "$timescale 1 ns $end"
    print "$scope module circuit $end"
    for (i = 0; i < wires; i++) print "$var wire 1", code[wire[i]], wire[i], "$end"
    print "$upscope $end"
    print "$enddefinitions $end"
    print "#0"
    print "$dumpvars"
    for (i = 0; i < wires; i++) print 0 code[wire[i]]
    print "$end"
    now = 0
    for (delay = earliest(); delay != ""; delay = earliest()) {
        tick = tick_of[delay, first[delay]]
        if (tick > last) break
        if (tick != now) printf "#%.0f\n", tick
        now = tick
        print change_of[delay, first[delay]++]
    }
    if (ended && last != now) printf "#%.0f\n", last
}
