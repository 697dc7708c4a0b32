# Draws the load of a traced station over time: a line for each piece of time, with an '#' for each busy server and a '.'
# for each job that waits, as the last event of the piece leaves them.
#
#   ./btb one < examples/traced.toml | awk -v station=counter -v every=60 -f examples/load.awk

$2 == station && $3 == "load" {
    while (int($1) >= from + every) { draw(); from += every }
    busy = $4
    waiting = $5
}

END { if (NR > 0) draw() }

function draw(    bar, k) {
    bar = ""
    for (k = 0; k < busy; k++) bar = bar "#"
    for (k = 0; k < waiting; k++) bar = bar "."
    printf "%6d %s\n", from, bar
}
