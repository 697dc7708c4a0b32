# Compares the sums of the adder with arithmetic, at the end of each 50 ticks:
#
#   ./btb one < examples/adder.toml | awk -f examples/adder.awk

# The number whose bits are the levels of these gates, from the lowest on.
function number_of(letter, bits,    bit, number) {
    for (bit = bits - 1; bit >= 0; bit--) number = 2 * number + level[letter bit]
    return number
}

function compare(    x, y, sum) {
    x = number_of("X", 4)
    y = number_of("Y", 4)
    sum = number_of("S", 5)
    print x, "+", y, "=", sum, (x + y == sum ? "right" : "WRONG")
}

$3 == "level" {
    for (; int($1 / 50) > pair; pair++) compare()
    level[$2] = $4
}

END { compare() }
