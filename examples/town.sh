#!/usr/bin/env bash
# Prints examples/town.dcop: wireless stations on the 144 squares of a town map, with four channels each.
#
# usage: examples/town.sh
# The same text on each machine: the noise of each channel comes from a generator that is written out here.
set -u

rows=(a b c d e f g h i j k l)
columns=12
state=1

# Draws the next noise, 0 to 9: the digits come from the generator of the C standard's example of `rand`.
draw() {
    state=$(((state * 1103515245 + 12345) % 2147483648))
    noise=$((state / 65536 % 10))
}

# What two stations on neighbouring squares cost each other, by their channels: 9 on one channel, 3 on adjacent ones.
near="9 3 0 0 3 9 3 0 0 3 9 3 0 0 3 9"

cat <<'TEXT'
# A town map has twelve rows, a to l, of twelve squares. A wireless station stands on each square, here those of a and b:
#
#     a1  a2  a3  a4  a5  a6  a7  a8  a9  a10 a11 a12
#     b1  b2  b3  b4  b5  b6  b7  b8  b9  b10 b11 b12
#
# Each station takes one of four channels. A table of one station says how much noise it hears on each channel. A table of
# two neighbours says how much they disturb each other: 9 on one channel, 3 on adjacent channels. The least sum is sought.
# Made by examples/town.sh.
dcop 2
TEXT

for row in "${rows[@]}"; do
    for ((column = 1; column <= columns; column++)); do
        echo "var $row$column : c1 c2 c3 c4"
    done
done

for row in "${rows[@]}"; do
    for ((column = 1; column <= columns; column++)); do
        line="table $row$column :"
        for _ in c1 c2 c3 c4; do
            draw
            line+=" $noise"
        done
        echo "$line"
    done
done

for ((row = 0; row < ${#rows[@]}; row++)); do
    for ((column = 1; column <= columns; column++)); do
        here=${rows[row]}$column
        if ((column < columns)); then echo "table $here ${rows[row]}$((column + 1)) : $near"; fi
        if ((row + 1 < ${#rows[@]})); then echo "table $here ${rows[row + 1]}$column : $near"; fi
    done
done
echo end
