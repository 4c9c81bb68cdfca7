#!/usr/bin/env bash
# How far `dcop_search` comes on thirteen problems that DPOP refuses or leaves open, beside the same method in plain Rust and,
# where the machine has it, toulbar2; and which of its goals it meets.
#
# usage: bench/search.sh [PROGRAM]
# PROGRAM is the built program `dcop_search`, without it that of crates/dcop_search/out; `rustc` builds the plain one from
# bench/search/. The problems are those of bench/search_problems.py, made from numbers. Each program has 120 s for each, ours no
# more than 1 GB of memory, and its usual `--budget` and `--cells`. Seconds are of the processor, for other work may run beside; of
# runs below 0.2 s the least of three. The cost that is printed is added up anew from the file, lies between the bounds, and
# where two programs have solved a problem they have the same best sum.
# Prints a line for each problem; then how long a node and a cell of a bound table take in both programs, by two budgets of the
# problem that is not solved: with 400 nodes nearly all of the time goes to the bounds of three stages, and the further nodes of
# the other budget take the difference. So these two compare programs with the same stages, groups and order. At the end a line
# for each goal, and how many are met. Ends with status 1 where one is not.
set -eu
. "$(dirname "$0")/common.sh"
program=$(realpath -m "${1:-$top/crates/dcop_search/out/dcop_search}")
[ -x "$program" ] || { echo "there is no program $program; 'rt run' in crates/dcop_search builds it"; exit 1; }
rustc -O --edition 2024 -o "$folder/plain" "$top/bench/search/plain.rs"
export PYTHONPATH="$PYTHONPATH:$top/front"
"$top/front/python.sh" "$top/bench/search_measured.py" "$program" "$folder/plain" "$folder"
