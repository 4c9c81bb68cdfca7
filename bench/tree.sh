#!/usr/bin/env bash
# How long `tree` takes: token agents search the depth-first tree of 1,000 variables.
#
# usage: bench/tree.sh PROGRAM
# PROGRAM is the built program `dcop`. One file is a chain, in which a token carries a path of up to 999
# variables; in the other one each variable has 8 neighbours. Prints the best of five runs of each.
set -eu
program=${1:?usage: bench/tree.sh PROGRAM}
. "$(dirname "$0")/common.sh"
python3 - "$folder" <<'PY'
import sys
folder = sys.argv[1]
count = 1000
def write(name, pairs):
    with open(f"{folder}/{name}", "w") as out:
        out.write("dcop 1\n")
        for i in range(count):
            out.write(f"var v{i} 2\n")
        for i, j in pairs:
            out.write(f"table v{i} v{j} : 0 1 2 3\n")
        out.write("end\n")
write("chain", [(i, i + 1) for i in range(count - 1)])
write("eight", [(i, (i + step) % count) for i in range(count) for step in (1, 7, 31, 211)])
PY
python3 - "$program" "$folder" <<'PY'
import sys
from timing import best
program, folder = sys.argv[1:]
for name, what in (("chain", "a chain"), ("eight", "8 neighbours each")):
    took, peak, out = best([program, "tree"], f"{folder}/{name}")
    assert b"\ndeliveries 1998\n" in out, out[:200]
    print(f"1,000 variables, {what}: {took:.3f} s, at most {peak:.0f} MB of memory")
PY
