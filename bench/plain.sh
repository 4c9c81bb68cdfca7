#!/usr/bin/env bash
# How long the plain method takes on 65,536 assignments, the most that it tries.
#
# usage: bench/plain.sh PROGRAM
# PROGRAM is the built program `dcop`. Eight variables of size 4 with a table on each pair. Prints the
# best of five runs.
set -eu
program=${1:?usage: bench/plain.sh PROGRAM}
. "$(dirname "$0")/common.sh"
file="$folder/problem"
python3 - "$file" <<'PY'
import itertools, random, sys
random.seed(7)
with open(sys.argv[1], "w") as out:
    out.write("dcop 1\n")
    for i in range(8):
        out.write(f"var v{i} 4\n")
    for i, j in itertools.combinations(range(8), 2):
        out.write(f"table v{i} v{j} : " + " ".join(str(random.randrange(1000)) for _ in range(16)) + "\n")
    out.write("end\n")
PY
python3 - "$program" "$file" <<'PY'
import sys
from timing import best
program, path = sys.argv[1:]
took, _, _ = best([program, "solve", "--method", "plain"], path)
print(f"65536 assignments of 28 tables in {took:.3f} s")
PY
