#!/usr/bin/env bash
# How fast problem text is read: a canonical text of 2^22 cells, the most that a problem may have.
#
# usage: bench/parse.sh PROGRAM
# PROGRAM is the built program `dcop`. The text has more assignments than the plain method tries, so
# the program reads it whole, refuses, and does nothing else. Prints the best of five runs.
set -eu
program=${1:?usage: bench/parse.sh PROGRAM}
. "$(dirname "$0")/common.sh"
file="$folder/problem"
python3 - "$file" <<'PY'
import random, sys
random.seed(7)
with open(sys.argv[1], "w") as out:
    out.write("dcop 1\nvar x 1024\nvar y 1024\n")
    for _ in range(4):
        out.write("table x y : " + " ".join(str(random.randrange(1000000)) for _ in range(1 << 20)) + "\n")
    out.write("end\n")
PY
python3 - "$program" "$file" <<'PY'
import os, sys
from timing import best
program, path = sys.argv[1:]
size = os.path.getsize(path) / 1e6
took, peak, _ = best([program, "solve", "--method", "plain"], path, status=11)
print(f"{size:.1f} MB in {took:.3f} s: {size / took:.1f} MB/s, at most {peak:.0f} MB of memory")
PY
