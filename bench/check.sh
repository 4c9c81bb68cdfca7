#!/usr/bin/env bash
# How long `check` takes on a certified report, beside `solve --method dpop` on the problem alone.
#
# usage: bench/check.sh PROGRAM
# PROGRAM is the built program `dcop`. The problem is the tree of 1,000 variables of size 16 of
# bench/dpop.sh. `check` reads it, followed by the report that `solve --method dpop --certificate yes`
# prints, and must answer `status yes`. Prints the best of five runs of each whole command and the
# ratio of the two times; it is to be at most 2.
set -eu
program=${1:?usage: bench/check.sh PROGRAM}
. "$(dirname "$0")/common.sh"
python3 - "$program" "$folder" <<'PY'
import os, random, sys
from timing import best
program, folder = sys.argv[1:]
random.seed(11)
count, size = 1000, 16
pairs = [(random.randrange(max(0, i - 9), i), i) for i in range(1, count)]
with open(f"{folder}/tree", "w") as out:
    out.write("dcop 1\n")
    for i in range(count):
        out.write(f"var v{i} {size}\n")
    for i, j in pairs:
        cells = " ".join(str(random.randrange(1000)) for _ in range(size * size))
        out.write(f"table v{i} v{j} : {cells}\n")
    out.write("end\n")
def run(words, path):
    return best([program] + words, path)
def must_begin(what, answer, start):
    if not answer.startswith(start):
        sys.exit(f"{what}: the answer begins with {answer[:100]!r}")
solve, solve_memory, report = run(["solve", "--method", "dpop"], f"{folder}/tree")
must_begin("solve", report, b"status solved\n")
certify, _, certified = run(["solve", "--method", "dpop", "--certificate", "yes"], f"{folder}/tree")
must_begin("solve with a certificate", certified, b"status solved\n")
with open(f"{folder}/tree", "rb") as problem, open(f"{folder}/both", "wb") as both:
    both.write(problem.read() + certified)
check, check_memory, answer = run(["check"], f"{folder}/both")
must_begin("check", answer, b"status yes\n")
sizes = [os.path.getsize(f"{folder}/{name}") / 1e6 for name in ("tree", "both")]
print(f"tree of {count:,} variables of size {size}: {sizes[0]:.2f} MB; with a certified report {sizes[1]:.2f} MB")
print(f"  check {check:.4f} s, solve {solve:.4f} s, ratio {check / solve:.2f}; with a certificate solve {certify:.4f} s")
print(f"  at most {check_memory:.0f} and {solve_memory:.0f} MB of memory")
PY
