#!/usr/bin/env bash
# How long `drill` takes, beside `solve` on the same problem as text.
#
# usage: bench/drill.sh PROGRAM
# PROGRAM is the built program `dcop`. The problem has 1,000 variables of size 16 in a tree, with cells
# up to 1,000,000; `drill` makes it from the number 0, and a few lines of Python write the same one as
# text for `solve`. Both solve it by DPOP and must find the same cost. Prints the best of five runs of
# each whole command, and the ratio of their times: above 1 the drill is faster than reading the text
# and solving it. Then how long making the problem and reading the text take alone, by the plain method,
# which refuses so many assignments: making is to take at most a tenth of the drill.
set -eu
program=${1:?usage: bench/drill.sh PROGRAM}
. "$(dirname "$0")/common.sh"
python3 - "$program" "$folder" <<'PY'
import os, sys
from timing import best
program, folder = sys.argv[1:]
count, size, top = 1000, 16, 1000000
def words(state):
    mask = (1 << 64) - 1
    while True:
        state = (state + 0x9E3779B97F4A7C15) & mask
        z = state
        z = ((z ^ (z >> 30)) * 0xBF58476D1CE4E5B9) & mask
        z = ((z ^ (z >> 27)) * 0x94D049BB133111EB) & mask
        yield z ^ (z >> 31)
stream = words(0)
with open(f"{folder}/problem", "w") as out:
    out.write("dcop 1\n")
    for i in range(count):
        out.write(f"var v{i} {size}\n")
    for i in range(1, count):
        partner = next(stream) % i
        cells = " ".join(str(next(stream) % (top + 1)) for _ in range(size * size))
        out.write(f"table v{partner} v{i} : {cells}\n")
    out.write("end\n")
def run(options, path):
    took, peak, out = best([program] + options, path)
    return took, peak, out.decode()
def costs(answer):
    return [line for line in answer.split("\n") if line.split(" ")[0] in ("status", "cost", "lower", "upper")]
numbers = ["--vars", str(count), "--size", str(size), "--degree", "1", "--top", str(top)]
drill, drill_memory, summary = run(["drill", *numbers, "--method", "dpop"], os.devnull)
solve, solve_memory, report = run(["solve", "--method", "dpop"], f"{folder}/problem")
making, _, _ = best([program, "drill", *numbers, "--method", "plain"], os.devnull, status=11)
reading, _, _ = best([program, "solve", "--method", "plain"], f"{folder}/problem", status=11)
assert costs(summary) == costs(report) and summary.startswith("status solved\n"), (summary[:200], report[:200])
megabytes = os.path.getsize(f"{folder}/problem") / 1e6
print(f"drill {drill:.4f} s with {drill_memory:.0f} MB, solve {solve:.4f} s with {solve_memory:.0f} MB on {megabytes:.1f} MB of text, ratio {solve / drill:.2f}")
print(f"making the problem alone {making:.4f} s, {making / drill:.2f} of the drill; reading the text alone {reading:.4f} s, {reading / solve:.2f} of solving it")
PY
