#!/usr/bin/env bash
# How long `solve --method dpop` takes, beside a plain DPOP in Rust and, where the machine has it, toulbar2.
#
# usage: bench/dpop.sh PROGRAM
# PROGRAM is the built program `dcop`; `rustc` builds the plain one from bench/dpop/plain.rs. For each
# file: the best of 25 runs, in turn with each other, of the whole command, of reading alone, of the rest, and of what is left
# when the search for the tree is taken off too: the work on tables. A ratio is the plain program's time
# to ours: above 1 we are faster. Both must print the same bytes.
set -eu
program=${1:?usage: bench/dpop.sh PROGRAM}
. "$(dirname "$0")/common.sh"
rustc -O --edition 2021 -o "$folder/plain" "$top/bench/dpop/plain.rs"
python3 - "$folder" <<'PY'
import random, sys
folder = sys.argv[1]
random.seed(11)
def write(name, count, size, pairs):
    tables = [(i, j, [random.randrange(1000) for _ in range(size * size)]) for i, j in pairs]
    with open(f"{folder}/{name}", "w") as out:
        out.write("dcop 1\n")
        for i in range(count):
            out.write(f"var v{i} {size}\n")
        for i, j, cells in tables:
            out.write(f"table v{i} v{j} : {' '.join(map(str, cells))}\n")
        out.write("end\n")
    with open(f"{folder}/{name}.wcsp", "w") as out:
        top = sum(max(cells) for _, _, cells in tables) + 1
        out.write(f"{name} {count} {size} {len(tables)} {top}\n{' '.join([str(size)] * count)}\n")
        for i, j, cells in tables:
            out.write(f"2 {i} {j} 0 {len(cells)}\n")
            for place, cell in enumerate(cells):
                out.write(f"{place // size} {place % size} {cell}\n")
write("tree", 1000, 16, [(random.randrange(max(0, i - 9), i), i) for i in range(1, 1000)])
write("clique", 4, 32, [(i, j) for j in range(4) for i in range(j)])
rungs = [(2 * k, 2 * k + 1) for k in range(100)]
rails = [(k, k + 2) for k in range(198)]
write("ladder", 200, 12, rungs + rails)
PY
python3 - "$program" "$folder" <<'PY'
import shutil, subprocess, sys, time
from timing import best_in_turn
program, folder = sys.argv[1:]
for name, what in (("tree", "tree of 1,000 variables of size 16"), ("clique", "clique of four variables of size 32"),
                   ("ladder", "ladder of 100 rungs of size 12")):
    path = f"{folder}/{name}"
    commands = [([program, "solve", "--method", "dpop"], 0), ([f"{folder}/plain"], 0), ([program, "solve", "--method", "plain"], 11),
                ([f"{folder}/plain", "read"], 0), ([program, "tree"], 0)]
    told = best_in_turn(commands, path)
    (ours, memory, answer), (plain, plain_memory, expected), (reading, _, _), (plain_reading, _, _), (search, _, _) = told
    assert answer == expected, (answer[:200], expected[:200])
    print(f"{what}:")
    print(f"  whole command {ours:.4f} s, plain {plain:.4f} s, ratio {plain / ours:.2f}; memory {memory:.0f} and {plain_memory:.0f} MB")
    print(f"  reading alone {reading:.4f} s, plain {plain_reading:.4f} s, ratio {plain_reading / reading:.2f}")
    print(f"  the rest {ours - reading:.4f} s, plain {plain - plain_reading:.4f} s, ratio {(plain - plain_reading) / (ours - reading):.2f}")
    print(f"  without the search for the tree {ours - search:.4f} s, ratio {(plain - plain_reading) / (ours - search):.2f}")
    if shutil.which("toulbar2"):
        begin = time.perf_counter()
        done = subprocess.run(["toulbar2", f"{path}.wcsp"], capture_output=True, timeout=120)
        print(f"  toulbar2, whole command on the same problem as wcsp: {time.perf_counter() - begin:.3f} s")
PY
