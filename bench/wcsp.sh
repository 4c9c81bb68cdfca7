#!/usr/bin/env bash
# How fast WCSP text is read, beside problem text with the same tables, and how long the whole command takes on WCSP
# files, beside toulbar2 on the same file where the machine has it.
#
# usage: bench/wcsp.sh PROGRAM
# PROGRAM is the built program `dcop`. The texts that are read have more assignments than the plain method tries, so the
# program reads them whole, refuses, and does nothing else. One WCSP text has about 28 MB, and there is a problem text with
# its tables, and one of about 28 MB too. The runs of the three take turns; prints the best of five runs of each. To be
# solved are the tree and the ladder of bench/dpop.sh; both programs must find the same optimum.
set -eu
program=${1:?usage: bench/wcsp.sh PROGRAM}
. "$(dirname "$0")/common.sh"
python3 - "$folder" <<'PY'
import random, sys
folder = sys.argv[1]
def write_both(name, count, size, tables):
    top = sum(max(cells) for _, _, cells in tables) + 1
    with open(f"{folder}/{name}.wcsp", "w") as out:
        out.write(f"{name} {count} {size} {len(tables)} {top}\n{' '.join([str(size)] * count)}\n")
        for i, j, cells in tables:
            out.write(f"2 {i} {j} 0 {len(cells)}\n")
            out.write("".join(f"{place // size} {place % size} {cell}\n" for place, cell in enumerate(cells)))
    with open(f"{folder}/{name}.dcop", "w") as out:
        out.write("dcop 2\n" + "".join(f"var v{i} {size}\n" for i in range(count)))
        for i, j, cells in tables:
            out.write(f"table v{i} v{j} : {' '.join(map(str, cells))}\n")
        out.write("end\n")
random.seed(7)
write_both("read", 2, 696, [(0, 1, [random.randrange(1000000) for _ in range(696 * 696)]) for _ in range(4)])
write_both("most", 2, 1024, [(0, 1, [random.randrange(1000000) for _ in range(1024 * 1024)]) for _ in range(4)])
random.seed(11)
def write_pairs(name, count, size, pairs):
    write_both(name, count, size, [(i, j, [random.randrange(1000) for _ in range(size * size)]) for i, j in pairs])
write_pairs("tree", 1000, 16, [(random.randrange(max(0, i - 9), i), i) for i in range(1, 1000)])
write_pairs("ladder", 200, 12, [(2 * k, 2 * k + 1) for k in range(100)] + [(k, k + 2) for k in range(198)])
PY
python3 - "$program" "$folder" <<'PY'
import os, re, shutil, subprocess, sys, time
from timing import best, once
program, folder = sys.argv[1:]
kinds = {"read.wcsp": "WCSP text", "read.dcop": "problem text, the same tables", "most.dcop": "problem text"}
times, peaks = {}, {}
for _ in range(5):
    for name in kinds:
        words = [program, "solve", "--method", "plain", "--format", name.split(".")[1]]
        took, status, peak, out = once(words, f"{folder}/{name}")
        assert status == 11, (name, status, out)
        times[name] = min(took, times.get(name, took))
        peaks[name] = max(peak, peaks.get(name, peak))
speed = {name: os.path.getsize(f"{folder}/{name}") / 1e6 / took for name, took in times.items()}
for name, what in kinds.items():
    print(f"{what}: {speed[name] * times[name]:.1f} MB in {times[name]:.3f} s: {speed[name]:.1f} MB/s, at most {peaks[name]:.0f} MB of memory")
print(f"WCSP text beside problem text of its size: {speed['read.wcsp'] / speed['most.dcop']:.2f}")
for name, what in (("tree", "tree of 1,000 variables of size 16"), ("ladder", "ladder of 100 rungs of size 12")):
    path = f"{folder}/{name}.wcsp"
    took, peak, answer = best([program, "solve", "--method", "dpop", "--format", "wcsp"], path)
    cost = int(re.search(rb"^cost (\d+)$", answer, re.M)[1])
    print(f"{what}: {os.path.getsize(path) / 1e6:.1f} MB, whole command {took:.3f} s and {peak:.0f} MB of memory")
    if shutil.which("toulbar2"):
        spent = []
        for _ in range(3):
            begin = time.perf_counter()
            done = subprocess.run(["toulbar2", path], capture_output=True, timeout=120)
            spent.append(time.perf_counter() - begin)
            optimum = int(re.search(rb"^Optimum: (\d+) ", done.stdout, re.M)[1])
            assert optimum == cost, (name, optimum, cost)
        print(f"  toulbar2, the same optimum: {min(spent):.3f} s")
PY
