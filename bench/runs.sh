#!/usr/bin/env bash
# Whether any number of workers, or of nodes, changes an answer: many runs of the built program over the examples.
#
# usage: bench/runs.sh PROGRAM [COUNT [NODES]]
# PROGRAM is the built program `dcop`. COUNT runs (2,000, where it is not given) go through each file of
# examples/*.dcop that dpop or adopt solves as given, 2 to 64 workers, and dpop, adopt, and adopt with an error of 3, in turn. With NODES they go through 2 to NODES
# nodes and 1 to 8 workers in place of that, in an order that is the same each time. A run by dpop must end
# with the status and the bytes of the run with one worker. A run by adopt must be solved; its cost must be what its values
# cost by the file's tables, and miss the optimum by at most the error. The optimum is dpop's cost with
# one worker, or, where dpop refuses the file, adopt's. Prints how many runs there were of each kind; stops with
# status 1 at the first one that is wrong, and prints it.
set -eu
program=${1:?usage: bench/runs.sh PROGRAM [COUNT]}
count=${2:-2000}
nodes=${3:-1}
here=$(cd "$(dirname "$0")" && pwd)
python3 - "$program" "$count" "$nodes" "$here"/../examples/*.dcop <<'PY'
import itertools, os, random, subprocess, sys, time
program, count, most, paths = sys.argv[1], int(sys.argv[2]), int(sys.argv[3]), sys.argv[4:]
def solve(path, *words):
    with open(path) as text:
        done = subprocess.run([program, "solve", *words], stdin=text, capture_output=True)
    return done.returncode, done.stdout
class Problem:
    """What a problem text says."""
    def __init__(self, path):
        self.sign, self.values, self.tables = 1, {}, []
        for line in open(path):
            words = line.split("#")[0].split()
            colon = words.index(":") if ":" in words else None
            if words[:1] == ["var"]:
                self.values[words[1]] = words[colon + 1:] if colon else [str(k) for k in range(int(words[2]))]
            elif words[:1] == ["table"]:
                self.tables.append((words[1:colon], [int(word) for word in words[colon + 1:]]))
            elif words[:1] == ["goal"]:
                self.sign = -1 if words[1] == "max" else 1
            elif words and words[0] not in ("dcop", "end"):
                sys.exit(f"{path}: the line is not understood: {line}")
    def sum_at(self, chosen):
        total = 0
        for scope, cells in self.tables:
            place = 0
            for name in scope:
                place = place * len(self.values[name]) + self.values[name].index(chosen[name])
            total += cells[place]
        return total
def answer_of(out):
    lines = [line.split() for line in out.decode().splitlines()]
    chosen = {words[1]: words[2] for words in lines if words[0] == "value"}
    return lines[0][1], next((int(words[1]) for words in lines if words[0] == "cost"), None), chosen
problems = {path: Problem(path) for path in paths}
by_dpop = {path: solve(path, "--method", "dpop") for path in paths}
best = {}
for path, (status, out) in by_dpop.items():
    if status != 0:
        status, out = solve(path, "--method", "adopt")
    word, cost, _ = answer_of(out)
    if status == 0 and word == "solved":
        best[path] = cost
    else:
        print(f"{os.path.basename(path)} is left out, as neither method solves it as given")
paths = list(best)
def fault_of(path, error, status, out):
    if error is None:
        return None if (status, out) == by_dpop[path] else "not the bytes of one worker"
    word, cost, chosen = answer_of(out)
    problem = problems[path]
    if status != 0 or word != "solved":
        return "not solved"
    if cost != problem.sum_at(chosen):
        return f"its values cost {problem.sum_at(chosen)}"
    missed = problem.sign * (cost - best[path])
    return None if 0 <= missed <= error else f"misses the optimum {best[path]} by {missed}"
turns = list(itertools.product((1,), range(2, 65), paths, (None, 0, 3)))
if most > 1:
    turns = list(itertools.product(range(2, most + 1), range(1, 9), paths, (None, 0, 3)))
    random.Random(1).shuffle(turns)
told = {None: 0, 0: 0, 3: 0}
begin = time.perf_counter()
for run in range(count):
    nodes, workers, path, error = turns[run % len(turns)]
    words = ["--method", "dpop"] if error is None else ["--method", "adopt", "--error", str(error)]
    status, out = solve(path, *words, "--workers", str(workers), "--nodes", str(nodes))
    fault = fault_of(path, error, status, out)
    if fault:
        sys.exit(f"run {run + 1}: solve {' '.join(words)} --workers {workers} --nodes {nodes} < {os.path.basename(path)}: {fault}: status {status}, {out[:400]!r}")
    told[error] += 1
print(f"{sum(told.values()):,} runs over {len(paths)} files with {f'2 to {most} nodes and 1 to 8 workers' if most > 1 else '2 to 64 workers'} in {time.perf_counter() - begin:.0f} s: "
      f"{told[None]:,} by dpop, each the bytes of one worker and one node; {told[0]:,} by adopt, each the optimum; "
      f"{told[3]:,} by adopt with error 3, each within it")
PY
