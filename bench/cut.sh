#!/usr/bin/env bash
# How long `solve --method cut` takes where DPOP is too wide, beside the same turns in plain Rust and, where the
# machine has it, toulbar2.
#
# usage: bench/cut.sh PROGRAM [--runs N] [--few N] [--sharing]
# PROGRAM is the built program `dcop`; `rustc` builds the plain one from bench/cut/plain.rs. The files are
# examples/crowded.dcop and the first 20 problems that `drill` makes from the numbers 0, 1 and so on, with 24
# variables of size 4 and degree 3, in whose tree DPOP is too wide; a few lines of Python write them as text. For
# each of three limits of cells: the best of N runs (3, where it is not given) of each whole command, and the ratio
# of the plain program's time to ours, above 1 we are faster; for the 20 problems the sum of all times. Both programs
# must print the same bytes, and `drill` the same cost. A problem with too many turns at a limit is refused by both,
# and only counted. At the least limit all of this takes minutes: with `--few` only so many of the problems that are
# solved there are run. Goals, for the 20 problems: 0.9 times at 1,048,576 cells, 0.8 at 16,384 and 0.6 at 1,024.
# With `--sharing`, what sharing would save, by the plain program: the joined tables and their cells that are made where from turn
# to turn those are kept whose subtree names no cut variable that has changed, as shares of all, with the least and the
# greatest share of cells of one problem; the least processor time of three runs, with sharing and without; and the
# share of cells where the tables of all turns are kept.
set -eu
usage="usage: bench/cut.sh PROGRAM [--runs N] [--few N] [--sharing]"
program=${1:?$usage}
shift
runs=3 few=20 sharing=
while [ $# -gt 0 ]; do
    case $1 in
        --runs) runs=${2:?$usage}; shift ;;
        --few) few=${2:?$usage}; shift ;;
        --sharing) sharing=yes ;;
        *) echo "$usage" >&2; exit 2 ;;
    esac
    shift
done
. "$(dirname "$0")/common.sh"
rustc -O --edition 2021 -o "$folder/plain" "$top/bench/cut/plain.rs"
python3 - "$program" "$folder" "$top/examples/crowded.dcop" "$runs" "$few" "$sharing" <<'PY'
import os, re, resource, shutil, sys
from timing import best, once, told
program, folder, crowded, sharing = *sys.argv[1:4], sys.argv[6]
most_runs, few = int(sys.argv[4]), int(sys.argv[5])
count, size, degree, top = 24, 4, 3, 100
most_turns, most_cells, goals = 65536, 1048576, {1048576: 0.9, 16384: 0.8, 1024: 0.6}
def words(state):
    mask = (1 << 64) - 1
    while True:
        state = (state + 0x9E3779B97F4A7C15) & mask
        z = state
        z = ((z ^ (z >> 30)) * 0xBF58476D1CE4E5B9) & mask
        z = ((z ^ (z >> 27)) * 0x94D049BB133111EB) & mask
        yield z ^ (z >> 31)
def write_made(seed, path):
    stream = words(seed)
    tables = []
    for i in range(1, count):
        for _ in range(min(i, degree)):
            partner = next(stream) % i
            tables.append((partner, i, [next(stream) % (top + 1) for _ in range(size * size)]))
    with open(path, "w") as out:
        out.write("dcop 1\n" + "".join(f"var v{i} {size}\n" for i in range(count)))
        for i, j, cells in tables:
            out.write(f"table v{i} v{j} : {' '.join(map(str, cells))}\n")
        out.write("end\n")
    with open(f"{path}.wcsp", "w") as out:
        hard = sum(max(cells) for _, _, cells in tables) + 1
        out.write(f"made {count} {size} {len(tables)} {hard}\n{' '.join([str(size)] * count)}\n")
        for i, j, cells in tables:
            out.write(f"2 {i} {j} 0 {len(cells)}\n")
            out.write("".join(f"{place // size} {place % size} {cell}\n" for place, cell in enumerate(cells)))
def asked_of_plain(path, limit, asked):
    return int(once([f"{folder}/plain", str(limit), asked], path)[3])
def cost_in(answer):
    return int(re.search(rb"^cost (\d+)$", answer, re.M)[1])
def timed(path, limit):
    """The times of the two programs, and the answer; None where it is refused."""
    if asked_of_plain(path, limit, "turns") > most_turns:
        ours, plain = (once(words, path) for words in commands(limit))
        assert ours[1] == 11 and ours[3] == plain[3], (path, limit, ours[3], plain[3])
        return None
    (ours, memory, answer), (plain, _, expected) = (best(words, path, runs=most_runs) for words in commands(limit))
    assert answer == expected, (path, limit, answer[:200], expected[:200])
    return ours, plain, memory, answer
def processor_time():
    used = resource.getrusage(resource.RUSAGE_CHILDREN)
    return used.ru_utime + used.ru_stime
def least_spent(words, path):
    """The least processor time of three runs, and what the last one writes."""
    times = []
    for _ in range(3):
        begin = processor_time()
        out = once(words, path)[3]
        times.append(processor_time() - begin)
    return min(times), out
def told_of_sharing(paths, limit):
    """What sharing tables between turns would save on these files."""
    counts, shares, spent, spent_sharing = [0] * 6, [], 0, 0
    for path in paths:
        more = list(map(int, once([f"{folder}/plain", str(limit), "joined"], path)[3].split()))
        counts = [count + other for count, other in zip(counts, more)]
        shares.append(more[3] / more[1])
        took, answer = least_spent([f"{folder}/plain", str(limit)], path)
        took_sharing, same = least_spent([f"{folder}/plain", str(limit), "shared"], path)
        assert answer == same, (path, limit, answer[:200], same[:200])
        spent, spent_sharing = spent + took, spent_sharing + took_sharing
    tables, cells, made_tables, made_cells, _, least_cells = counts
    return (f"    sharing makes {made_cells / cells:.3f} of {cells:,} joined cells, {min(shares):.3f} to {max(shares):.3f}, and "
            f"{made_tables / tables:.3f} of {tables:,} tables, in {spent_sharing:.3f} s in place of {spent:.3f} s of processor time\n"
            f"    with the tables of all turns kept {least_cells / cells:.3f} of these cells are made")
def commands(limit):
    return [program, "solve", "--method", "cut", "--cells", str(limit)], [f"{folder}/plain", str(limit)]
def few_of(limit):
    """The first problems that are solved at a limit, so many as asked for, or all problems."""
    if few >= len(made):
        return list(made.items())
    return [(seed, path) for seed, path in made.items() if asked_of_plain(path, limit, "turns") <= most_turns][:few]
made, seed = {}, 0
while len(made) < 20:
    path = f"{folder}/made{seed}"
    write_made(seed, path)
    if asked_of_plain(path, most_cells, "widest") > most_cells:
        assert once([program, "solve", "--method", "dpop"], path)[1] == 4, seed
        made[seed] = path
    seed += 1
print(f"{os.path.basename(crowded)}:")
for limit in goals:
    ours, plain, memory, answer = timed(crowded, limit)
    turns = asked_of_plain(crowded, limit, "turns")
    print(f"  {limit:,} cells, {turns:,} turns: {ours:.4f} s with {memory:.0f} MB, plain {plain:.4f} s, ratio {plain / ours:.2f}")
    if sharing:
        print(told_of_sharing([crowded], limit))
print(f"{len(made)} problems of drill, {count} variables of size {size} and degree {degree}, up to the number {max(made)}:")
costs = {}
for limit in goals:
    refused = sum(asked_of_plain(path, limit, "turns") > most_turns for path in made.values())
    tried = list(made.items()) if limit > min(goals) else few_of(limit)
    runs = {seed: timed(path, limit) for seed, path in tried}
    done = {seed: run for seed, run in runs.items() if run}
    turns = sum(asked_of_plain(made[seed], limit, "turns") for seed in done)
    ours, plain = (sum(run[at] for run in done.values()) for at in (0, 1))
    for seed, run in done.items():
        assert costs.setdefault(seed, cost_in(run[3])) == cost_in(run[3]), (seed, limit)
    print(f"  {limit:,} cells: {len(done)} solved in {turns:,} turns, {refused} with too many turns")
    print(f"    {ours:.3f} s with at most {max(run[2] for run in done.values()):.0f} MB, plain {plain:.3f} s, ratio {plain / ours:.2f}")
    more = f"{ours:.2f} and {plain:.2f} s, {turns:,} turns of {len(done)} problems"
    print(told(f"turns of a cut at {limit:,} cells, beside plain Rust", plain / ours, goals[limit], more=more), flush=True)
    if sharing:
        print(told_of_sharing([made[seed] for seed in done], limit))
numbers = ["--vars", str(count), "--size", str(size), "--degree", str(degree), "--top", str(top)]
for seed, cost in costs.items():
    _, status, _, summary = once([program, "drill", "--seed", str(seed), *numbers, "--method", "cut"], os.devnull)
    assert status == 0 and cost_in(summary) == cost, (seed, cost, summary)
if shutil.which("toulbar2"):
    spent = 0
    for seed, path in made.items():
        took, _, _, told = once(["toulbar2", f"{path}.wcsp"], os.devnull)
        assert int(re.search(rb"^Optimum: (\d+) ", told, re.M)[1]) == costs[seed], (seed, costs[seed], told[-200:])
        spent += took
    print(f"  toulbar2 on the same problems as wcsp, with the same optima: {spent:.3f} s")
PY
