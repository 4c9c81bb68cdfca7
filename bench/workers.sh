#!/usr/bin/env bash
# How much faster `solve` is with more workers than with 1, how much more memory it takes, and, beside an earlier
# program, how fast it is with 1.
#
# usage: bench/workers.sh PROGRAM [--before PROGRAM] [--runs N] [--budget N] [--agents] [--unproved]
# PROGRAM is the built program `dcop`; the one behind `--before` is an earlier one, which need not look at
# `--workers`. Four files: (a) a tree of 1,000 variables of size 16, each with 31 children, and (b) eight
# ladders of twelve rungs with no table between two of them, of size 64, so that each joined table but the
# first ones has 2^18 cells, both by dpop; (c) 100 variables of size 4 in a binary tree, 30 of them tied to
# their grandparents too, and (d) 1,000 variables of size 4, each tied to three earlier ones, by adopt, which
# comes to no end on (d): it is given the messages that `--budget` tells (300,000), and ends its round.
# Prints the best of N runs (5, where it is not given) of the whole command, the runs with 1, 2, 4 and 64 workers
# in turn, and ratios of times in the same run: one worker's to that of more, above 1 is faster than it; for
# dpop also without the time of reading alone and the search for the tree, and for adopt for each message.
# Stops with status 1 where dpop's bytes differ, or adopt's costs on (c). Workers share (b) alone: one thread plays
# (a), (c) and (d), however many workers there may be (`workers_share` of `agent_links`).
# Then a line for each goal, on four processors. How much faster 4 workers are than 1: 1.0 times on (a) and (c),
# 3.0 on (b), and 1.5 for each message on (d). 64 workers beside 4: 0.9 times on each file, on (d) for each message.
# The memory of 4 workers, and that of 64: at most 1.5 times that of 1, on each file; GNU `time` measures it in three more runs.
#
# With `--agents` first, on (a), (b) and (c), the agents of the method on the tree that was found: how much faster
# one worker runs them than `play_out` of `delivery_turns` plays them, in one process, the best of seven runs of each
# in turn, agents made in the time; 0.9 is wanted. Both must come to the same values by as many messages. The program
# of bench/workers is proved and built in a copy of the repository, where it is one more crate; with `--unproved` it is
# built without proofs.
set -eu
usage="usage: bench/workers.sh PROGRAM [--before PROGRAM] [--runs N] [--budget N] [--agents] [--unproved]"
program=${1:?$usage}
shift
before= runs=5 budget=300000 agents= unproved=
while [ $# -gt 0 ]; do
    case $1 in
        --before) before=${2:?$usage}; shift ;;
        --runs) runs=${2:?$usage}; shift ;;
        --budget) budget=${2:?$usage}; shift ;;
        --agents) agents=yes ;;
        --unproved) unproved=yes ;;
        *) echo "$usage" >&2; exit 2 ;;
    esac
    shift
done
. "$(dirname "$0")/common.sh"
python3 - "$folder" <<'PY'
import random, sys
folder = sys.argv[1]
def write(name, seed, count, size, top, pairs):
    random.seed(seed)
    with open(f"{folder}/{name}", "w") as out:
        out.write("dcop 1\n")
        for i in range(count):
            out.write(f"var v{i} {size}\n")
        for i, j in pairs:
            out.write(f"table v{i} v{j} : {' '.join(str(random.randrange(top)) for _ in range(size * size))}\n")
        out.write("end\n")
write("tree", 11, 1000, 16, 1000, [((i - 1) // 31, i) for i in range(1, 1000)])
rungs = 12
ladder = [(2 * k, 2 * k + 1) for k in range(rungs)] + [(k, k + 2) for k in range(2 * rungs - 2)]
write("ladders", 12, 16 * rungs, 64, 10, [(2 * rungs * l + i, 2 * rungs * l + j) for l in range(8) for i, j in ladder])
random.seed(13)
above = lambda i: (i - 1) // 2
binary = [(above(i), i) for i in range(1, 100)]
ties = [(above(above(i)), i) for i in random.sample(range(3, 100), 30)]
write("adopt", 1, 100, 4, 100, sorted(binary + ties))
random.seed(14)
write("thousand", 2, 1000, 4, 100, [(j, i) for i in range(1, 1000) for j in random.sample(range(i), min(i, 3))])
PY
if [ -n "$agents" ]; then
    copy_crates $(with_those_below delivery_turns agent_links minimised_problem problem_text)
    uses="dcop_base dcop_edge pseudotree adopt_context protocol_steps run_laws worker_laws fifo_links dfs_agent"
    uses="$uses dpop_agent adopt_agent delivery_core delivery_turns agent_cells agent_workers agent_links"
    add_crate workers/program "bench_workers: $uses minimised_problem problem_text"
    make_program bench_workers "$unproved"
    for file in tree ladders adopt; do
        [ "$file" = adopt ] && method=adopt || method=dpop
        "$built" "$method" < "$folder/$file" > "$folder/told"
        awk -v file="$file" '$4 == 1 { printf "one worker against play_out, %s: %d messages, %.4f s and %.4f s, ratio %.2f\n", file, $1, $2 / 1e9, $3 / 1e9, $3 / $2; told = 1 }
            END { exit told != 1 }' "$folder/told"
    done
fi
python3 - "$program" "$before" "$runs" "$folder" "$budget" <<'PY'
import sys
from timing import once, peak, told
program, before, runs, folder, budget = sys.argv[1], sys.argv[2], int(sys.argv[3]), sys.argv[4], sys.argv[5]
COUNTS = (1, 2, 4, 64)
FILES = (("tree", "dpop", "(a) tree of 1000 variables of size 16 with 31 children each, dpop", 1.0),
         ("ladders", "dpop", "(b) eight ladders of 12 rungs of size 64, dpop", 3.0),
         ("adopt", "adopt", "(c) 100 variables of size 4, adopt", 1.0),
         ("thousand", "spent", "(d) 1000 variables of size 4 and degree 3, adopt", 1.5))


def field(out, name):
    return next((int(line.split()[1]) for line in out.splitlines() if line.startswith(name + b" ")), None)


def is_solve(name):
    return name not in ("reading", "search")


def time_all(commands, path, status, first):
    """The best time of each, and the answer of its best run."""
    best = {}
    for _ in range(runs):
        for name, words in commands.items():
            took, ended, _, out = once(words, path)
            if is_solve(name) and (ended != status or not out.startswith(first)):
                sys.exit(f"{' '.join(words)}: status {ended}, {out[:200]!r}")
            best[name] = min((took, out), best.get(name, (took, out)))
    return best


def compare(method, best):
    answers = {name: out for name, (_, out) in best.items() if is_solve(name)}
    first = answers[1]
    for name, out in answers.items():
        same = out == first if method == "dpop" else field(out, b"cost") == field(first, b"cost")
        if not same:
            sys.exit(f"{name}: the answers differ: {out[:200]!r}, {first[:200]!r}")


def tell_runs(what, method, best, memory):
    ahead, one = best["search"][0], best[1][0]
    print(f"{what}:\n  reading alone {best['reading'][0]:.4f} s, reading and the search for the tree {ahead:.4f} s")
    for count in COUNTS:
        took, out = best[count]
        line = f"  {count} workers {took:.4f} s, ratio {one / took:.2f}, memory {memory[count]:.1f} MB"
        if method == "dpop":
            line += f"; without reading and search {took - ahead:.4f} s, ratio {(one - ahead) / max(took - ahead, 1e-9):.2f}"
        else:
            messages = field(out, b"deliveries")
            line += f"; {messages:,} messages, {messages / took:,.0f} a second, ratio {each(best, 1) / each(best, count):.2f}"
        print(line)
    if before:
        took = best["before"][0]
        print(f"  before {took:.4f} s, {memory['before']:.1f} MB: with 1 worker {took / one:.2f} times as fast as it")


def each(best, count):
    """The time for a message."""
    return best[count][0] / field(best[count][1], b"deliveries")


rows = []
for name, method, what, goal in FILES:
    words = ["solve", "--method", "dpop"] if method == "dpop" else ["solve", "--method", "adopt", "--budget", budget if method == "spent" else "10000000"]
    commands = {count: [program, *words, "--workers", str(count)] for count in COUNTS}
    if before:
        commands["before"] = [before, *words]
    commands["reading"] = [program, "solve", "--method", "plain"]
    commands["search"] = [program, "tree"]
    path = f"{folder}/{name}"
    best = time_all(commands, path, *((1, b"status spent\n") if method == "spent" else (0, b"status solved\n")))
    if method != "spent":
        compare(method, best)
    memory = {name: max(peak(words, path) for _ in range(3)) for name, words in commands.items() if is_solve(name)}
    tell_runs(what, method, best, memory)
    time = (lambda count: each(best, count)) if method == "spent" else (lambda count: best[count][0])
    short = what.split(",")[0].split(" of ")[0] + (" a message" if method == "spent" else "")
    rows.append(told(f"4 workers beside 1, {short}", time(1) / time(4), goal, more=f"{best[4][0]:.4f} and {best[1][0]:.4f} s"))
    rows.append(told(f"64 workers beside 4, {short}", time(4) / time(64), 0.9, more=f"{best[64][0]:.4f} and {best[4][0]:.4f} s"))
    for count in (4, 64):
        more = f"{memory[count]:.1f} and {memory[1]:.1f} MB"
        rows.append(told(f"memory of {count} workers beside 1, {short}", memory[count] / memory[1], 1.5, most=True, more=more))
print("\n".join(rows))
PY
