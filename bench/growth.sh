#!/usr/bin/env bash
# How the time of a command grows with its file, beside that of reading the file and writing it again, and the time of ADOPT with its
# messages.
#
# usage: bench/growth.sh PROGRAM [SECONDS] [messages]
# PROGRAM is the built program `dcop`. The files are chains, stars and cliques, and 1,000 variables with many tables of one,
# two and four variables; in each row of files the last number is twice that of the one before. Prints per file the
# processor time of `upgrade`, `tree` and `solve --method dpop`, and in brackets how many times that of `upgrade` it is.
# A command that is not through after SECONDS (5) of a processor is ended, and left out on larger files of its row; the least
# that its time can be stands behind `over`. Where a time is below 0.2 s the least of three runs counts. On a busy machine the
# times vary, and ratios of short ones most. `wide` stands where DPOP refuses the file, as it does with these cliques.
#
# Before that ADOPT on chains, stars and cliques. It is given 200,000 messages, and ends its round, so it may take more; a star is
# solved by fewer. Per file the microseconds a message: the best of nine runs of the whole command, less that of `tree`.
#
# Goals: on files of 100,000 bytes and more `tree` at most 3 times `upgrade`, and `dpop` at most 4 times; and the greatest time of a
# message at most 2 times the least, of the chains, of the stars, and of the cliques. With `messages` only ADOPT is run.
# All of it takes about one and a half minutes of a processor. Stops with status 1 where a command ends with another status
# than wanted. Where the instructions go on one file tells bench/profile.sh.
set -eu
program=${1:?usage: bench/growth.sh PROGRAM [SECONDS] [messages]}
seconds=${2:-5}
only=${3:-}
. "$(dirname "$0")/common.sh"
python3 - "$program" "$folder" "$seconds" "$only" <<'PY'
import os, random, sys
from timing import once, spent, told
program, folder, limit, only = sys.argv[1], sys.argv[2], int(sys.argv[3]), sys.argv[4]
COMMANDS = {"upgrade": (["upgrade"], (0,)), "tree": (["tree"], (0,)), "dpop": (["solve", "--method", "dpop"], (0, 4))}
GOALS = {"tree": 3, "dpop": 4}
LARGE = 100_000
BUDGET = 200_000


def write(version, count, size, scopes):
    """A problem text of so many variables of a size, with a table of costs below 1,000 for each scope."""
    draw = random.Random(11)
    path = f"{folder}/problem"
    with open(path, "w") as out:
        out.write(f"dcop {version}\n" + "".join(f"var v{i} {size}\n" for i in range(count)))
        for scope in scopes:
            cells = [draw.randrange(1000) for _ in range(size ** len(scope))]
            out.write(f"table {' '.join(f'v{i}' for i in scope)} : {' '.join(map(str, cells))}\n")
        out.write("end\n")
    return path


def tree_scopes(count, tables):
    """So many tables over the pairs of a tree, in turn."""
    draw = random.Random(11)
    pairs = [(draw.randrange(max(0, i - 9), i), i) for i in range(1, count)]
    return [pairs[k % len(pairs)] for k in range(tables)]


def pairs_of_clique(count):
    """All pairs of so many variables."""
    return [(i, j) for j in range(count) for i in range(j)]


ROWS = [
    ("chain of {} variables of size 8", (125, 250, 500, 1000), lambda n: (1, n, 8, [(i, i + 1) for i in range(n - 1)])),
    ("star of {} variables of size 8", (125, 250, 500, 1000), lambda n: (1, n, 8, [(0, i) for i in range(1, n)])),
    ("clique of {} variables of size 2", (50, 100, 200), lambda n: (1, n, 2, pairs_of_clique(n))),
    ("1,000 variables of size 16, each with {} tables of one", (5, 10, 20, 40),
     lambda n: (1, 1000, 16, [(i,) for i in range(1000) for _ in range(n)])),
    ("1,000 variables of size 2 in a tree, {} tables of two", (25_000, 50_000, 100_000, 200_000),
     lambda n: (1, 1000, 2, tree_scopes(1000, n))),
    ("1,000 variables of size 2, {} tables of four in a row", (6_250, 12_500, 25_000, 50_000),
     lambda n: (2, 1000, 2, [tuple(range(k % 997, k % 997 + 4)) for k in range(n)])),
]

KINDS = [
    ("chains of 125 to 1,000 variables of size 8", (125, 250, 500, 1000), lambda n: (1, n, 8, [(i, i + 1) for i in range(n - 1)])),
    ("stars of 125 to 1,000 variables of size 8", (125, 250, 500, 1000), lambda n: (1, n, 8, [(0, i) for i in range(1, n)])),
    ("cliques of 25 to 200 variables of size 2", (25, 50, 100, 200), lambda n: (1, n, 2, pairs_of_clique(n))),
]


def shown(name, time, base):
    """A time and its ratio to that of `upgrade`."""
    return f"{name} {time:.3f} s" + ("" if name.startswith("upgrade") else f" ({time / base:.1f})")


def message_time(path):
    """The time of ADOPT for a message, in microseconds, and how many it took."""
    solves, trees, out = [], [], b""
    for _ in range(9):
        took, status, _, out = once([program, "solve", "--method", "adopt", "--budget", str(BUDGET)], path)
        assert status in (0, 1), (path, status, out[:200])
        solves.append(took)
        trees.append(once([program, "tree"], path)[0])
    messages = next(int(line.split()[1]) for line in out.splitlines() if line.startswith(b"deliveries "))
    return (min(solves) - min(trees)) / messages * 1e6, messages


for what, numbers, scopes in KINDS:
    times = []
    for number in numbers:
        took, messages = message_time(write(*scopes(number)))
        times.append(took)
        print(f"{what.split()[0]} of {number:,} variables: {messages:,} messages, {took:.3f} us each", flush=True)
    more = ", ".join(f"{took:.2f}" for took in times) + " us"
    print(told(f"time a message of ADOPT, {what}", max(times) / min(times), 2, most=True, more=more), flush=True)
if only:
    sys.exit()
met = {name: [0, 0] for name in GOALS}
for what, numbers, scopes in ROWS:
    over = set()
    for number in numbers:
        path = write(*scopes(number))
        times, line = {}, []
        for name, (words, wanted) in COMMANDS.items():
            if name in over or "upgrade" in over:
                line.append(f"{name} left out")
                continue
            took, status = spent([program, *words], path, limit)
            if status is None:
                over.add(name)
                times[name] = float("inf")
                line.append(shown(f"{name} over", limit, times["upgrade"]))
                continue
            assert status in wanted, (what, number, words, status)
            if status == 4:
                line.append(f"{name} wide")
                continue
            times[name] = took
            line.append(shown(name, took, times["upgrade"]))
        print(f"{what.format(f'{number:,}')}, {os.path.getsize(path):,} bytes:\n  {', '.join(line)}", flush=True)
        for name, goal in GOALS.items():
            if name in times and "upgrade" not in over and os.path.getsize(path) >= LARGE:
                met[name][0] += times[name] <= goal * times["upgrade"]
                met[name][1] += 1
goals = (f"{name} at most {GOALS[name]} times upgrade on {good} of {count}" for name, (good, count) in met.items())
print(f"goals, files of {LARGE:,} bytes and more that were timed: {', '.join(goals)}")
PY
