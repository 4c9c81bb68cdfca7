#!/usr/bin/env bash
# How long an answer of `edit` takes after one edit, beside a fresh solve and the joined cells of the touched agents.
#
# usage: bench/edit.sh PROGRAM [EDITS]
# PROGRAM is the built program `dcop`. On the tree of 1,000 variables of size 16 of bench/dpop.sh it sets a random cell of
# a random table and asks for an answer, EDITS times (1,000), in one session. Each answer must have the cost and the values
# that `solve --method dpop` reports of the edited problem, and `remade` the length of the table's way to the root. The
# commands that are timed take turns, and the best of five runs counts: `solve`, reading alone, a session with one answer,
# one with EDITS more answers and no edit, and one with the edits.
#
# The share of an edit is what the joined tables of its touched agents have of the cells of all joined tables. The bound of
# an answer is twice its share of a fresh solve without its reading, and the time of an answer that remakes nothing, which
# picks and prints the values. Goals: at most 1.00 of the bound, and a session with one answer at most 1.20 of a solve.
set -eu
program=${1:?usage: bench/edit.sh PROGRAM [EDITS]}
edits=${2:-1000}
. "$(dirname "$0")/common.sh"
python3 - "$program" "$folder" "$edits" <<'PY'
import random, sys
from timing import once
program, folder, edits = sys.argv[1], sys.argv[2], int(sys.argv[3])
COUNT, SIZE = 1000, 16
random.seed(11)
parents = [None] + [random.randrange(max(0, i - 9), i) for i in range(1, COUNT)]
tables = [[random.randrange(1000) for _ in range(SIZE * SIZE)] for _ in range(1, COUNT)]
variables = "dcop 1\n" + "".join(f"var v{i} {SIZE}\n" for i in range(COUNT))


def problem():
    rows = (f"table v{parents[k + 1]} v{k + 1} : {' '.join(map(str, cells))}\n" for k, cells in enumerate(tables))
    return variables + "".join(rows) + "end\n"


def write(name, text):
    with open(f"{folder}/{name}", "w") as out:
        out.write(text)
    return f"{folder}/{name}"


def way(table):
    """The agents that an edit of a table touches: the table's lower variable, and those above it."""
    at, agents = table + 1, []
    while at is not None:
        agents.append(at)
        at = parents[at]
    return agents


def joined(agent):
    return SIZE if parents[agent] is None else SIZE * SIZE


text = problem()
choices = [(random.randrange(COUNT - 1), random.randrange(SIZE * SIZE), random.randrange(1000)) for _ in range(edits)]
lines = "".join(f"set {k} {cell} {cost}\nanswer\n" for k, cell, cost in choices)
one, same = "answer\n", "answer\n" * edits
fresh = write("problem", text)
timed = {"solve": (["solve", "--method", "dpop"], fresh, 0), "read": (["solve", "--method", "plain"], fresh, 11),
         "open": (["edit"], write("open", text + one + "end\n"), 0),
         "again": (["edit"], write("again", text + one + same + "end\n"), 0),
         "edits": (["edit"], write("edits", text + one + lines + "end\n"), 0)}
times, peaks, told = {}, {}, {}
for _ in range(5):
    for name, (words, path, wanted) in timed.items():
        took, status, peak, told[name] = once([program, *words], path)
        assert status == wanted, (name, status, told[name][:200])
        times[name], peaks[name] = min(took, times.get(name, took)), max(peak, peaks.get(name, peak))

answers = told["edits"].decode().split("answer ")[2:]
assert len(answers) == edits
total = sum(map(joined, range(COUNT)))
share, solves = 0.0, 0.0
for number, ((table, cell, cost), answer) in enumerate(zip(choices, answers), start=2):
    tables[table][cell] = cost
    agents = way(table)
    share += sum(map(joined, agents)) / total
    took, status, _, report = once([program, "solve", "--method", "dpop"], write("edited", problem()))
    solves += took
    rows = [line for line in report.decode().splitlines() if line.split()[0] in ("cost", "value")]
    expected = [str(number), f"remade {len(agents)}", *rows]
    assert status == 0 and answer.split("\nend\n")[0].splitlines() == expected, (number, answer[:200], expected[:3])

share /= edits
answer = (times["edits"] - times["open"]) / edits
printing = (times["again"] - times["open"]) / edits
solve = times["solve"] - times["read"]
bound = 2 * share * solve + printing
print(f"fresh solve {times['solve']:.4f} s, without its reading {solve:.4f} s; {edits} fresh solves {solves:.1f} s")
print(f"session with one answer {times['open']:.4f} s, {times['open'] / times['solve']:.2f} of a solve; memory {peaks['open']:.0f} and {peaks['solve']:.0f} MB")
print(f"session with {edits} edits and answers {times['edits']:.4f} s, {times['edits'] / solves:.5f} of the fresh solves; memory {peaks['edits']:.0f} MB")
print(f"an answer after one edit {answer * 1e6:.1f} us, of which an answer that remakes nothing takes {printing * 1e6:.1f} us; share of the cells {share:.5f}")
print(f"beside its bound {answer / bound:.2f}")
PY
