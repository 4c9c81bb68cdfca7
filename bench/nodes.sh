#!/usr/bin/env bash
# What nodes cost: the same problems with `--nodes` 1, 2, 4 and 8, over sockets on 127.0.0.1.
#
# usage: bench/nodes.sh PROGRAM [--drill | --counts [--unproved]]
# PROGRAM is the built program `dcop`. DPOP solves a tree of 1,000 variables of size 16, and ADOPT 100
# variables of size 3 within an error. Prints for each number of nodes the best of five runs, its ratio to one
# node, and the bytes that went over the loopback device in one run, with the packets that carried them;
# what else uses that device while the script runs is counted too. With DPOP every number of nodes must
# print the same bytes. With one node nothing may go over the device.
# The goal is two nodes in at most 3 times one node's time on the tree. Last, `drill` on 1,000 variables of size 2 and degree 2
# by DPOP, which is too wide there, so this is the search for the tree alone; the goal is eight nodes in at most 4 times one node's
# time. With `--drill` only this is run.
#
# With `--counts`, below each line stands what is seen inside of such a run with one worker, by the program of bench/nodes, which is
# `dcop` with counts and is proved and built in a copy of the repository, where it is one more crate; with `--unproved` it is built
# without proofs:
# - rounds, of the search for the tree and of the method together. They are told by the visits of agents
#   (`Gate`): in a turn each agent that has not ended is visited once, in order, and a round has ended behind
#   32 turns, or where something was sent between nodes. A round that follows another one otherwise is counted
#   with it: in it the agents take nothing, as in the last one of a run that rests, or only what a link had no
#   room for before.
# - exchanges. One follows the start of each of the two runs, and one each round. In one without anything to
#   send the dialer is asked for nothing, so it is known by its number alone. The others are told by the calls
#   of `drive`, one for each two nodes that have something for each other; all calls between two visits are
#   one exchange.
# - the time of an exchange: what all calls of `drive` took, divided by the exchanges with something, in the
#   best of five runs. What it takes to drain and code letters, and to read and feed them, is not in it.
# - the pairs of wires that were dialled: one for each two nodes, and none behind the first visit.
# Stops with status 1 where it is otherwise with the pairs, where the counts of two such runs differ, or where
# their answer is not that of PROGRAM.
set -eu
usage="usage: bench/nodes.sh PROGRAM [--drill | --counts [--unproved]]"
program=${1:?$usage}
option=${2:-} unproved=${3:-}
case $#:$option:$unproved in
    1:: | 2:--drill: | 2:--counts: | 3:--counts:--unproved) ;;
    *) echo "$usage" >&2; exit 2 ;;
esac
. "$(dirname "$0")/common.sh"
counting=
if [ "$option" = --counts ]; then
    copy_crates $(with_those_below solve_top tcp_wire)
    add_crate nodes/program "bench_nodes: dcop_base dcop_edge wire_pump tcp_wire solve_top futures"
    make_program bench_nodes "$unproved"
    counting=$built
fi
python3 - "$program" "$counting" "$folder" "$option" <<'PY'
import os, random, sys
from timing import best, best_in_turn, once, told
program, counting, folder, option = sys.argv[1:]
random.seed(7)

def write(name, count, size, pairs, most):
    with open(f"{folder}/{name}", "w") as out:
        out.write("dcop 1\n")
        for i in range(count):
            out.write(f"var v{i} {size}\n")
        for i, j in pairs:
            cells = (random.randrange(most) for _ in range(size * size))
            out.write(f"table v{i} v{j} : {' '.join(map(str, cells))}\n")
        out.write("end\n")

def carried():
    """The bytes and the packets that the loopback device has sent since it is up."""
    with open("/proc/net/dev") as devices:
        for line in devices:
            name, _, counts = line.partition(":")
            if name.strip() == "lo":
                counts = counts.split()
                return int(counts[8]), int(counts[9])
    return 0, 0

def counts(words, path, nodes, expected):
    """The counts of five runs with one worker, which agree, and the least time of all their calls of `drive`."""
    told, times = [], []
    for _ in range(5):
        _, status, _, out = once([counting, *words, "--workers", "1"], path)
        answer, _, line = out.rstrip(b"\n").rpartition(b"\n")
        pairs, late, drives, took, *seen = map(int, line.split())
        assert status == 0 and answer + b"\n" == expected, (nodes, status, answer[:200], expected[:200])
        assert (pairs, late) == (nodes * (nodes - 1) // 2, 0), (nodes, pairs, late)
        told.append((pairs, drives, *seen))
        times.append(took)
    assert len(set(told)) == 1, (nodes, told)
    return *told[0], min(times)

write("tree", 1000, 16, [(random.randrange(max(0, i - 9), i), i) for i in range(1, 1000)], 1000)
write("hundred", 100, 3, [(i // 2, i) for i in range(1, 100)], 10)
problems = (("tree", ["--method", "dpop"], "tree of 1,000 variables by dpop"),
            ("hundred", ["--method", "adopt", "--error", "50"], "100 variables by adopt"))
for name, words, what in problems if option != "--drill" else ():
    print(f"{what}:")
    alone, expected = None, None
    for nodes in (1, 2, 4, 8):
        asked = ["solve", *words, "--nodes", str(nodes)]
        command = [program, *asked]
        took, peak, answer = best(command, f"{folder}/{name}")
        before = carried()
        once(command, f"{folder}/{name}")
        behind = carried()
        if nodes == 1:
            alone, expected = took, answer
        if name == "tree":
            assert answer == expected, (nodes, answer[:200], expected[:200])
        sent, packets = behind[0] - before[0], behind[1] - before[1]
        print(f"  {nodes} nodes: {took:.4f} s, {took / alone:.2f} times one node; {sent} bytes in {packets} packets; memory {peak:.0f} MB")
        if not counting:
            continue
        pairs, drives, exchanges, rounds, turns, visits, spent = counts(asked, f"{folder}/{name}", nodes, answer)
        inside = f"{rounds} rounds of {turns} turns, {visits} visits; {pairs} pairs dialled"
        if nodes > 1:
            inside += f"; {exchanges} of {rounds + 2} exchanges had something to send, over {drives} pairs in all"
            inside += f", {spent / 1e3 / exchanges:.1f} us an exchange, {spent / 1e6:.2f} ms in all"
        print(f"    {inside}")
drill = [program, "drill", "--vars", "1000", "--size", "2", "--degree", "2", "--method", "dpop", "--nodes"]
(alone, _, answer), (eight, _, same) = best_in_turn([([*drill, str(nodes)], 4) for nodes in (1, 8)], os.devnull, runs=9)
assert answer == same, (answer, same)
more = f"{eight:.4f} and {alone:.4f} s"
print(told("drill of 1,000 variables in eight nodes: time, beside one", eight / alone, 4, most=True, more=more))
PY
