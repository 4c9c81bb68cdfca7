#!/usr/bin/env bash
# How fast ADOPT is, as a ratio to the same agent written plainly in Rust and run by the same rounds:
# above 1 is faster than that one.
#
# usage: bench/adopt.sh [--unproved PROGRAM]
# One agent with 8 children and 16 values takes the same batches as the plain one: those that it takes
# in a run of the plain agents, and then VALUE and COST in turn, one message each. What both send is
# compared. Then ADOPT is played on examples/timetable.dcop and on a problem of the generator with 20
# variables of size 4 and degree 2, where both must end with the same values, bounds, thresholds and
# number of deliveries. A time of play has the making of the tree and of the agents in it, on both sides.
# The crate of bench/adopt/crate calls `adopt_agent`, `delivery_core` and `delivery_turns` and is a static library; it is
# proved and built in a copy of the repository, where it is one more crate. The plain agent is
# bench/adopt/plain.rs; a second one of it is sparing: it sets its costs and forgets entries only where
# what it knows has changed. Prints the best of fifteen runs each; stops with status 1 where the two differ.
# Goal: on both problems our agents are as fast as the sparing ones.
#
# With `--unproved` nothing is proved, and only the play of both problems is timed, beside the sparing agents: by
# PROGRAM, which is built without proofs where there is no such file. Each time is that of 400 plays of the
# timetable, or of 3 of the other problem: a process with one play more, less one with a single play.
set -eu
usage="usage: bench/adopt.sh [--unproved PROGRAM]"
unproved=
case $#:${1:-} in
    0:) ;;
    2:--unproved) unproved=$(realpath -m "$2") ;;
    *) echo "$usage" >&2; exit 2 ;;
esac
. "$(dirname "$0")/common.sh"
timetable="$top/examples/timetable.dcop"
uses="dcop_base pseudotree adopt_context protocol_steps adopt_agent delivery_core delivery_turns"
if [ -z "$unproved" ]; then
    copy_crates $(with_those_below delivery_turns)
    add_crate adopt/crate "bench_adopt staticlib: $uses"
    make_crate bench_adopt lib
    build_on bench_adopt adopt/harness.rs harness
    "$folder/harness" "$timetable"
    exit
fi
rustc -O --edition 2024 "$top/bench/adopt/plays.rs" -o "$folder/plays"
if [ ! -f "$unproved" ]; then
    copy_crates $(with_those_below delivery_turns)
    add_crate adopt/crate "bench_adopt: $uses"
    sources="$folder/crates/bench_adopt/src"
    rm "$sources/lib.rt" "$sources/agent.rt" "$sources/marks.rt"
    cp "$top/bench/adopt/program.rt.txt" "$sources/main.rt"
    "$folder/plays" numbers "$timetable" > "$sources/data.rt"
    "$top/bench/unproved.sh" "$unproved" bench_adopt "$folder/crates"
fi
python3 - "$unproved" "$folder/plays" "$timetable" <<'PY'
import sys
from timing import best_in_turn, told
ours, plays, path = sys.argv[1:]
for name, what, times in (("timetable", "ADOPT on timetable.dcop beside sparing agents", 400),
                          ("random", "ADOPT on 20 variables of size 4 beside sparing agents", 3)):
    commands = [([program, name, str(count), path], 0) for count in (times + 1, 1) for program in (ours, plays)]
    (many, _, ends), (plain_many, _, plain_ends), (one, _, _), (plain_one, _, _) = best_in_turn(commands, path, runs=15)
    assert ends == plain_ends, (name, ends, plain_ends)
    took, plain = (many - one) / times, (plain_many - plain_one) / times
    print(told(what, plain / took, 1.0, more=f"{took * 1e6:.0f} and {plain * 1e6:.0f} us for {int(ends.split()[0])} messages, unproved"))
PY
