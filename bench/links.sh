#!/usr/bin/env bash
# What a link takes, and how fast links and visits of cells are, as ratios in the same run: above 1 is faster
# than the other; 0.8 is wanted.
#
# usage: bench/links.sh
# Makes 100,000 links of items of 8 bytes, with both of their ends, and divides the growth of the
# process by their number. Then, against a bare ring of `rtrb` of as many slots:
# - sends 64 items and takes them, 100,000 times, on one thread, the best of nine runs;
# - sends 1,000,000 items from one thread to another, the best of fifteen runs. On both the sender holds
#   back where 64 items are not yet told to be taken, by one atomic number; beside them a bare ring whose
#   sender waits for slots instead. Once on all processors, and once on two, and with how many items were
#   found at a time in the best run.
# Last, visits of the cells of ADOPT agents by one worker, against `replay` of the same events in the same
# order, on 100 variables of size 4 in a binary tree, 30 of them tied to their grandparents too. The best of
# fifteen runs of each, in turn; without the best time of as many runs without events, in which the agents
# are made and started. What the worker does between visits, as settling links, is in the time of its visits.
# Both must come to the same number of events and of messages.
# The crates of bench/links are a static library and two programs; they are proved and built in a copy of the
# repository, where they are three more crates. Stops with status 1 where not all items came, or where the
# two differ.
set -eu
. "$(dirname "$0")/common.sh"
copy_crates $(with_those_below delivery_turns agent_links minimised_problem problem_text)
uses="dcop_base dcop_edge pseudotree adopt_context protocol_steps run_laws worker_laws fifo_links dfs_agent"
uses="$uses dpop_agent adopt_agent delivery_core delivery_turns agent_cells agent_workers agent_links"
add_crate links/visits "bench_visits: $uses minimised_problem problem_text"
add_crate links/one_thread "bench_links staticlib: fifo_links rtrb"
add_crate links/two_threads "bench_threads: fifo_links rtrb"

make_crate bench_links lib
build_on bench_links links/harness.rs one_thread
"$folder/one_thread"

# Prints what two threads took, on these processors.
# arguments: the processors
tell_threads() {
    taskset -c "$1" "$folder/crates/bench_threads/out/bench_threads" > "$folder/told"
    awk -v on="$1" '{ printf "two threads on processors %s: %.1f ns an item through a link, %.1f ns through a bare ring, ratio %.2f; ", on, $2 / $1, $3 / $1, $3 / $2
        printf "%.1f ns through a bare ring whose sender waits for slots, ratio %.2f; ", $4 / $1, $4 / $2
        printf "items at a time %.1f, %.1f and %.1f\n", $1 / $5, $1 / $6, $1 / $7 }
        END { exit NR != 1 }' "$folder/told"
}

make_crate bench_threads run
tell_threads "0-$(($(nproc) - 1))"
if [ "$(nproc)" -gt 1 ]; then
    tell_threads 0,1
fi

python3 - > "$folder/problem" <<'PY'
import random
random.seed(13)
def above(i):
    return (i - 1) // 2
pairs = [(above(i), i) for i in range(1, 100)] + [(above(above(i)), i) for i in random.sample(range(3, 100), 30)]
random.seed(1)
print("dcop 1")
for i in range(100):
    print(f"var v{i} 4")
for i, j in sorted(pairs):
    print(f"table v{i} v{j} : {' '.join(str(random.randrange(100)) for _ in range(16))}")
print("end")
PY
(cd "$folder/crates/bench_visits" && rt run < "$folder/problem" > "$folder/told" 2> "$folder/log") \
    || { tail -n 40 "$folder/told" "$folder/log"; exit 1; }
awk 'NF == 6 { visits = $3 - $5; replayed = $4 - $6; told = 1
        printf "ADOPT, %d events with %d messages: %.0f visits a second by a worker, %.0f events a second by replay, ratio %.2f\n", $1, $2, $1 * 1e9 / visits, $1 * 1e9 / replayed, replayed / visits }
    END { exit told != 1 }' "$folder/told"
