#!/usr/bin/env bash
# What a sweep costs over the runs that it does, and what sharing a problem out gains.
#
# usage: bench/sweep.sh [DCOP [SEARCH]]
# DCOP and SEARCH are the built programs `dcop` and `dcop_search`, without them those of crates/*/out. It needs networkx, and measures
# a Dask cluster of this machine too if distributed is there. Run it on an idle machine: seconds are of the clock.
# First 1,000 runs of about 10 ms each, by DPOP on as many colourings; goal: at most 1.5 times their processor time, over all
# processors. That of a run is what `dcop solve` takes.
# The front's modules are compiled first, as those of each command are that was run before. Then `solve --cluster local:4` against `local:1` on the hardest problem of bench/search.sh that one process solves, the best of
# three each; goal: at least 2.5 times as fast. Ends with status 1 if a goal is missed.
set -eu
. "$(dirname "$0")/common.sh"
export SEFWLLON_DCOP=$(realpath -m "${1:-$top/crates/solve_cli/out/solve_cli}")
export SEFWLLON_SEARCH=$(realpath -m "${2:-$top/crates/dcop_search/out/dcop_search}")
for program in "$SEFWLLON_DCOP" "$SEFWLLON_SEARCH"; do
    [ -x "$program" ] || { echo "there is no program $program"; exit 1; }
done
export PYTHONPATH="$PYTHONPATH:$top/front" PYTHONPYCACHEPREFIX="$folder/compiled"
unset PYTHONDONTWRITEBYTECODE
"$top/front/python.sh" "$top/bench/search_problems.py" "$folder" pairs20
"$top/front/python.sh" "$top/bench/sweep_measured.py" "$folder"
