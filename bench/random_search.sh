#!/usr/bin/env bash
# What `dcop_search` answers to small problems drawn at random, beside `dcop solve --method plain`.
#
# usage: bench/random_search.sh SEARCH DCOP SEED COUNT [FIRST]
# SEARCH and DCOP are the built programs `dcop_search` and `dcop`. COUNT trials are made, from number FIRST on (0, where it is
# not given); what a trial is follows from SEED and its number: a problem, eight trials in a row the same, and options. A problem
# has one to seven variables of at most four values, with tables over one to four, of either goal and version, some with value
# names, some as WCSP, and some with more cells in their joined tables than the options allow to be kept. Options are an error, a
# budget of 1 to 1,000 nodes, cells from 1,024 on, and `--better` below, at and above the best sum, which method plain tells.
# Of each answer it is asked: its lines are those of its status, in their order; the printed values are an assignment, whose sum,
# added up in Python, is the printed cost; the best sum lies between the bounds, none of which is below 0 or above the sum of the
# greatest cells; a solved cost misses the other bound by at most the error; a spent budget is reached, and no budget of at least
# the number of variables is exceeded; and `none` comes only with `--better`, where nothing is better by more than the error.
# Prints how many trials ended with each status. Stops with status 1 at the first trial that is wrong, prints it, and leaves its
# input in the file that it names.
set -eu
usage='usage: bench/random_search.sh SEARCH DCOP SEED COUNT [FIRST]'
search=$(realpath "${1:?$usage}")
dcop=$(realpath "${2:?$usage}")
seed=${3:?$usage}
count=${4:?$usage}
. "$(dirname "$0")/common.sh"
export PYTHONPATH="$PYTHONPATH:$top/front"
python3 "$top/bench/random_search.py" "$search" "$dcop" "$seed" "$count" "${5:-0}"
