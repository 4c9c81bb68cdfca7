#!/usr/bin/env bash
# What the built program says to texts, words, reports and logs that were altered at random.
#
# usage: bench/random.sh PROGRAM SEED COUNT [FIRST]
# PROGRAM is the built program `dcop`. COUNT trials are made, from number FIRST on (0, where it is not given); what a
# trial is follows from SEED and its number, and from the logs that three workers write anew each time. Each gives the
# program words and an input, of which one was altered: bytes flipped, cut out, doubled or put in, lines and words
# exchanged, doubled, left out or taken from elsewhere, and numbers put to their limits and one above. The inputs are
# problems with up to six variables, drawn from SEED, those of examples/ and of the worked cases, their reports with
# tables, with logs and with cuts, one of them of two turns, WCSP texts and edit lines.
# Each time the program must end within a second of processor time, but for a run of ADOPT of 100,000 messages or more,
# with an exit status that stands in docs/formats/refusals.md and comes without a fault of the machine, with nothing on standard
# error, and with output that ends in a line and begins as its status asks. Where it accepts an altered problem, the cost
# must be that of the printed values, added up by another reader in Python, and by plain, dpop, or adopt that is solved
# with error 0, the best of all assignments where they are few. Where `check` says yes to an altered report, its values
# must cost what it says, and the best sum, as method plain tells it, must lie within the error that it prints. Its whole
# answer on tables that it can read must be the one that bench/verdict.py reckons anew from docs/formats/checking.md.
# Prints how often each kind of trial ended with each status. Stops with status 1 at the first trial that is wrong, prints
# it, and leaves its input in the file that it names.
set -eu
program=${1:?usage: bench/random.sh PROGRAM SEED COUNT [FIRST]}
seed=${2:?usage: bench/random.sh PROGRAM SEED COUNT [FIRST]}
count=${3:?usage: bench/random.sh PROGRAM SEED COUNT [FIRST]}
. "$(dirname "$0")/common.sh"
export PYTHONPATH="$PYTHONPATH:$top/front"
python3 "$top/bench/random_trials.py" "$top" "$program" "$seed" "$count" "${4:-0}"
