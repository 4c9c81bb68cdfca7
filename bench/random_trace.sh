#!/usr/bin/env bash
# What `dcop_trace` tells of runs of ADOPT on small problems drawn at random, beside `dcop replay`.
#
# usage: bench/random_trace.sh TRACE DCOP SEED COUNT [FIRST]
# TRACE and DCOP are the built programs `dcop_trace` and `dcop`. COUNT trials are made, from number FIRST on (0, where it is not
# given); what a trial is follows from SEED and its number, but for the run, which several workers make anew each time. Each is a
# problem of one to seven variables of at most four values, with tables over one to four, of either goal and version, some with
# value names and some as WCSP, and the report of `solve --method adopt` on it, with its log, by 1 to 8 workers, an error and a
# budget of up to 300 messages.
# Of the whole trace it is asked: its lines are of their forms, in their order; its events are those of the log, with their agents,
# stamps, senders and counts; behind each number K of events the last state of each agent is that of `replay --after K`; each
# message that is taken was sent before on that link, in order, and none was taken twice; an agent that has ended takes no more; and
# the whole is, byte for byte, the trace that bench/adopt_reckoned.py reckons anew from the rules of the ADOPT step.
# Then `--from` and `--to` at random must print just that part of the whole trace. In the end the log is altered, by an event left
# out or doubled or by another count, and asked up to a number at random: where `replay --after` refuses it, `dcop_trace --to` must
# print the same, and else the states of `replay`.
# Prints how many events were compared, and how many of the altered logs were refused. Stops with status 1 at the first trial that is
# wrong, prints it, and leaves its input in the file that it names.
set -eu
usage='usage: bench/random_trace.sh TRACE DCOP SEED COUNT [FIRST]'
trace=$(realpath "${1:?$usage}")
dcop=$(realpath "${2:?$usage}")
seed=${3:?$usage}
count=${4:?$usage}
. "$(dirname "$0")/common.sh"
export PYTHONPATH="$PYTHONPATH:$top/front"
python3 "$top/bench/random_trace.py" "$trace" "$dcop" "$seed" "$count" "${5:-0}"
