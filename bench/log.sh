#!/usr/bin/env bash
# How long `check` takes on a report of ADOPT with the log of its run, beside the `solve` that made it.
#
# usage: bench/log.sh PROGRAM
# PROGRAM is the built program `dcop`. Problems of 20, 40 and 200 variables of size 4, each but the first tied to
# two earlier ones at random, with costs up to 99, are run by ADOPT with a budget of 100,000 messages and a
# certificate. Prints the best of five runs of each whole command, and the ratio of their times, of which at most 2
# is wanted. Then how fast such a report is read: `check` on the report with a word behind its end, which it refuses
# once all is read. At least 50 MB a second are wanted. Stops with status 1 where an answer is not the expected one.
set -eu
program=${1:?usage: bench/log.sh PROGRAM}
. "$(dirname "$0")/common.sh"
python3 - "$program" "$folder" <<'PY'
import os, random, sys
from timing import best
program, folder = sys.argv[1:]
def write(path, count):
    random.seed(count)
    with open(path, "w") as out:
        out.write("dcop 1\n")
        for i in range(count):
            out.write(f"var v{i} 4\n")
        for i in range(1, count):
            for j in random.sample(range(i), min(i, 2)):
                out.write(f"table v{j} v{i} : {' '.join(str(random.randrange(100)) for _ in range(16))}\n")
        out.write("end\n")
for count in (20, 40, 200):
    problem, printed, refused = (f"{folder}/{name}{count}" for name in ("problem", "printed", "refused"))
    write(problem, count)
    solve, _, report = best([program, "solve", "--method", "adopt", "--budget", "100000", "--certificate", "yes"], problem, status=1)
    text = open(problem, "rb").read()
    with open(printed, "wb") as out:
        out.write(text + report)
    with open(refused, "wb") as out:
        out.write(text + report + b"more\n")
    check, memory, answer = best([program, "check"], printed)
    assert answer.startswith(b"status yes\n"), answer[:200]
    reading, _, answer = best([program, "check"], refused, status=3)
    assert answer.startswith(b"refused report line ") and answer.endswith(b" kind 7\n"), answer[:200]
    messages = next(int(line.split()[1]) for line in report.splitlines() if line.startswith(b"deliveries "))
    megabytes = os.path.getsize(printed) / 1e6
    print(f"{count} variables, {messages:,} messages, {megabytes:.2f} MB: solve {solve:.4f} s, check {check:.4f} s with {memory:.0f} MB,"
          f" {check / solve:.2f} times as long; reading alone {reading:.4f} s, {megabytes / reading:.0f} MB a second")
PY
