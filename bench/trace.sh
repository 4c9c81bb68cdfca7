#!/usr/bin/env bash
# How long `dcop_trace` takes on a log of ADOPT, beside `dcop replay` of the same log.
#
# usage: bench/trace.sh TRACE DCOP [EVENTS]
# TRACE and DCOP are the built programs `dcop_trace` and `dcop`. Problems of 20 and 200 variables of size 4, each but the first tied
# to two earlier ones at random, with costs up to 99, are run by ADOPT until its log has EVENTS events (100,000, where it is not
# given); further ones are left out. For each the log is played by `replay`, played by `dcop_trace --from 1000000000`, which prints
# none of it, and told whole. Seconds are of the processor, for other work may run beside, the least of five runs; what is printed
# goes to /dev/null. Prints how many times as long the second takes as the first, of which at most 1.5 is wanted, and how many MB of
# text a second the third one writes, of which at least 100 are wanted; besides how many that are in the time that it takes beyond the
# second. Ends with status 1 where a goal is not met.
set -eu
usage='usage: bench/trace.sh TRACE DCOP [EVENTS]'
trace=$(realpath "${1:?$usage}")
dcop=$(realpath "${2:?$usage}")
. "$(dirname "$0")/common.sh"
python3 - "$trace" "$dcop" "${3:-100000}" "$folder" <<'PY'
import os, random, subprocess, sys
from timing import spent
trace, dcop, folder = sys.argv[1], sys.argv[2], sys.argv[4]
wanted = int(sys.argv[3])
def write(path, count):
    random.seed(count)
    with open(path, "w") as out:
        out.write("dcop 1\n")
        for i in range(count):
            out.write(f"var v{i} 4\n")
        for i in range(1, count):
            for j in random.sample(range(i), min(i, 2)):
                out.write(f"table v{j} v{i} : {' '.join(str(random.randrange(100)) for _ in range(16))}\n")
        out.write("end\n")
def report(problem):
    """A report whose log has so many events."""
    words = [dcop, "solve", "--method", "adopt", "--certificate", "yes", "--budget"]
    for budget in (4 * wanted, 16 * wanted, 64 * wanted):
        with open(problem, "rb") as text:
            lines = subprocess.run([*words, str(min(budget, 10_000_000))], stdin=text, stdout=subprocess.PIPE).stdout.splitlines(keepends=True)
        first = lines.index(b"certificate log\n") + 1
        if len(lines) - first > wanted:
            return b"".join(lines[:first + wanted]) + b"end\n"
    sys.exit(f"no log of {wanted:,} events comes of {problem}")
def seconds(words, path):
    took, status = spent(words, path, 600, short=600, runs=5)
    assert status == 0, (words, status)
    return took
def printed(path):
    """How many bytes the whole trace of a file has."""
    with open(path, "rb") as text:
        told = subprocess.Popen([trace], stdin=text, stdout=subprocess.PIPE)
        size = sum(map(len, iter(lambda: told.stdout.read(2**20), b"")))
    assert told.wait() == 0
    return size
missed = 0
for count in (20, 200):
    problem, logged = f"{folder}/problem{count}", f"{folder}/logged{count}"
    write(problem, count)
    text = open(problem, "rb").read() + report(problem)
    with open(logged, "wb") as out:
        out.write(text)
    size = printed(logged)
    replay, playing, telling = (seconds(words, logged) for words in ([dcop, "replay"], [trace, "--from", "1000000000"], [trace]))
    ratio, speed = playing / replay, size / 1e6 / telling
    missed += (ratio > 1.5) + (speed < 100)
    print(f"{count} variables, {wanted:,} events, {len(text) / 1e6:.2f} MB of input: replay {replay:.4f} s, played alone {playing:.4f} s, {ratio:.2f} times as long;"
          f" told whole {telling:.4f} s for {size / 1e6:.1f} MB, {speed:.0f} MB a second, {size / 1e6 / max(telling - playing, 1e-6):.0f} beyond playing", flush=True)
print(f"{4 - missed} of 4 goals are met: at most 1.5 times as long, at least 100 MB a second")
sys.exit(missed > 0)
PY
