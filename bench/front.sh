#!/usr/bin/env bash
# What the front costs over the programs that it runs, in processor seconds.
#
# usage: bench/front.sh PROGRAM [ORDER]
# PROGRAM is the built program `dcop`, ORDER `dcop_order`. Runs `sefwllon solve` five times on each example file, and
# `sefwllon meetings` with a picture on that of meetings. Told are the processor seconds of the front alone, from the start of
# Python on, and those of the programs that it ran, the middle one of five each; then the greatest of the front. Fails where that
# is above 0.3 s. Files of pyDCOP need Python's `yaml`, and are left out without it.
set -eu
program=$(realpath "${1:?usage: bench/front.sh PROGRAM [ORDER]}")
order=${2:+$(realpath "$2")}
. "$(dirname "$0")/common.sh"
"$top/front/python.sh" - "$program" "$order" "$top" "$folder" <<'PY'
import glob, importlib.util, os, statistics, subprocess, sys

program, order, top, folder = sys.argv[1:]
MOST = 0.3
TELL = """
import resource, sys
from sefwllon.cli import main
status = main(sys.argv[1:])
for who in (resource.RUSAGE_SELF, resource.RUSAGE_CHILDREN):
    used = resource.getrusage(who)
    print(used.ru_utime + used.ru_stime, file=sys.stderr)
sys.exit(status)
"""
environment = dict(os.environ, PYTHONPATH=f"{top}/front", SEFWLLON_DCOP=program)
environment.pop("PYTHONDONTWRITEBYTECODE", None)
environment["PYTHONPYCACHEPREFIX"] = folder
if order:
    environment["SEFWLLON_ORDER"] = order


def measured(words):
    own, others = [], []
    for _ in range(6):
        ran = subprocess.run([sys.executable, "-c", TELL, *words], env=environment, capture_output=True, text=True)
        assert ran.returncode == 0, (words, ran.returncode, ran.stdout, ran.stderr)
        front, programs = map(float, ran.stderr.split())
        own.append(front)
        others.append(programs)
    # the first run compiles the front's own modules
    return statistics.median(own[1:]), statistics.median(others[1:])


files = sorted(glob.glob(f"{top}/examples/*.dcop") + glob.glob(f"{top}/examples/*.wcsp") + glob.glob(f"{top}/front/examples/*"))
runs = [["solve", file] for file in files if not file.endswith(".yaml") or importlib.util.find_spec("yaml")]
runs.append(["meetings", f"{top}/front/examples/meetings.csv", "--svg", f"{folder}/week.svg"])
most = 0.0
for words in runs:
    own, others = measured(words)
    most = max(most, own)
    print(f"{words[0]} {os.path.basename(words[1])}: the front {own:.3f} s, the programs {others:.3f} s")
print(f"at most {most:.3f} s, {'within' if most <= MOST else 'ABOVE'} {MOST} s")
sys.exit(most > MOST)
PY
