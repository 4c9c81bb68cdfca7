#!/usr/bin/env bash
# How long the page takes to answer while it solves a timetable of 200 meetings, in milliseconds.
#
# usage: bench/page.sh PROGRAM [SEARCH]
# PROGRAM is the built program `dcop`, SEARCH `dcop_search`. Opens the page in Chromium without a window, gives it a timetable of 200
# meetings and 40 slots from a seed, has it solved by these programs, and measures in the page meanwhile, the middle one of several each: a
# frame, a click on another part or back, a cell that is typed, the service's own health, and how long it takes to tell of a meeting that is
# dragged what each slot would cost it, with all meetings in one slot. Fails where one is above 100, and tells the machine's load. Needs Debian's
# python3-flask, node-d3, chromium, chromium-driver and python3-selenium. The gate allows ten times as long, and has stand-ins that take for ever.
set -eu
program=$(realpath "${1:?usage: bench/page.sh PROGRAM [SEARCH]}")
search=${2:+$(realpath "$2")}
. "$(dirname "$0")/common.sh"
cd "$top/front"
echo "load before: $(cut -d ' ' -f 1-3 /proc/loadavg)"
SEFWLLON_MEASURED="$folder/measured" SEFWLLON_DCOP="$program" SEFWLLON_SEARCH="$search" PYTHONDONTWRITEBYTECODE=1 \
    ./python.sh -m unittest -q tests.test_web.Large
[ -f "$folder/measured" ] || { echo "nothing was measured: the browser or Flask is missing"; exit 1; }
./python.sh - "$folder/measured" <<'PY'
import json, sys

found = json.load(open(sys.argv[1]))
for what, milliseconds in found.items():
    print(f"{milliseconds:8.1f} ms  {what}")
sys.exit(max(found.values()) > 100)
PY
