#!/usr/bin/env bash
# How long timetables take: to be translated, and to be solved, with toulbar2 beside where it is there.
#
# usage: bench/timetables.sh DCOP [DCOP_ORDER] [DCOP_SEARCH] [SECONDS] [SEEDS]
# The built programs; one that is not there is told as `-`. Timetables are made from numbers, SEEDS (2) of each kind: 14 meetings in 12 slots,
# 40 in 20, 60 in 25 and 200 in 40, each of 2 to 5 of 10, 25, 35 and 60 people, with an absence in each tenth slot of a person, and a
# wish of 1 to 5 for each third meeting. `sefwllon meetings` has SECONDS (60) for each, and toulbar2 (`sefwllon to wcsp`) 60 s. What a
# timetable costs is added up here from the CSV, as is that it keeps the rules. Prints a table with a row for each: the seconds of the
# translation (from the CSV to the text for `dcop`), the cost and what no timetable is below, the seconds of the whole command and how
# many of a processor these were, what that rests on, and what toulbar2 found.
#
# A row is met where the timetable is as it is told; where it is exact within 10 s (of 14 meetings within 1 s), if toulbar2 is within 60 s, and
# costs as much; where else the gap is at most 10 percent after SECONDS; and where the translation takes at most 2 s. That a week is
# impossible counts as exact, once it is known: whose meetings make it so is sought behind that. Fails where a row is not met.
set -eu
program=$(realpath "${1:?usage: bench/timetables.sh DCOP [DCOP_ORDER] [DCOP_SEARCH] [SECONDS] [SEEDS]}")
order=${2:--} search=${3:--} seconds=${4:-60} seeds=${5:-2}
[ "$order" = - ] || order=$(realpath "$order")
[ "$search" = - ] || search=$(realpath "$search")
. "$(dirname "$0")/common.sh"
"$top/front/python.sh" - "$program" "$order" "$search" "$seconds" "$seeds" "$top/front" "$folder" <<'PY'
import datetime, itertools, json, os, random, re, resource, shutil, subprocess, sys, time

program, order, search, seconds, seeds, front, folder = sys.argv[1:]
KINDS = ((14, 12, 10), (40, 20, 25), (60, 25, 35), (200, 40, 60))
TOULBAR2_SECONDS = 60
environment = dict(os.environ, PYTHONPATH=front, SEFWLLON_DCOP=program)
environment.update(SEFWLLON_ORDER="" if order == "-" else order, SEFWLLON_SEARCH="" if search == "-" else search)
sys.path.insert(0, front)
from sefwllon import timetable
from sefwllon.translate import translate


def made(meetings, slots, people, number):
    """The lines of a timetable, and who meets, who is absent where, and who wishes what."""
    draw, names = random.Random(number), [f"P{at}" for at in range(people)]
    per_day = -(-slots // 5)
    days = [datetime.datetime(2026, 3, 2, 9) + datetime.timedelta(days=at // per_day, hours=at % per_day) for at in range(slots)]
    meets = {f"M{at}": draw.sample(names, draw.randint(2, 5)) for at in range(meetings)}
    away = {name: {f"S{at}" for at in range(slots) if draw.randrange(10) == 0} for name in names}
    wishes = {f"M{at}": (f"S{draw.randrange(slots)}", draw.randint(1, 5)) for at in range(0, meetings, 3)}
    lines = [f"slot,S{at},{day:%Y-%m-%d %H:%M}" for at, day in enumerate(days)]
    lines += [f"meeting,{name},{';'.join(its)}" for name, its in meets.items()]
    lines += [f"absent,{name},{';'.join(sorted(its))}" for name, its in away.items() if its]
    lines += [f"like,{name},{slot},{cost}" for name, (slot, cost) in wishes.items()]
    return "\n".join(lines) + "\n", meets, away, wishes


def added_up(chosen, meets, away, wishes):
    """What a timetable costs; None where it breaks a rule."""
    if any(chosen[name] in away[person] for name, its in meets.items() for person in its):
        return None
    if any(chosen[a] == chosen[b] and set(meets[a]) & set(meets[b]) for a, b in itertools.combinations(meets, 2)):
        return None
    return sum(cost for name, (slot, cost) in wishes.items() if chosen[name] != slot)


def toulbar2(path):
    """What toulbar2 finds, by the text of a WCSP, whether it is the best, and after how many seconds, and of a processor."""
    if shutil.which("toulbar2") is None:
        return None
    wcsp = subprocess.run([sys.executable, "-m", "sefwllon", "to", "wcsp", path], env=environment, stdout=subprocess.PIPE, text=True, check=True).stdout
    file = f"{folder}/week.wcsp"
    with open(file, "w") as out:
        out.write(wcsp)
    began, used = time.monotonic(), processor()
    ran = subprocess.run(["toulbar2", file, f"-timer={TOULBAR2_SECONDS}"], cwd=folder, stdout=subprocess.PIPE, stderr=subprocess.STDOUT, text=True)
    took, used = time.monotonic() - began, processor() - used
    found = re.findall(r"(?:New solution|Optimum|Primal bound): (\d+)", ran.stdout)
    return (int(found[-1]) if found else None), "Optimum: " in ran.stdout, took, used


def processor():
    """The seconds of a processor of all programs that have ended."""
    used = resource.getrusage(resource.RUSAGE_CHILDREN)
    return used.ru_utime + used.ru_stime


def missed(meetings, told, none, took, cost, translated, other, best):
    """What of the goal a row misses."""
    exact, gap = told["solved"] or none, None if cost is None or told["lower"] is None else cost - told["lower"]
    if cost is None and not told["broken"] or cost is not None and cost != told["cost"]:
        yield "is not as it is told"
    if other is not None and other[1]:
        limit = 1 if meetings == 14 else 10
        if not exact or (told["time"] if none else took) > limit:
            yield f"not exact within {limit} s"
        elif (None if none else cost) != best:
            yield "not what toulbar2 found"
    elif not exact and (gap is None or gap > 0.1 * cost):
        yield "a gap above 10 percent"
    if translated > 2:
        yield "a long translation"


def row(*cells):
    print(f"| {' | '.join(cells)} |", flush=True)


bad = 0
print(f"the load is {os.getloadavg()[0]:.1f} on {os.cpu_count()} processors")
row("Meetings, slots, people, seed", "translated in", "cost, bound", "in, of a processor", "rests on", "toulbar2", "met")
row(*["---"] * 7)
for (meetings, slots, people), number in ((kind, number) for kind in KINDS for number in range(1, int(seeds) + 1)):
    text, meets, away, wishes = made(meetings, slots, people, number)
    path, name = f"{folder}/week.csv", f"{meetings}, {slots}, {people}, {number}"
    with open(path, "w") as out:
        out.write(text)
    began = time.monotonic()
    problem = translate(timetable.source(timetable.read(text), "week"))
    problem.problem.text()
    translated = time.monotonic() - began
    began, used = time.monotonic(), processor()
    ran = subprocess.run([sys.executable, "-m", "sefwllon", "meetings", "--json", "--time", f"{seconds}s", path], env=environment, stdout=subprocess.PIPE, text=True)
    took, used = time.monotonic() - began, processor() - used
    if not ran.stdout:
        bad += 1
        row(name, f"{translated:.2f} s", "no answer", f"{took:.1f} s", "", "", "no")
        continue
    told = json.loads(ran.stdout)
    cost = added_up({it["meeting"]: it["slot"] for it in told["timetable"]}, meets, away, wishes)
    none = "no assignment keeps all hard constraints" in (told["note"] or "")
    other, best, beside = toulbar2(path), None, "is not there"
    if other is not None:
        best = None if other[0] is None or other[0] >= problem.hard_cost > 0 else float(problem.own_cost(other[0]))
        beside = f"{'none' if best is None else f'{best:g}'}, {'exact' if other[1] else 'open'}, {other[2]:.1f} s, {other[3]:.1f} s"
    wrong = list(missed(meetings, told, none, took, cost, translated, other, best))
    bad += bool(wrong)
    what = f"{cost}, exact" if told["solved"] else f"{cost}, at least {told['lower']}" if cost is not None else "none keeps the rules" if none else "none found"
    row(name, f"{translated:.2f} s", what, f"{took:.1f} s, {used:.1f} s", told["rests_on"], beside, "; ".join(wrong) or "yes")
print(f"the load is {os.getloadavg()[0]:.1f}; {bad} of {len(KINDS) * int(seeds)} rows are not met")
sys.exit(bad > 0)
PY
