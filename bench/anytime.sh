#!/usr/bin/env bash
# What `sefwllon solve` has after a few seconds, on problems on which ADOPT spends 10,000,000 messages.
#
# usage: bench/anytime.sh DCOP DCOP_ORDER DCOP_SEARCH [SECONDS]
# The first three are the built programs `dcop`, `dcop_order` and `dcop_search`; SECONDS is 5 where it is not given. Each problem is
# made from a number: all its variables, or so many in a hundred of their pairs, share a table with costs from 0 to 99. First `dcop
# solve --method adopt` with a budget of 10,000,000, which must end `spent`; then, where toulbar2 is there, what it knows after
# SECONDS; then the front with `--time`, by adopt and without a method, which is the whole chain. What an assignment costs is added up
# here from the file. It must be what is printed, and lie between the printed bounds; the run must end within 2 s of its time; and
# without a method the greater bound must be at most 1.3 times the lesser one. Prints a line for each run, and at the end how many did.
set -eu
usage="usage: bench/anytime.sh DCOP DCOP_ORDER DCOP_SEARCH [SECONDS]"
program=$(realpath "${1:?$usage}")
order=$(realpath "${2:?$usage}")
search=$(realpath "${3:?$usage}")
time=${4:-5}
front=$(cd "$(dirname "$0")/../front" && pwd)
. "$(dirname "$0")/common.sh"
"$front/python.sh" - "$program" "$order" "$search" "$front" "$folder" "$time" <<'PY'
import itertools, json, os, random, re, shutil, subprocess, sys, time

program, order, search, front, folder, given = sys.argv[1:]
BUDGET = 10_000_000
LATE, RATIO = 2.0, 1.3
PROBLEMS = [  # (name, goal, variables, values, part of the pairs in a hundred, number)
    ("all pairs of 15 variables of size 6", "min", 15, 6, 100, 1),
    ("60 in 100 pairs of 20 variables of size 8", "min", 20, 8, 60, 2),
    ("40 in 100 pairs of 25 variables of size 10, greatest sum", "max", 25, 10, 40, 3),
]


def made(count, size, part, number):
    """The tables of a problem: each with its two variables and its costs."""
    draw = random.Random(number)
    pairs = [pair for pair in itertools.combinations(range(count), 2) if draw.randrange(100) < part]
    return [(a, b, [draw.randrange(100) for _ in range(size * size)]) for a, b in pairs]


def write(path, goal, count, size, tables):
    lines = ["dcop 2", f"goal {goal}", *(f"var v{i} {size}" for i in range(count))]
    lines += [f"table v{a} v{b} : {' '.join(map(str, costs))}" for a, b, costs in tables]
    with open(path, "w") as out:
        out.write("\n".join([*lines, "end"]) + "\n")


def run(command):
    began = time.monotonic()
    ran = subprocess.run(command, env=environment, stdin=open(path), stdout=subprocess.PIPE, text=True)
    return ran, time.monotonic() - began


def beside(tables, goal):
    """What toulbar2 knows of the problem after the same time, as bounds of the sum."""
    with open(f"{folder}/problem.wcsp", "w") as out:
        subprocess.run([sys.executable, "-m", "sefwllon", "to", "wcsp", path], env=environment, stdout=out, check=True)
    ran = subprocess.run(["toulbar2", f"{folder}/problem.wcsp", f"-timer={given}"], stdout=subprocess.PIPE, stderr=subprocess.STDOUT, text=True)
    known = re.findall(r"Optimality gap: \[(\d+), (\d+)\]", ran.stdout) + [(it, it) for it in re.findall(r"^Optimum: (\d+)", ran.stdout, re.M)]
    if not known:
        return "tells no bounds"
    low, high = map(int, known[-1])
    greatest = sum(max(costs) for _, _, costs in tables)
    return f"{low} to {high}" if goal == "min" else f"{greatest - high} to {greatest - low}"


environment = dict(os.environ, PYTHONPATH=front, SEFWLLON_DCOP=program, SEFWLLON_ORDER=order, SEFWLLON_SEARCH=search)
kept = tried = 0
for name, goal, count, size, part, number in PROBLEMS:
    tables, path = made(count, size, part, number), f"{folder}/problem.dcop"
    write(path, goal, count, size, tables)
    print(f"{name}, {len(tables)} tables")
    ran, took = run([program, "solve", "--method", "adopt", "--budget", str(BUDGET)])
    told = dict(line.split(maxsplit=1) for line in ran.stdout.split("\n") if line.count(" ") == 1)
    assert told["status"] == "spent", told["status"]
    print(f"  dcop, adopt: spent, {int(told['deliveries']):,} messages, cost {told['cost']}, {told['lower']} to {told['upper']}, {took:.1f} s")
    print(f"  toulbar2: {beside(tables, goal) if shutil.which('toulbar2') else 'is not there'}")
    for words in (["--method", "adopt"], []):
        ran, took = run([sys.executable, "-m", "sefwllon", "solve", "--json", "--time", f"{given}s", *words, path])
        answer = json.loads(ran.stdout)
        values = [int(answer["values"][f"v{i}"]) for i in range(count)]
        cost = sum(costs[values[a] * size + values[b]] for a, b, costs in tables)
        between = answer["lower"] <= cost <= answer["upper"]
        ratio = answer["upper"] / max(1, answer["lower"])
        good = cost == answer["cost"] and between and took <= float(given) + LATE and (bool(words) or ratio <= RATIO)
        kept, tried = kept + good, tried + 1
        print(
            f"  sefwllon {' '.join(words) or 'without a method'}: by {answer['method']}, {answer['stopped'] or 'ended'}, adds up to {cost}, "
            f"printed cost {answer['cost']}, {answer['lower']} to {answer['upper']} ({ratio:.2f} times), {answer['rests_on']}, {took:.1f} s: {'kept' if good else 'NOT KEPT'}"
        )
print(f"{kept} of {tried} runs of {given} s kept what is promised")
sys.exit(kept != tried)
PY
