#!/usr/bin/env python3
"""How many seconds of a processor the merge gate takes for each crate.

usage: bench/gate.py [WORDS..]

Runs `rt ci` with these words at the top of the repository, on Linux, and looks each second and a half at the processes
that prove, build or run something for it, adding up what each has used. What `rt ci` kept from earlier runs it does not
do again: from nothing are `rt ci --anew` and a machine that has kept nothing. Processes that `rt ci` did not start do not
count.

Prints docs/data/times.toml anew: for each crate, in the order of crates.txt, the seconds of its proof with the building of
its library or program, of its tests, and of its wrong bodies. `bench/gate.py --anew > docs/data/times.toml` keeps them, and
`front/python.sh -m release.reference` then makes docs/reference/crates.md. Sums go to standard error. A process that ends
between two looks is counted up to the first of them.
"""
import collections
import os
import pathlib
import subprocess
import sys
import time

TOP = pathlib.Path(__file__).resolve().parent.parent
TICKS = os.sysconf("SC_CLK_TCK")
PAUSE = 1.5
HEAD = """# The seconds of a processor that the merge gate takes for each crate, as `bench/gate.py` prints them: proof, tests and wrong bodies.
# `front/python.sh -m release.reference` makes docs/reference/crates.md from them.
"""
# What stands in the name of a folder in which `rt` tries a wrong body.
EDITED = "rt-edit-"
PARTS = {"proof": "proof", "tests": "tests", "wrong": "wrong bodies"}


def parents():
    """The parent of each process."""
    found = {}
    for process in pathlib.Path("/proc").iterdir():
        if process.name.isdigit():
            try:
                found[process.name] = (process / "stat").read_text().rpartition(")")[2].split()[1]
            except OSError:
                pass
    return found


def descend_from(gate, parent_of):
    """The processes that the gate started, or that such a one started."""
    started = {str(gate.pid)}
    waiting = set(parent_of) - started
    while grown := {process for process in waiting if parent_of[process] in started}:
        started |= grown
        waiting -= grown
    return started


def looked_at(process):
    """The key of a process that proves or builds a crate, the crate with what is done of it, and its seconds; or None."""
    try:
        words = (process / "cmdline").read_bytes().decode(errors="replace").split("\0")
        fields = (process / "stat").read_text().rpartition(")")[2].split()
        folder = os.readlink(process / "cwd")
    except OSError:
        return None
    if pathlib.Path(words[0]).name != "rattle" or "--crate-name" not in words:
        return None
    crate = words[words.index("--crate-name") + 1]
    part = "wrong bodies" if EDITED in folder else "tests" if "--test" in words else "proof"
    seconds = (int(fields[11]) + int(fields[12])) / TICKS
    return (process.name, fields[19]), (crate, part), seconds


def sampled(gate):
    """The seconds of each process that was seen while the gate ran, with what it did."""
    seen = {}
    while gate.poll() is None:
        for process in descend_from(gate, parents()):
            found = looked_at(pathlib.Path("/proc") / process)
            if found:
                key, what, seconds = found
                seen[key] = (what, seconds)
        time.sleep(PAUSE)
    return seen.values()


def crates():
    """The crates, in the order of crates.txt."""
    lines = (TOP / "crates.txt").read_text().splitlines()
    return [line.partition(":")[0].split()[0] for line in lines if line.strip() and not line.startswith("#")]


def machine():
    """How many processors there are, and what they are."""
    told = pathlib.Path("/proc/cpuinfo").read_text()
    name = next((line.partition(":")[2].strip() for line in told.splitlines() if line.startswith("model name")), "unknown")
    return f"{os.cpu_count()} processors ({name})"


def told(sums, minutes):
    """The text of docs/data/times.toml."""
    spent = sum(sums.values()) / 60
    edits = len(list((TOP / "crates").glob("*/must-fail/*.edit")))
    lines = [HEAD, "[run]", 'says = """', f"The seconds are from one run of `{' '.join(['rt', 'ci', *sys.argv[1:]])}` on {time.strftime('%Y-%m-%d')}, on {machine()}."]
    lines += [f"It took {minutes:.0f} minutes, {spent:.0f} of a processor, with {edits} wrong bodies.", '"""', "", "[seconds]"]
    for crate in crates():
        parts = [(part, round(sums[crate, name])) for part, name in PARTS.items()]
        if any(seconds for _, seconds in parts):
            lines.append(f"{crate} = {{ {', '.join(f'{part} = {seconds}' for part, seconds in parts if seconds)} }}")
    return "\n".join(lines)


def main():
    begin = time.time()
    gate = subprocess.Popen(["rt", "ci", *sys.argv[1:]], cwd=TOP, stdout=sys.stderr)
    sums = collections.Counter()
    for what, seconds in sampled(gate):
        sums[what] += seconds
    minutes = (time.time() - begin) / 60
    print(told(sums, minutes))
    for part in PARTS.values():
        print(f"{part}: {sum(seconds for what, seconds in sums.items() if what[1] == part) / 60:.0f} minutes of a processor", file=sys.stderr)
    print(f"in all: {sum(sums.values()) / 60:.0f} minutes of a processor, {minutes:.0f} of the clock", file=sys.stderr)
    return gate.returncode


if __name__ == "__main__":
    sys.exit(main())
