#!/usr/bin/env python3
"""A stand-in for `dcop_search` that tries all assignments. FAKE_SEARCH tells how it misbehaves, by words: spends: it is spent
below a budget of 10,000,000 nodes, where it is asked for the best; lies: it prints a cost that is one too low; boasts: its bound
is better than an assignment that there is; claims: it says that it has ended, and its bound says that it has not; slow: it takes for
ever, once it has written a word to the file FAKE_MARK; full: it has not enough memory for as many cells as it takes by itself;
empty: it never has enough; dies: it is ended by a signal from a budget of 1,000,000 nodes on."""

import itertools
import os
import signal
import sys
import time
from pathlib import Path

sys.path.insert(0, str(Path(__file__).resolve().parents[1]))

from sefwllon.problem import parse  # noqa: E402

FAKE = os.environ.get("FAKE_SEARCH", "").split()
RANGES = {"--budget": (1, 10**12), "--better": (0, 2**62), "--error": (0, 2**62), "--cells": (1_024, 2**28)}


def main() -> int:
    words = sys.argv[1:]
    for place in range(0, len(words), 2):
        low, high = RANGES.get(words[place], (1, 0))
        if not low <= int(words[place + 1]) <= high:
            print(f"refused words at {place + 2} kind 7")
            return 2
    options = {word: int(value) for word, value in zip(words[::2], words[1::2])}
    if "FAKE_CALLS" in os.environ:
        with open(os.environ["FAKE_CALLS"], "a") as calls:
            calls.write(" ".join(words) + "\n")
    problem = parse(sys.stdin.read())
    budget = options.get("--budget", 10**8)
    if "slow" in FAKE:
        Path(os.environ.get("FAKE_MARK", os.devnull)).write_text("begun")
        time.sleep(60)
    if "empty" in FAKE or ("full" in FAKE and "--cells" not in options):
        return 7
    if "dies" in FAKE and budget >= 10**6:
        os.kill(os.getpid(), signal.SIGKILL)
    sign = 1 if problem.goal == "min" else -1
    choices = itertools.product(*(range(v.size) for v in problem.variables))
    best = min(choices, key=lambda choice: sign * problem.cost(list(choice)))
    cost, better = problem.cost(list(best)), options.get("--better")
    spent = "spends" in FAKE and budget < 10**7
    found = better is None or sign * cost < sign * better - options.get("--error", 0)
    bound = cost if found else sign * (sign * better - options.get("--error", 0))
    if spent:
        found, bound = False, 0 if sign > 0 else sum(max(table.costs) for table in problem.tables)
    if "boasts" in FAKE:
        bound = cost + sign
    if "claims" in FAKE:
        bound = 0 if sign > 0 else 2**40
    print(f"status {'spent' if spent else 'solved' if found else 'none'}\nmethod search")
    if problem.goal == "max":
        print("goal max")
    print(f"error {options.get('--error', 0)}\nnodes {min(budget, 1000)}")
    if found:
        print(f"cost {cost - ('lies' in FAKE)}")
    if found or sign > 0:
        print(f"lower {bound if sign > 0 else cost}")
    if found or sign < 0:
        print(f"upper {bound if sign < 0 else cost}")
    if found:
        for variable, value in zip(problem.variables, best):
            print(f"value {variable.name} {variable.value_name(value)}")
    print("end")
    return 1 if spent else 0 if found else 10


if __name__ == "__main__":
    raise SystemExit(main())
