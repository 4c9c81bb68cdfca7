"""The measurements of sweep.sh, which says what they are."""

from __future__ import annotations

import compileall
import importlib.util
import json
import os
import subprocess
import sys
import time
from pathlib import Path

import sefwllon
from sefwllon.lab.pool import processors
from sefwllon.lab.rows import read_rows

RUNS, PROBLEM, TRIES = 1_000, "pairs20", 3
MOST_TIMES, LEAST_TIMES = 1.5, 2.5
COLOURING = ["--variables", "22", "--links", "2", "--costs", "1..100"]
COSTS: set[object] = set()
"""The costs of all answers, which have to be one."""


def command(*words: str) -> tuple[float, str]:
    """How long the command takes by the clock, and what it prints."""
    began = time.monotonic()
    told = subprocess.run([sys.executable, "-m", "sefwllon", *words], capture_output=True, text=True)
    assert told.returncode == 0, (words, told.returncode, told.stdout, told.stderr)
    return time.monotonic() - began, told.stdout


def swept(folder: Path, name: str, *more: str) -> float:
    """The time of a sweep, as a part of that of its runs over all processors."""
    out = folder / f"{name}.csv"
    taken, _ = command("sweep", str(folder / "problems"), "--methods", "dpop", "-o", str(out), *more)
    rows = read_rows(str(out))
    runs = sum(float(row["seconds"]) for row in rows)
    assert len(rows) == RUNS and all(row["status"] in ("solved", "wide") for row in rows)
    times = taken * processors() / runs
    print(f"{name}: {RUNS} runs of {1000 * runs / RUNS:.1f} ms on {processors()} processors in {taken:.2f} s, {times:.2f} times their time; load {load()}")
    return times


def shared(folder: Path, address: str, count: int) -> float:
    """The least time of a problem that is shared out among so many workers."""
    best = float("inf")
    for _ in range(TRIES):
        taken, told = command("solve", "--json", str(folder / f"{PROBLEM}.dcop"), "--cluster", address)
        answer, best = json.loads(told), min(best, taken)
        assert answer["solved"] and len(answer["slices"]["workers"]) == count, answer
        COSTS.add(answer["cost"])
    slices = {name: count for name, count in answer["slices"].items() if name != "workers"}
    print(f"{PROBLEM} by {address}: cost {answer['cost']}, {answer['nodes']:,} nodes, {slices}, {best:.2f} s; load {load()}")
    assert len(COSTS) == 1, COSTS
    return best


def on_dask(folder: Path, count: int) -> float:
    """The least time on a Dask cluster of this machine with so many workers."""
    from distributed import LocalCluster

    with LocalCluster(n_workers=count, threads_per_worker=1, dashboard_address=None) as cluster:
        return shared(folder, cluster.scheduler_address, count)


def load() -> str:
    """The machine's load, of the last minute."""
    return f"{os.getloadavg()[0]:.1f}"


def main() -> int:
    folder = Path(sys.argv[1])
    print(f"load {load()} before")
    command("generate", "colouring", *COLOURING, "--count", str(RUNS), "-o", str(folder / "problems"))
    compileall.compile_dir(str(Path(sefwllon.__file__).parent), quiet=1)
    times = swept(folder, "this machine")
    gains = [shared(folder, "local:1", 1) / shared(folder, "local:4", 4)]
    if importlib.util.find_spec("distributed"):
        gains.append(on_dask(folder, 1) / on_dask(folder, 4))
    print(f"a sweep at most {MOST_TIMES} times its runs: {times:.2f}: {'met' if times <= MOST_TIMES else 'missed'}")
    for what, gain in zip(("processes", "Dask workers"), gains):
        print(f"four {what} at least {LEAST_TIMES} times as fast as one: {gain:.2f}: {'met' if gain >= LEAST_TIMES else 'missed'}")
    return 0 if times <= MOST_TIMES and min(gains) >= LEAST_TIMES else 1


if __name__ == "__main__":
    sys.exit(main())
