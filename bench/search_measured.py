"""The measurements of search.sh, which says what they are."""

from __future__ import annotations

import os
import re
import resource
import shutil
import signal
import statistics
import subprocess
import sys
from dataclasses import dataclass
from pathlib import Path

from search_problems import PROBLEMS, Made, write
from sefwllon.problem import Problem
from trial import values_of

LIMIT = 120
MOST_MEMORY = 1 << 30
SHORT, RUNS = 0.2, 3
# The problem on which the time of a node and of a cell is taken, and the two budgets.
OPEN, FEW, MANY = "pairs25", 400, 10_000_000


@dataclass(frozen=True)
class Run:
    """What came of a run: its processor time and memory, its exit status, None where its time was over, and its output."""

    seconds: float
    megabytes: float
    status: int | None
    out: str

    def number(self, word: str) -> int | None:
        found = re.search(rf"^{word} (\d+)$", self.out, re.M)
        return int(found[1]) if found else None


def run_once(words: list[str], path: Path | None, memory: int | None, told: bool = False) -> Run:
    def held() -> None:
        resource.setrlimit(resource.RLIMIT_CPU, (LIMIT, LIMIT + 1))
        if memory:
            resource.setrlimit(resource.RLIMIT_AS, (memory, memory))

    environment = dict(os.environ, SEARCH_TIMES="1") if told else None
    with open(path or os.devnull) as text:
        err = subprocess.PIPE if told else subprocess.DEVNULL
        child = subprocess.Popen(words, stdin=text, stdout=subprocess.PIPE, stderr=err, preexec_fn=held, env=environment)
        out = child.stdout.read() + (child.stderr.read() if told else b"")
        _, status, used = os.wait4(child.pid, 0)
    child.returncode = os.waitstatus_to_exitcode(status)
    over = child.returncode in (-signal.SIGXCPU, -signal.SIGKILL)
    return Run(used.ru_utime + used.ru_stime, used.ru_maxrss / 1024, None if over else child.returncode, out.decode())


def run(words: list[str], path: Path | None = None, memory: int | None = None) -> Run:
    """A run; of short ones the quickest of some."""
    runs = [run_once(words, path, memory)]
    while runs[0].seconds < SHORT and len(runs) < RUNS:
        runs.append(run_once(words, path, memory))
    return min(runs, key=lambda it: it.seconds)


@dataclass(frozen=True)
class Row:
    """A problem, and the runs of the programs; the best sum that toulbar2 has found, and None where it is not there."""

    made: Made
    problem: Problem
    ours: Run
    plain: Run
    other: Run | None
    optimum: int | None

    def solved(self) -> bool:
        return self.ours.status == 0


def whole(problem: Problem) -> int:
    return sum(max(table.costs) for table in problem.tables)


def optimum_of(problem: Problem, told: Run) -> int | None:
    """What toulbar2 has proved to be the best sum."""
    found = re.search(r"^Optimum: (\d+) ", told.out, re.M)
    if not found:
        return None
    return int(found[1]) if problem.goal == "min" else whole(problem) - int(found[1])


def checked(problem: Problem, told: Run, name: str) -> None:
    """The printed values cost what is printed, and the bounds enclose it."""
    if told.status not in (0, 1):
        return
    cost, lower, upper = (told.number(word) for word in ("cost", "lower", "upper"))
    values = values_of(problem, [line.split() for line in told.out.splitlines()])
    assert values is not None and problem.cost(values) == cost, (name, "values")
    assert 0 <= lower <= cost <= upper <= whole(problem), (name, "bounds")
    assert told.status == 1 or lower == upper, (name, "solved")


def measured(made: Made, program: str, plain: str, folder: Path) -> Row:
    write(made, folder)
    path, problem = folder / f"{made.name}.dcop", made.make()
    ours, beside = run([program], path, MOST_MEMORY), run([plain], path)
    other = run(["toulbar2", str(folder / f"{made.name}.wcsp")]) if shutil.which("toulbar2") else None
    optimum = optimum_of(problem, other) if other else None
    for told in (ours, beside):
        checked(problem, told, made.name)
    known = {it.number("cost") for it in (ours, beside) if it.status == 0} | ({optimum} if optimum is not None else set())
    assert len(known) < 2, (made.name, known)
    return Row(made, problem, ours, beside, other, optimum)


def status_of(it: Run) -> str:
    return {0: "solved", 1: "spent", None: "time over"}.get(it.status, f"exit {it.status}")


def line_of(row: Row) -> str:
    it = row.ours
    bounds = f"{it.number('lower')} to {it.number('upper')}" if it.number("nodes") is not None else ""
    other = "" if row.other is None else f"{row.other.seconds:8.2f} s" + (f" {it.seconds / row.other.seconds:6.2f}" if row.optimum is not None else "   open")
    return (f"{row.made.what:42} {status_of(it):9} {bounds:14} {it.number('nodes') or 0:>12,} {it.seconds:8.2f} s {it.megabytes:5.0f} MB"
            f" {row.plain.seconds:8.2f} s {it.seconds / row.plain.seconds:6.2f} {other}")


def times_of_parts(program: str, plain: str, folder: Path) -> tuple[list[float], list[float]]:
    """The seconds of a cell of a joined table, and of a node, of both programs."""
    path = folder / f"{OPEN}.dcop"
    told = run_once([plain, "--budget", str(FEW)], path, None, told=True).out
    cells = sum(map(int, re.findall(r"^bounds .* joined (\d+) ", told, re.M)))
    few, many = ([[run_once([it, "--budget", str(budget)], path, None) for it in (program, plain) for _ in (0, 1, 2)] for budget in (FEW, MANY)])
    least = [[min(runs[at:at + 3], key=lambda it: it.seconds) for at in (0, 3)] for runs in (few, many)]
    nodes = [most.number("nodes") - less.number("nodes") for less, most in zip(*least)]
    return [it.seconds / cells for it in least[0]], [(most.seconds - less.seconds) / count for less, most, count in zip(*least, nodes)]


def goals(rows: list[Row], cells: list[float], nodes: list[float]) -> list[tuple[str, str, bool | None]]:
    """For each goal what it is, what was measured, and whether it is met; None where that can't be told."""
    solved = [row for row in rows if row.solved()]
    quick = [row for row in rows if row.made.family in ("grid", "colouring")]
    slowest = max(row.ours.seconds for row in quick)
    both = [row for row in solved if row.optimum is not None]
    ratios = [row.ours.seconds / row.other.seconds for row in both]
    sums = sum(row.ours.seconds for row in both), sum(row.other.seconds for row in both if row.other)
    gaps = [(row.ours.number("upper") or 0) / max(1, row.ours.number("lower") or 0) for row in rows if row.made.family == "pairs"]
    peak = max(row.ours.megabytes for row in rows)
    here = bool(both) or None
    # A program that makes fewer tables with so few nodes has other stages.
    alike = cells[0] > cells[1] / 4 or None
    return [
        (f"at least 10 of 13 solved within {LIMIT} s", f"{len(solved)}", len(solved) >= 10),
        ("each grid and colouring solved within 3 s", f"{slowest:.2f} s", slowest <= 3 and all(row.solved() for row in quick)),
        ("middle ratio to toulbar2 at most 1", f"{statistics.median(ratios):.2f}" if here else "not there", here and statistics.median(ratios) <= 1),
        ("sum of times at most twice that of toulbar2", f"{sums[0]:.2f} s, {sums[1]:.2f} s" if here else "not there", here and sums[0] <= 2 * sums[1]),
        ("upper at most 1.3 lower on the three of anytime.sh", ", ".join(f"{gap:.2f}" for gap in gaps), all(0 < gap <= 1.3 for gap in gaps)),
        ("a node in at most 1.25 the time of plain Rust", f"{nodes[0] * 1e9:.0f} ns, {nodes[1] * 1e9:.0f} ns, {nodes[0] / nodes[1]:.2f}", nodes[0] <= 1.25 * nodes[1]),
        ("a cell in at most 1.25 the time of plain Rust", f"{cells[0] * 1e9:.1f} ns, {cells[1] * 1e9:.1f} ns, {cells[0] / cells[1]:.2f}" if alike else "other stages", alike and cells[0] <= 1.25 * cells[1]),
        ("held to 1 GB", f"{peak:.0f} MB", peak <= 1024 and all(row.ours.status in (0, 1, None) for row in rows)),
    ]


def main() -> None:
    program, plain, folder = sys.argv[1], sys.argv[2], Path(sys.argv[3])
    print(f"{'problem':42} {'status':9} {'bounds':14} {'nodes':>12} {'time':>10} {'memory':>8} {'plain':>10} {'ratio':>6} {'toulbar2':>10} {'ratio':>6}", flush=True)
    rows = []
    for made in PROBLEMS:
        rows.append(measured(made, program, plain, folder))
        print(line_of(rows[-1]), flush=True)
    cells, nodes = times_of_parts(program, plain, folder)
    told = goals(rows, cells, nodes)
    for what, found, met in told:
        print(f"{what:52} {found:28} {'not measured' if met is None else 'met' if met else 'MISSED'}")
    print(f"{sum(met is True for _, _, met in told)} of {len(told)} goals are met")
    sys.exit(any(met is False for _, _, met in told))


if __name__ == "__main__":
    main()
