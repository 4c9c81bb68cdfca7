"""`sefwllon sweep`: many runs, a row for each."""

from __future__ import annotations

import argparse
from contextlib import closing
from pathlib import Path

from ..arguments import Commands, natural, seconds
from ..output import complain, say
from ..problem import Trouble
from ..programs import Programs
from ..telling import OPEN, SOLVED, TEXT

INTERRUPTED = 130


def add(commands: Commands) -> None:
    sweep = commands.add_parser(
        "sweep",
        help="many runs: each method on each problem, a row for each in a CSV",
        description="Runs each method on each problem, and appends a row to a CSV for each run. If a sweep was stopped, the same command "
        "goes on with it: a run whose row is in the CSV is not done again.",
    )
    sweep.add_argument("problems", metavar="PROBLEM", nargs="+", help="a file of any kind that solve takes, or a folder of such files")
    sweep.add_argument(
        "--methods",
        default="dpop,order,search",
        metavar="M,M",
        help="plain, dpop, order, search, cut, adopt, auto, with options as in adopt:error=5:budget=1000 (dpop,order,search)",
    )
    sweep.add_argument("--time", type=seconds, default=10.0, metavar="10s", help="the processor time that a run may take (10s)")
    sweep.add_argument("-o", "--out", default="results.csv", metavar="CSV", help="the file for the rows (results.csv)")
    add_place(sweep)
    sweep.set_defaults(run=run)


def add_place(command: argparse.ArgumentParser) -> None:
    """The words that say where runs are done."""
    command.add_argument("--cluster", metavar="ADDRESS", help="run on the workers of the Dask scheduler at this address")
    command.add_argument("--processes", type=natural, metavar="N", help="processes on this machine, without --cluster (one for each processor)")


def run(options: argparse.Namespace) -> int:
    from ..lab.methods import read_methods
    from ..lab.rows import Results
    from ..lab.sweep import Plan, Told, files_of, programs_of, sweep

    if options.time <= 0 or options.processes == 0:
        raise Trouble("--time and --processes must be above 0")
    methods, files = read_methods(options.methods), files_of(options.problems)
    if Path(options.out).exists() and any(path.exists() and path.samefile(options.out) for path in files):
        raise Trouble(f"{options.out} is one of the problems, so rows can't be appended to it: name another file by -o")
    programs, sums = programs_of(methods, Programs())
    plan, failed, stopped = Plan(files, methods, options.time, sums), [], ""
    with Results(options.out) as results:
        left = sum(1 for _ in plan.jobs(results.done))
        told = Told(len(plan), len(plan) - left)
        if left:
            try:
                with closing(place(options, programs)) as pool:
                    failed = sweep(plan, pool, results, told)
            except KeyboardInterrupt:
                stopped = "interrupted"
            except Trouble as trouble:
                stopped = str(trouble)
            told.end()
        good = say(f"{told.done} of {len(plan)} runs are in {options.out}, {results.count} of them new\n")
    for line in failed:
        complain(f"not done: {line}")
    if stopped or failed:
        complain(f"{stopped}; run the same command again to go on" if stopped else "run the same command again to try these runs again")
    return INTERRUPTED if stopped == "interrupted" else TEXT if stopped or not good else OPEN if failed else SOLVED


def place(options: argparse.Namespace, programs: dict[str, str]):  # type: ignore[no-untyped-def]
    """The pool that does the runs."""
    if options.cluster:
        from ..lab.cluster import Cluster

        return Cluster(options.cluster, programs)
    from ..lab.pool import Local

    return Local(programs, options.processes)
