"""`sefwllon draw`: pictures of a problem's graph, of its tree, of a run's bounds."""

from __future__ import annotations

import argparse
from pathlib import Path

from .. import draw, replaying
from ..arguments import Commands, natural
from ..asking import checked_report
from ..files import load, read_text
from ..output import complain, say
from ..problem import Trouble
from ..programs import Programs, Wrong, missing
from ..progress import Progress
from ..report import Report, certified, fitted, printed, read_report, read_tree
from ..solving import refusal
from ..telling import SOLVED, TEXT, none_keeps_all, noun
from ..timetable.besides import test_alone
from ..translate import Translation, number


def add(commands: Commands) -> None:
    picture = commands.add_parser(
        "draw",
        help="a picture as SVG: the graph of the problem, its tree, or the bounds of a run",
        description="Draws a problem as SVG. `graph` draws which variables share a table, with the values of a report if one is "
        "named. `tree` draws the agents' tree, with separators and table sizes. `bounds` draws the root's bounds over the "
        "messages, and needs a report with a log. Without any of these words, it draws the bounds if the report has a log, else the graph.",
        usage="sefwllon draw [-h] [--points N] [graph|tree|bounds] FILE [REPORT]",
    )
    picture.add_argument("words", metavar="[graph|tree|bounds] FILE [REPORT]", nargs="+")
    picture.add_argument("--points", type=natural, metavar="N", help="draw the bounds at N moments at most; without dcop_trace the default is 64")
    picture.set_defaults(run=run)


def run(options: argparse.Namespace) -> int:
    what = options.words.pop(0) if options.words[0] in ("graph", "tree", "bounds") else None
    if not 1 <= len(options.words) <= 2:
        raise Trouble("name one FILE and, if there is one, a REPORT after it")
    file, *reports = options.words
    options.text = read_text(file)
    programs = Programs()
    told = load(file, options.text, programs)
    report = read_text(reports[0]) if reports else None
    if what is None:
        what = "bounds" if report is not None and "\ncertificate log" in report else "graph"
    if what == "tree":
        picture = tree_of(programs, told, report)
    elif what == "graph":
        picture = graph_of(told, report)
    elif report is None:
        raise Trouble("the bounds of a run are drawn from a report with a log: name it after the file")
    else:
        test_alone(file, report)
        report = certified(report) or report
        options.text = fitted(told.problem, report).text() + report
        picture = bounds_of(programs, told, report, Path(file).name, options.points)
    return SOLVED if say(picture) else TEXT


def graph_of(told: Translation, report: str | None) -> str:
    """The problem's graph, by the user's own names and values."""
    if report is None:
        return draw.graph(told.problem, told.names, [f"{v.size} values" for v in told.problem.variables])
    problem = fitted(told.problem, report)
    by_name = dict(zip((v.name for v in problem.variables), read_report(printed(report), problem).values))
    chosen = told.told([by_name[v.name] for v in told.problem.variables])
    return draw.graph(told.problem, told.names, [str(chosen.get(name, "")) for name in told.names])


def tree_of(programs: Programs, told: Translation, report: str | None) -> str:
    """The tree of the agents, as the file has its variables, or in the order of a report."""
    problem = told.problem if report is None else fitted(told.problem, report)
    answer = programs.run(["tree"], problem.text())
    if answer.status != 0:
        raise refusal(answer, "an answer of `dcop tree`")
    try:
        nodes = read_tree(answer.text)
    except Trouble as trouble:
        raise Wrong(answer, str(trouble)) from None
    own = dict(zip((v.name for v in told.problem.variables), told.names))
    return draw.tree(problem, nodes, own)


def bounds_of(programs: Programs, told: Translation, report: str, title: str, points: int | None) -> str:
    """The root's bounds over the messages of a log."""
    problem = fitted(told.problem, report)
    if read_report(report, problem).certificate != "log":
        raise Trouble("the report has no log: make it with `sefwllon solve --method adopt --report OUT`")
    read = checked_report(programs, problem, report)
    if not programs.trace:
        complain(f"{missing('dcop_trace')}; without it the log is replayed many times, and the bounds are shown at {points or replaying.POINTS} moments at most")
    with Progress(told) as progress:
        moments = replaying.moments(programs, problem, report, None if points is None else max(2, points), progress.replayed)
    return draw.bounds(moments, lambda total: number(told.own_cost(total)), f"{bounds_title(told, read, title)} ({programs.verified})", read.cost)


def bounds_title(told: Translation, read: Report, title: str) -> str:
    own = {what: number(told.own_cost(getattr(read, what))) for what in ("cost", "lower", "upper")}
    known = "none is better" if read.exact else f"the best lies between {own['lower']} and {own['upper']}"
    found = f"{noun(told)} {own['cost']}, {known}"
    if told.top is not None and told.none_keeps(read.cost):
        found = none_keeps_all(told) if told.none_keeps(read.lower) else f"no solution, the best sum is at least {own['lower']}"
    return f"{title}: {read.deliveries:,} messages, {found}"
