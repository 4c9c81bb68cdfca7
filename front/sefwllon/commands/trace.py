"""`sefwllon trace`: a run of the agents, message by message."""

from __future__ import annotations

import argparse
import json
from collections.abc import Callable, Generator, Iterator
from contextlib import closing
from itertools import islice
from pathlib import Path

from .. import dpop_run, sequence
from ..arguments import Commands, natural
from ..asking import checked_report
from ..files import load, read_text
from ..output import say, test_outputs, write
from ..problem import Problem, Trouble
from ..programs import Programs, missing
from ..report import Report, certified, fitted, read_report
from ..run_telling import Names, Told, event_told, event_text, own_costs, step_text, step_told
from ..telling import SOLVED, TEXT
from ..timetable.besides import test_alone
from ..tracing import LAST, Event, traced
from ..translate import Translation
from .draw import bounds_title

CHUNK = 500
"""How many steps are printed at once."""


def add(commands: Commands) -> None:
    trace = commands.add_parser(
        "trace",
        help="a run of the agents, message by message",
        description="Prints a run of the agents, message by message. For a run of ADOPT it needs a report with a log, and dcop_trace: it prints what "
        "each agent took, its state, and what it sent. For a run of DPOP it needs a report with tables: it prints which tables go up, and "
        "which values come down. dcop check must accept the report first.",
    )
    trace.add_argument("file", metavar="FILE")
    trace.add_argument("report", metavar="REPORT")
    trace.add_argument("--from", dest="first", type=natural, default=0, metavar="K", help="the first event that is printed; 0 is the start")
    trace.add_argument("--to", dest="last", type=natural, default=LAST, metavar="K", help="the last event that is printed")
    trace.add_argument("--json", action="store_true", help="the run as JSON, a line for each step")
    trace.add_argument("-o", "--out", metavar="SVG", help="draw the run as a sequence diagram into this file")
    trace.set_defaults(run=run)


def run(options: argparse.Namespace) -> int:
    options.text = read_text(options.file)
    test_outputs([options.file, options.report], options.out)
    programs = Programs()
    told = load(options.file, options.text, programs)
    report = read_text(options.report)
    test_alone(options.file, report)
    report = certified(report) or report
    problem = fitted(told.problem, report)
    options.text = problem.text() + report
    found = Run(programs, told, problem, report, options)
    if options.out:
        write(options.out, found.picture())
        return SOLVED if say(f"{found.title}: drawn in {options.out}\n") else TEXT
    return SOLVED if all(map(say, chunks(found.as_json() if options.json else found.as_text()))) else TEXT


def chunks(parts: Generator[str, None, None]) -> Iterator[str]:
    """Texts put together, so many at a time."""
    with closing(parts):
        while some := list(islice(parts, CHUNK)):
            yield "".join(some)


class Run:
    """A run that is told: by its log, or by its tables."""

    def __init__(self, programs: Programs, told: Translation, problem: Problem, report: str, options: argparse.Namespace):
        self.programs, self.told, self.names = programs, told, Names.of(told)
        self.text, self.report = problem.text() + report, report
        self.first, self.last = options.first, options.last
        read = read_report(report, problem)
        self.is_adopt = read.certificate == "log"
        if self.is_adopt and not programs.trace:
            raise Trouble(f"{missing('dcop_trace')}; it prints the messages of ADOPT")
        if not self.is_adopt and (read.method, read.certificate) != ("dpop", "tables"):
            raise Trouble(untold(read))
        self.read = checked_report(programs, problem, report)
        self.chosen = {variable.name: value for variable, value in zip(problem.variables, read.values)}
        self.title = f"{bounds_title(told, self.read, Path(options.file).name)} ({programs.verified})"

    def events(self, first: int) -> Generator[Event, None, None]:
        return traced(self.programs.trace, self.text, first, self.last)

    def steps(self) -> Iterator[dpop_run.Step]:
        return (step for step in dpop_run.steps(dpop_run.utils(self.report)) if self.first <= step.number <= self.last)

    def picture(self) -> str:
        """The run as a sequence diagram."""
        if not self.is_adopt:
            return sequence.of_dpop(self.names, self.steps(), self.chosen).text()
        with closing(self.events(0)) as events:
            return sequence.of_adopt(self.names, events, self.first).text()

    def as_text(self) -> Generator[str, None, None]:
        """The run as lines, a piece for each step."""
        note = own_costs(self.told)
        yield f"{self.title}\n" + (f"note: {note}\n" if note else "")
        yield from self.each(lambda event: event_text(self.names, event), lambda step: step_text(self.names, step, self.chosen))

    def as_json(self) -> Generator[str, None, None]:
        """The run as one JSON object, whose steps stand in a line each."""
        head = {
            "method": self.read.method,
            "status": self.read.status,
            "goal": self.told.problem.goal,
            "deliveries": self.read.deliveries,
            "cost": self.read.cost,
            "lower": self.read.lower,
            "upper": self.read.upper,
            "checked": self.programs.verified,
            "note": own_costs(self.told),
            "agents": list(self.names.own.values()),
        }
        yield json.dumps(head)[:-1] + ', "steps": ['
        parts = self.each(lambda event: line(event_told(self.names, event)), lambda step: line(step_told(self.names, step, self.chosen)))
        for at, part in enumerate(parts):
            yield ("," if at else "") + part
        yield "\n]}\n"

    def each(self, of_event: Callable[[Event], str], of_step: Callable[[dpop_run.Step], str]) -> Iterator[str]:
        """Each step, as it is told."""
        if not self.is_adopt:
            yield from map(of_step, self.steps())
            return
        with closing(self.events(self.first)) as events:
            yield from map(of_event, events)


def line(told: Told) -> str:
    return "\n" + json.dumps(told)


def untold(read: Report) -> str:
    """Why a run can't be told from a report."""
    if read.method not in ("adopt", "dpop"):
        return f"trace only shows runs of ADOPT and DPOP, but this report is of the method {read.method}"
    words = "--method adopt" if read.method == "adopt" else "--method dpop"
    return f"the report has no certificate, which is needed to show the run: make the report with `sefwllon solve {words} --report OUT`"
