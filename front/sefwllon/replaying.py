"""The root's bounds while ADOPT ran, from the log of a run: `dcop_trace` plays it again, or where that is not there `dcop replay`
does, once for each moment. Nothing in the log is trusted."""

from __future__ import annotations

from collections.abc import Callable
from contextlib import closing
from dataclasses import dataclass, replace

from .explain import differs
from .problem import Problem, Trouble
from .programs import Programs
from .solving import NO, refusal
from .tracing import traced

POINTS = 64
"""How often a log is replayed where `dcop_trace` is not there, at most."""


@dataclass(frozen=True)
class Moment:
    """What the root knows after some events of a log: bounds of the best sum; None for one that is not there yet."""

    events: int
    deliveries: int
    lower: int | None
    upper: int | None


def deliveries(report: str) -> list[int]:
    """The messages delivered after 0, 1, 2 and so on events of the log, by its lines."""
    told = [0]
    for line in report.splitlines():
        words = line.split()
        if words[:1] == ["event"]:
            counts = words[4::2]
            if not all(word.isdigit() for word in counts):
                raise Trouble(f"the log's line `{line[:120]}` is not an event")
            told.append(told[-1] + sum(map(int, counts)))
    return told


def moments(
    programs: Programs,
    problem: Problem,
    report: str,
    points: int | None = None,
    tell: Callable[[int], None] = lambda count: None,
) -> list[Moment]:
    """What the root knows at the start, at each moment at which that changes, and at the end; at so many moments at most, where a
    number is given."""
    if not programs.trace:
        return by_replays(programs, problem, report, points or POINTS, tell)
    found = changes(programs, problem, report)
    if points is None or len(found) <= points:
        return found
    last = max(points, 2) - 1
    return [found[place * (len(found) - 1) // last] for place in range(last + 1)]


def changes(programs: Programs, problem: Problem, report: str) -> list[Moment]:
    """What the root knows at the start, whenever that changes, and at the end, by one pass over the log."""
    delivered = deliveries(report)
    root = problem.variables[0].name
    found: list[Moment] = []
    with closing(traced(programs.trace, problem.text() + report)) as events:
        for event in events:
            if event.agent == root:
                now = moment(problem, event.number, delivered[event.number], event.state.lower, event.state.upper)
                if not found or bounds(found[-1]) != bounds(now):
                    found.append(now)
    last = len(delivered) - 1
    return found if found[-1].events == last else [*found, replace(found[-1], events=last, deliveries=delivered[last])]


def by_replays(programs: Programs, problem: Problem, report: str, points: int, tell: Callable[[int], None]) -> list[Moment]:
    """What the root knows at so many moments of a run, and at all at which it changes where they are fewer.

    A root's bounds only narrow, so nothing happens between two moments with the same bounds. The widest part in
    which something does is halved, again and again."""
    delivered = deliveries(report)
    found = {k: replayed(programs, problem, report, k, delivered) for k in (0, len(delivered) - 1)}
    while len(found) < points:
        places = sorted(found)
        parts = [(delivered[b] - delivered[a], a, b) for a, b in zip(places, places[1:]) if b > a + 1]
        open_parts = [it for it in parts if bounds(found[it[1]]) != bounds(found[it[2]])]
        if not open_parts:
            break
        _, first, last = max(open_parts)
        middle = (first + last) // 2
        found[middle] = replayed(programs, problem, report, middle, delivered)
        tell(len(found))
    return [found[k] for k in sorted(found)]


def bounds(moment: Moment) -> tuple[int | None, int | None]:
    return moment.lower, moment.upper


def replayed(programs: Programs, problem: Problem, report: str, events: int, delivered: list[int]) -> Moment:
    """What the root knows after so many events."""
    answer = programs.run(["replay", "--after", str(events)], problem.text() + report)
    if answer.unserved:
        raise Trouble("this program dcop is too old for the picture of a log, which needs `dcop replay`: build it again")
    if answer.status == NO:
        raise Trouble("no run has this log: " + differs(answer.text))
    if answer.status != 0:
        raise refusal(answer, "an answer of `dcop replay`")
    root = problem.variables[0].name
    for line in answer.text.splitlines():
        words = line.split()
        if words[:2] == ["agent", root]:
            told = dict(zip(words[2::2], words[3::2]))
            return moment(problem, events, delivered[events], int(told["lower"]), None if told["upper"] == "-" else int(told["upper"]))
    raise Trouble(f"dcop replay printed no line about {root}, the root")


def moment(problem: Problem, events: int, messages: int, least: int, most: int | None) -> Moment:
    """The bounds as those of the problem's own sums: for a greatest sum the agents count what is missed."""
    if problem.goal == "min":
        return Moment(events, messages, least, most)
    greatest = sum(max(table.costs) for table in problem.tables)
    return Moment(events, messages, None if most is None else greatest - most, greatest - least)
