"""What `import sefwllon` gives: problems are solved and answers checked from Python, as the commands do it, and by the same programs."""

from __future__ import annotations

import math
from argparse import Namespace
from collections.abc import Iterator, Mapping
from contextlib import contextmanager
from dataclasses import dataclass
from fractions import Fraction
from time import monotonic
from typing import Any, Literal, TypeAlias, cast

from . import replaying
from .asking import checked_report, deadline, judged, kept, solved
from .best import Best
from .commands.check import as_text as verdict_text
from .commands.check import found as found_better
from .explain import explain
from .modelling import FORBIDDEN, Cost, Costs, Forbidden, Goal, Number, Problem
from .problem import Trouble, parse
from .programs import Answer as Printed
from .programs import Programs, Wrong, missing
from .report import certified, fitted, read_report, read_tree
from .solving import METHODS, Refused, refusal, reordered
from .telling import as_text, notes_of, plain_number
from .translate import Translation

__all__ = [
    "FORBIDDEN", "Answer", "Cost", "Costs", "Forbidden", "Goal", "Known", "Method", "Moment", "Node", "Number", "Order", "Problem",
    "Programs", "Status", "Trouble", "Verdict", "check", "order", "replay", "solve", "tree",
]  # fmt: skip

Method: TypeAlias = Literal["auto", "plain", "dpop", "order", "search", "cut", "adopt"]
"""A way to solve; auto tries one after another, as `sefwllon solve` does."""
Status: TypeAlias = Literal["solved", "open", "impossible", "not found"]
"""How a run ended: with an answer as near to the best as was asked for; with one that may be farther from it; with none, as it is known
that no assignment keeps what must hold; or with none that does, though there may be one."""


@dataclass(frozen=True)
class Known:
    """What was known after so many seconds of a run. None where nothing was known."""

    seconds: float
    method: str
    cost: Number | None
    lower: Number | None
    upper: Number | None


@dataclass(frozen=True)
class Moment:
    """What the root of ADOPT's tree knew after so many events of a log, in which so many messages were delivered."""

    events: int
    messages: int
    lower: Number | None
    upper: Number | None


@dataclass(frozen=True)
class Answer:
    """An answer: values, what they cost, how far from the best that may be, and what that rests on. It is told as a text by `str`."""

    status: Status
    goal: str
    values: dict[str, Any]
    """A value for each variable; where the status is neither solved nor open, those that break the least that was found."""
    cost: Number
    """What the values cost by the problem's own tables; what they break counts nothing."""
    lower: Number | None
    """The best sum is at least this. None where the values break what must hold."""
    upper: Number | None
    """The best sum is at most this."""
    gap: Number | None
    """By how much the cost may miss the best one at most."""
    rests_on: str
    """What the gap rests on: verified, proved or added up, or that a smaller problem was proved."""
    broken: tuple[str, ...]
    """The names of the tables whose forbidden choices the values are."""
    certificate: str | None
    """The report of `dcop` with its certificate, which `dcop check` accepted, where there is one."""
    report: str
    """The answer as a report, which `check` takes, and `sefwllon check` from a file."""
    method: str
    seconds: float
    messages: int
    nodes: int
    stopped: str | None
    """Why it went no further, where it might have."""
    notes: tuple[str, ...]
    bounds: tuple[Known, ...]
    """What was known over time."""
    exact_cost: Fraction
    text: str
    """The answer as `sefwllon solve` prints it."""

    @property
    def optimal(self) -> bool:
        """Whether none is better."""
        return not self.broken and self.gap == 0

    def __str__(self) -> str:
        return self.text.rstrip("\n")


@dataclass(frozen=True)
class Verdict:
    """Whether a report holds. It counts as true where the answer is yes, and is told as a text by `str`."""

    answer: Literal["yes", "no", "not decided"]
    rests_on: str | None
    """What the answer rests on: verified, proved or added up, or that a smaller problem was proved; None where nothing was decided."""
    why: str | None
    cost: Number
    """What the report's values cost, added up."""
    bound: Number
    """What no assignment is better than, as the report says."""
    broken: tuple[str, ...]
    better: dict[str, Any] | None
    """Values that are better than the report says that any are, where such were found."""
    text: str

    def __bool__(self) -> bool:
        return self.answer == "yes"

    def __str__(self) -> str:
        return self.text.rstrip("\n")


@dataclass(frozen=True)
class Node:
    """A variable in the tree over which the agents work."""

    name: str
    parent: str | None
    separator: tuple[str, ...]
    """The variables above it that it or one below it shares a table with."""
    cells: int
    """How many cells its table has in DPOP."""


@dataclass(frozen=True)
class Order:
    """An order of the variables in which DPOP needs smaller tables."""

    names: tuple[str, ...]
    tree: tuple[Node, ...]
    largest: int
    """The cells of the largest table in this order."""
    largest_as_given: int


def solve(
    problem: Problem,
    method: Method = "auto",
    time: float | None = None,
    *,
    error: float = 0,
    gap: float = 0,
    workers: int = 1,
    cells: int | None = None,
    certificate: bool = True,
    programs: Programs | None = None,
) -> Answer:
    """Solves a problem within so many seconds, or until the answer is within an error, or within a part of its own cost as 0.02.

    Ctrl-C ends it with the best so far. What is refused, and what a program does wrong, is raised as `Trouble`.

    >>> problem = Problem({"x": [0, 1], "y": [0, 1]})
    >>> problem.table(["x", "y"], [[5, 3], [2, 7]])
    >>> answer = solve(problem, time=60)
    >>> answer.values, answer.cost, answer.status, answer.rests_on
    ({'x': 1, 'y': 0}, 2, 'solved', 'verified')
    """
    part, most = known_words(method, time, error, gap, workers, cells)
    options = asked(time, gap=part, workers=workers, cells=cells, certificate="yes" if certificate else "no")
    programs = programs or Programs()
    with refusals_told(problem):
        told = problem.translation
        best = solved(programs, told, options, int(most * told.scale), method)
        if best.values is None:
            raise Trouble(f"nothing was found: {best.stopped or 'no method fits this problem'}")
        return answer_of(best, told)


def check(problem: Problem, report: str | Answer, time: float | None = None, *, programs: Programs | None = None) -> Verdict:
    """Whether a report on a problem holds: by its certificate, and where it has none by asking whether anything is better than it
    says, within so many seconds.

    >>> problem = Problem({"x": ["a", "b"]})
    >>> problem.table("x", [2, 1])
    >>> print(check(problem, solve(problem)))
    yes, verified: cost 1, and none is better
    """
    programs = programs or Programs()
    with refusals_told(problem):
        told = problem.translation
        verdict = judged(programs, told, report.report if isinstance(report, Answer) else report, asked(time))
        goal, best = told.problem.goal, verdict.best
        bound = told.own_bounds(verdict.bound, verdict.bound)[goal == "max"]
        better = told.told(best.values) if best is not None and best.values is not None and found_better(verdict, told) else None
        return Verdict(
            answer=cast('Literal["yes", "no", "not decided"]', verdict.answer),
            rests_on=verdict.rests or None,
            why=verdict.why or None,
            cost=whole(told.own_sum(verdict.values)),
            bound=whole(bound),
            broken=tuple(told.broken(verdict.values)),
            better=better,
            text=verdict_text(verdict, told),
        )


def tree(problem: Problem, *, programs: Programs | None = None) -> tuple[Node, ...]:
    """The tree over which the agents work, in the order in which the variables were added: each variable stands behind its parent.

    >>> problem = Problem({"a": [0, 1], "b": [0, 1, 2]})
    >>> problem.table(["a", "b"], lambda a, b: a * b)
    >>> [(node.name, node.parent, node.cells) for node in tree(problem)]
    [('a', None, 2), ('b', 'a', 6)]
    """
    with refusals_told(problem):
        return tree_of(programs or Programs(), problem.translation, problem.text())


def order(problem: Problem, tries: int = 20_000, *, time: float | None = None, programs: Programs | None = None) -> Order:
    """An order of the variables in which DPOP's largest table is smaller, or as large, by so many tries of `dcop_order`.

    >>> problem = Problem({name: range(3) for name in "abc"})
    >>> for name in "ac":
    ...     problem.table([name, "b"], lambda one, other: one != other)
    >>> found = order(problem)
    >>> sorted(found.names), found.largest <= found.largest_as_given
    (['a', 'b', 'c'], True)
    """
    programs, text = programs or Programs(), problem.text()
    with refusals_told(problem):
        told = problem.translation
        printed = programs.reorder(text, tries, deadline(asked(time)))
        if printed is None:
            raise Trouble(missing("dcop_order"))
        if printed.status is None:
            raise Trouble("the time was over before dcop_order had an order: give it more time or fewer tries")
        if printed.status != 0:
            raise refusal(printed, "an answer of dcop_order", text)
        found = reordered(told.problem, printed)
        own = dict(zip((v.name for v in told.problem.variables), told.names))
        given, here = (tree_of(programs, told, it) for it in (text, printed.text))
        largest, as_given = (max(node.cells for node in nodes) for nodes in (here, given))
        return Order(tuple(own[v.name] for v in found.variables), here, largest, as_given)


def replay(problem: Problem, report: str | Answer, points: int = 64, *, programs: Programs | None = None) -> tuple[Moment, ...]:
    """The root's bounds while ADOPT ran, at so many moments at most, from an answer by the method adopt: its log is played again.

    >>> problem = Problem({"x": [0, 1], "y": [0, 1]})
    >>> problem.table(["x", "y"], [[5, 3], [2, 7]])
    >>> last = replay(problem, solve(problem, method="adopt"))[-1]
    >>> last.lower, last.upper
    (2, 2)
    """
    text = report.certificate or report.report if isinstance(report, Answer) else report
    text, programs = certified(text) or text, programs or Programs()
    with refusals_told(problem):
        told = problem.translation
        own = fitted(told.problem, text)
        if read_report(text, own).certificate != "log":
            raise Trouble("the report has no log of a run: solve the problem with method='adopt'")
        checked_report(programs, own, text)
        found = replaying.moments(programs, own, text, max(2, points))
        return tuple(moment_of(told, moment) for moment in found)


def known_words(method: str, time: float | None, error: float, gap: float, workers: int, cells: int | None) -> tuple[Fraction, Fraction]:
    """The gap and the error as they are written, where these words can be; as `sefwllon solve` takes them."""
    if method not in METHODS:
        raise Trouble(f"the method is {method!r}, but it must be one of {', '.join(METHODS)}")
    if any(not math.isfinite(it) or it < 0 for it in (error, gap, time or 0)):
        raise Trouble("time, error and gap must be numbers from 0 up")
    if workers not in range(1, 65):
        raise Trouble(f"the number of threads must be from 1 to 64, not {workers}")
    if cells is not None and cells not in range(1_024, 2**28 + 1):
        raise Trouble(f"the number of cells must be from 1024 to 268435456, not {cells}")
    return Fraction(str(gap)), Fraction(str(error))


def asked(time: float | None, **words: object) -> Namespace:
    """What is asked, as the commands have it."""
    return Namespace(began=monotonic(), time=time, quiet=True, **words)


@contextmanager
def refusals_told(problem: Problem) -> Iterator[None]:
    """Raises a refusal of a program as a sentence."""
    try:
        yield
    except Refused as refused:
        raise Trouble(explain(refused.answer.text, problem.text())) from None


def answer_of(best: Best, told: Translation) -> Answer:
    """What is known of a problem, by its own names, values and costs."""
    assert best.values is not None
    goal, values = told.problem.goal, best.values
    own, broken = told.own_sum(values), tuple(told.broken(values))
    least, most = told.own_bounds(best.lower, best.upper)
    lower, upper = (least, own) if goal == "min" else (own, most)
    difference = best.gap(goal)
    gap = None if broken or difference is None else Fraction(difference, told.scale) + told.slack
    report = kept(best, told.problem)
    shown = certified(report)
    return Answer(
        status=status_of(best, told),
        goal=goal,
        values=told.told(values),
        cost=whole(own),
        lower=None if broken else plain_number(lower),
        upper=None if broken else plain_number(upper),
        gap=plain_number(gap),
        rests_on=best.rests(goal),
        broken=broken,
        certificate=shown,
        report=report,
        method=best.method,
        seconds=best.seconds,
        messages=best.messages,
        nodes=best.nodes,
        stopped=best.stopped,
        notes=(*notes_of(best), *told.notes(values)),
        bounds=tuple(known_of(best, told)),
        exact_cost=own,
        text=as_text(best, told),
    )


def status_of(best: Best, told: Translation) -> Status:
    assert best.values is not None
    if not told.broken(best.values):
        return "solved" if best.solved else "open"
    return "impossible" if told.none_keeps(best.bound(told.problem.goal)) else "not found"


def known_of(best: Best, told: Translation) -> Iterator[Known]:
    """What was known over time."""
    for it in best.moments:
        lower, upper = told.own_bounds(it.lower, it.upper)
        cost = None if it.cost is None else told.own_cost(it.cost)
        yield Known(it.seconds, it.method, plain_number(cost), plain_number(lower), plain_number(upper))


def moment_of(told: Translation, moment: replaying.Moment) -> Moment:
    lower, upper = told.own_bounds(moment.lower, moment.upper)
    return Moment(moment.events, moment.deliveries, plain_number(lower), plain_number(upper))


def tree_of(programs: Programs, told: Translation, text: str) -> tuple[Node, ...]:
    """The tree of a problem's text, by the problem's own names."""
    printed: Printed = programs.run(["tree"], text)
    if printed.status != 0:
        raise refusal(printed, "an answer of `dcop tree`", text)
    try:
        nodes = read_tree(printed.text)
    except Trouble as trouble:
        raise Wrong(printed, str(trouble)) from None
    own = dict(zip((v.name for v in told.problem.variables), told.names))
    sizes: Mapping[str, int] = {v.name: v.size for v in told.problem.variables}
    return tuple(
        Node(
            own[node.name],
            None if node.parent is None else own[node.parent],
            tuple(own[name] for name in node.separator),
            math.prod(sizes[name] for name in [node.name, *node.separator]),
        )
        for node in nodes
    )


def whole(cost: Fraction | None) -> Number:
    """A cost that is known, as it is told."""
    told = plain_number(cost)
    assert told is not None
    return told
