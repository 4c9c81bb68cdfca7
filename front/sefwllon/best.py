"""The best that is known of a problem: an assignment, bounds, and what they rest on."""

from __future__ import annotations

import time
from dataclasses import dataclass, field

from .problem import Problem
from .programs import VERIFIED, VERIFIED_UNPROVED
from .report import Report

PROVED = "proved"
"""What an answer is called that the proved program gave, without a certificate."""

PROVED_UNPROVED = "by a program that was compiled without proofs"
"""What it is called where that program was compiled without proofs."""

SLICED = "each slice proved, their combination not"
"""What an answer is called that comes of slices of the problem, each of which the proved program answered."""

SLICED_UNPROVED = "each slice by a program that was compiled without proofs"
"""What it is called where the program that answered the slices was compiled without proofs."""

FEWER = "a smaller problem proved, the step to it not"
"""What an answer is called that comes of a smaller problem, which the proved program answered."""

FEWER_UNPROVED = "a smaller problem by a program that was compiled without proofs"
"""What it is called where that program was compiled without proofs."""

ADDED_UP = "added up"
"""What an answer is called that follows from the sums and the least or greatest costs of the file alone."""

START = "start"
"""What is told as the method where no program came to an answer in time."""

SMALLER = "smaller"
"""What is told as the method where the answer comes of a smaller problem."""

OWN = "tabu"
"""What is told as the method of a moment at which the front's own search found a better assignment."""


@dataclass(frozen=True)
class Moment:
    """What was known after so many seconds."""

    seconds: float
    method: str
    cost: int | None
    lower: int | None
    upper: int | None


@dataclass
class Best:
    """The best that is known: an assignment, bounds, and what was checked."""

    values: list[int] | None = None
    cost: int | None = None
    lower: int | None = None
    upper: int | None = None
    method: str = ""
    messages: int = 0
    nodes: int = 0
    error: int = 0
    solved: bool = False
    checked: int | None = None
    """The best bound that a report showed which `dcop check` accepted: a lower one, or an upper one for a greatest sum."""
    proved: int | None = None
    """The best bound that a program told."""
    stopped: str | None = None
    notes: list[str] = field(default_factory=list)
    """What else is to be known of how it was solved."""
    certified: str | None = None
    """The report of `dcop` that was checked, with its certificate."""
    certified_values: list[int] | None = None
    quick: bool = False
    """Whether `dcop` was compiled without proofs."""
    quick_search: bool = False
    """Whether `dcop_search` was compiled without proofs."""
    searched: bool = False
    """Whether the best bound is one of `dcop_search`."""
    sliced: bool = False
    """Whether the best bound is that of several slices of the problem."""
    smaller: bool = False
    """Whether the best bound is that of a smaller problem."""
    began: float = field(default_factory=time.monotonic)
    seconds: float = 0.0
    moments: list[Moment] = field(default_factory=list)

    def take(self, report: Report, goal: str) -> None:
        """Takes what a report says: bounds only narrow, an assignment only gets better."""
        self.method, self.messages = report.method, self.messages + report.deliveries
        if self.cost is None or not is_better(self.cost, report.cost, goal):
            self.values, self.cost = report.values, report.cost
        self.narrow(report.lower if goal == "min" else report.upper, goal)
        self.searched = self.smaller = False
        self.error = report.error
        self.settle(goal)

    def narrow(self, bound: int, goal: str) -> None:
        """Takes a bound on the side of what may be better."""
        self.proved = nearest(self.proved, bound, goal)
        if goal == "min":
            self.lower = nearest(self.lower, bound, goal)
        else:
            self.upper = nearest(self.upper, bound, goal)

    def take_better(self, values: list[int], cost: int, goal: str, by: str | None = None) -> None:
        """Takes an assignment that is better than the one that is kept, found by the method or by what is named."""
        self.values, self.cost = values, cost
        self.settle(goal, by)

    def start(self, values: list[int], problem: Problem) -> None:
        """Takes a first assignment, and as the other bound what all tables give at their best."""
        if problem.goal == "min":
            self.lower = sum(min(table.costs) for table in problem.tables)
        else:
            self.upper = sum(max(table.costs) for table in problem.tables)
        self.method = START
        self.take_better(values, problem.cost(values), problem.goal)

    def settle(self, goal: str, by: str | None = None) -> None:
        """The bound on the side of the assignment is what it costs: what is told as reached is in hand."""
        if self.cost is not None:
            if goal == "min":
                self.upper = self.cost
            else:
                self.lower = self.cost
        self.remember(by or self.method)

    def remember(self, by: str) -> None:
        """Keeps what is known at this moment, and by what, where that is new."""
        known = (self.cost, self.lower, self.upper)
        last = self.moments[-1] if self.moments else None
        if last is None or known != (last.cost, last.lower, last.upper):
            self.moments.append(Moment(time.monotonic() - self.began, by, *known))

    def check(self, report: Report, goal: str, text: str) -> None:
        """Takes the bound of a report that was checked."""
        bound = report.lower if goal == "min" else report.upper
        if self.checked is None or not is_better(bound, self.checked, goal):
            self.checked, self.certified, self.certified_values = bound, text, report.values

    def bound(self, goal: str) -> int | None:
        """What no assignment is better than."""
        return self.lower if goal == "min" else self.upper

    def gap(self, goal: str) -> int | None:
        """By how much the assignment may miss the best sum."""
        bound = self.bound(goal)
        return None if self.cost is None or bound is None else abs(self.cost - bound)

    @property
    def checked_gap(self) -> int | None:
        """By how much it may miss the best sum, by what was checked."""
        return None if self.cost is None or self.checked is None else abs(self.cost - self.checked)

    def rests(self, goal: str) -> str:
        """What the bound rests on, in a word."""
        bound = self.bound(goal)
        if bound is not None and bound == self.checked:
            return VERIFIED_UNPROVED if self.quick else VERIFIED
        if bound is not None and bound == self.proved and self.sliced:
            return SLICED_UNPROVED if self.quick_search else SLICED
        if bound is not None and bound == self.proved:
            return self.by_program
        return ADDED_UP

    @property
    def by_program(self) -> str:
        """What a bound is called that a program told."""
        if self.smaller:
            return FEWER_UNPROVED if self.quick or self.quick_search else FEWER
        return PROVED_UNPROVED if (self.quick_search if self.searched else self.quick) else PROVED


def is_better(cost: int, than: int, goal: str) -> bool:
    return cost < than if goal == "min" else cost > than


def nearest(known: int | None, bound: int, goal: str) -> int:
    """The better of two bounds of the best sum."""
    if known is None:
        return bound
    return max(known, bound) if goal == "min" else min(known, bound)
