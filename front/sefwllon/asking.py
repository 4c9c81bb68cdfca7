"""What the commands ask of the proved programs: to solve a problem, and whether a report holds."""

from __future__ import annotations

import argparse
from dataclasses import dataclass
from fractions import Fraction

from .best import ADDED_UP, Best, is_better
from .explain import differs, explain
from .files import load
from .output import reading
from .problem import Problem, Trouble
from .programs import Programs, Wrong
from .progress import Progress
from .report import Report, certified, fitted, printed, read_report, written
from .solving import NO, Aim, Refused, Solver, accepts, in_order, refusal
from .translate import Translation


def deadline(options: argparse.Namespace) -> float | None:
    """The moment at which the time is over, which holds from the start of the command."""
    return None if options.time is None else options.began + options.time


def loaded(options: argparse.Namespace, programs: Programs | None = None) -> Translation:
    """The problem of the command's file, which is read within its time."""
    with reading(deadline(options) if hasattr(options, "time") else None):
        return load(options.file, options.text, programs)


@dataclass
class Near(Aim):
    """An answer is good enough within an error, or within a part of its own cost, in the user's own costs."""

    told: Translation | None = None
    part: Fraction = Fraction(0)

    def reached(self, best: Best, goal: str) -> bool:
        return super().reached(best, goal) or bool(self.part and self.within(best, goal))

    def within(self, best: Best, goal: str) -> bool:
        gap = best.gap(goal)
        if self.told is None or best.values is None or gap is None or self.told.broken(best.values):
            return False
        return Fraction(gap, self.told.scale) + self.told.slack <= self.part * abs(self.told.own_sum(best.values))

    def allowed(self, best: Best) -> int:
        """The error under which what is found is within the part: of the least that it may cost, or of what is in hand."""
        if not self.part or self.told is None or self.told.slack or best.values is None or self.told.broken(best.values):
            return self.error
        goal = self.told.problem.goal
        least = best.lower if goal == "min" else best.cost
        own = Fraction(0) if least is None else self.told.own_cost(least)
        return max(self.error, int(self.part * own * self.told.scale) if own > 0 else 0)


def aim_of(told: Translation, options: argparse.Namespace, error: int) -> Aim:
    """When an answer is good enough, by the command's words."""
    return Near(error, told, options.gap or Fraction(0)) if getattr(options, "gap", None) else Aim(error)


def solved(programs: Programs, told: Translation, options: argparse.Namespace, error: int = 0, method: str = "auto") -> Best:
    """Solves a problem."""
    aim = aim_of(told, options, error)
    with Progress(told, options.began, getattr(options, "quiet", False)) as progress:
        solver = Solver(
            programs,
            told.problem,
            aim,
            options.workers,
            method,
            deadline(options),
            getattr(options, "cells", None),
            getattr(options, "certificate", "yes") == "yes",
            tell=progress.tell,
            show=progress.tick,
            best=Best(began=options.began),
        )
        return solver.solve()


def kept(best: Best, problem: Problem, besides: tuple[str, ...] = ()) -> str:
    """The report of an answer, which `check` and `cost` read: that of `dcop` with its certificate where it says what was printed,
    and else one that says it and what it rests on, with the certificate behind it where there is one. The latter also says what
    the problem was made with besides the file."""
    assert best.values is not None and best.cost is not None and best.lower is not None and best.upper is not None
    goal = problem.goal
    if not besides and best.certified is not None and best.certified_values == best.values and best.checked == best.bound(goal):
        return best.certified
    status = "solved" if best.solved else "spent"
    report = Report(
        status,
        best.method,
        best.gap(goal) or 0 if best.solved else 0,
        best.messages,
        best.cost,
        best.lower,
        best.upper,
        best.values,
        nodes=best.nodes,
        rests=best.rests(goal),
        besides=besides,
    )
    return written(problem, report) + (best.certified or "")


class Rejected(Trouble):
    """dcop check says no to a report."""

    def __init__(self, why: str) -> None:
        super().__init__("dcop check says no to this report: " + why)
        self.why = why


def checked_report(programs: Programs, problem: Problem, report: str) -> Report:
    """A report on a problem, where dcop check says yes to it, and to its own cost."""
    text = problem.text() + report
    answer = programs.run(["check"], text)
    if answer.status == NO:
        raise Rejected(differs(answer.text))
    if answer.status != 0:
        why = refusal(answer, "an answer of `dcop check`", text)
        raise Trouble(explain(answer.text, text)) if isinstance(why, Refused) else why
    read = read_report(report, problem)
    if not accepts(answer, read):
        raise Wrong(answer, f"that does not fit the report, whose cost is {read.cost}: don't trust this program")
    return read


@dataclass
class Verdict:
    """What is known of a report: whether it holds, what that rests on, and why not."""

    answer: str
    rests: str
    values: list[int]
    """The report's values, in the order of the problem."""
    cost: int
    """What they cost, added up from the file."""
    bound: int
    """What no assignment is better than, as the report says or as its certificate shows."""
    why: str = ""
    best: Best | None = None
    """What was found where it was asked whether something is better."""


YES, NOT, OPEN = "yes", "no", "not decided"


def judged(programs: Programs, told: Translation, text: str, options: argparse.Namespace) -> Verdict:
    """Whether a report holds: by its certificate; and where it has none, by asking whether something is better than it says."""
    proof = certified(text)
    problem = fitted(told.problem, text)
    claim = read_report(printed(text), problem)
    claim = in_order(claim, problem, told.problem)
    goal, cost = told.problem.goal, told.problem.cost(claim.values)
    verdict = Verdict(YES, programs.verified, claim.values, cost, claim.bound(goal))
    if proof is not None:
        shown = fitted(told.problem, proof)
        try:
            verdict.bound = checked_report(programs, shown, proof).bound(goal)
        except Rejected as rejected:
            verdict.answer, verdict.why = NOT, rejected.why
            return verdict
    if cost != claim.cost:
        verdict.answer, verdict.rests = NOT, ADDED_UP
        verdict.why = f"the report says `cost {claim.cost}`, but its values cost {cost}"
    elif is_better(cost, verdict.bound, goal):
        verdict.answer, verdict.rests = NOT, ADDED_UP
        verdict.why = f"the report says that no sum is better than {verdict.bound}, but its own sum is {cost}"
    elif proof is None:
        ask(programs, told, verdict, options)
    return verdict


def ask(programs: Programs, told: Translation, verdict: Verdict, options: argparse.Namespace) -> None:
    """Asks whether an assignment is better than a report says that any is."""
    problem, goal = told.problem, told.problem.goal
    with Progress(told, options.began, getattr(options, "quiet", False)) as progress:
        best = Best(began=options.began)
        solver = Solver(programs, problem, rival=verdict.bound, until=deadline(options), tell=progress.tell, show=progress.tick, best=best)
        trivial = sum(min(t.costs) for t in problem.tables) if goal == "min" else sum(max(t.costs) for t in problem.tables)
        if is_better(trivial, verdict.bound, goal):
            solver.solve()
    verdict.best = best
    bound = best.bound(goal)
    if not is_better(trivial, verdict.bound, goal):
        verdict.rests = ADDED_UP
    elif best.cost is not None and is_better(best.cost, verdict.bound, goal):
        verdict.answer, verdict.rests = NOT, ADDED_UP
        verdict.why = f"the report says that no sum is better than {verdict.bound}, but one is {best.cost}"
    elif bound is not None and not is_better(bound, verdict.bound, goal):
        holds = best.checked is not None and not is_better(best.checked, verdict.bound, goal)
        verdict.rests = programs.verified if holds else best.by_program
    else:
        verdict.answer, verdict.rests = OPEN, ""
        verdict.why = best.stopped or "none of the available programs can decide it"
