"""How a timetable is solved: the problem is made, its parts are solved, rooms are given out, and what comes of it is added up anew."""

from __future__ import annotations

import argparse
import time
from collections.abc import Callable
from dataclasses import dataclass, field, replace
from fractions import Fraction

from ..asking import deadline
from ..best import Best
from ..files import read_text
from ..output import OutOfTime, reading, undisturbed
from ..parts import solved_apart
from ..problem import Trouble
from ..programs import Programs
from ..telling import known_by
from ..translate import Translation, translate
from . import busy, lines, rooms, rules
from .make import Aim, Crowd, Made, Same, make
from .model import Timetable
from .rules import Breach, Cost

_ROUNDS = 60
"""How often the slots are chosen anew since rooms are missing."""


def opened(options: argparse.Namespace) -> Timetable:
    """The timetable of a command's file, with the calendars that are named beside it."""
    told = lines.read(read_text(options.file))
    for word in options.busy or []:
        who, found, name = word.partition("=")
        if not found or not who or not name:
            raise Trouble(f"--busy {word} must name a person and a calendar, such as --busy Ida=ida.ics")
        told.busy += busy.taken(told, who, read_text(name), name)
    return replace(told)


@dataclass
class Plan:
    """A timetable that was found, and what is known of it."""

    told: Timetable
    made: Made
    problem: Translation
    best: Best
    chosen: dict[str, object] = field(default_factory=dict)
    rooms: dict[str, str] = field(default_factory=dict)
    breaches: list[Breach] = field(default_factory=list)
    costs: list[Cost] = field(default_factory=list)
    notes: list[str] = field(default_factory=list)
    none: str | None = None
    """By what it is known that no timetable keeps all rules, where another problem of the same file told it."""

    @property
    def found(self) -> bool:
        return bool(self.chosen)

    @property
    def keeps(self) -> bool:
        """Whether it is a timetable that keeps all rules."""
        return self.found and not self.breaches

    @property
    def cost(self) -> Fraction:
        """What it costs, added up from the file."""
        return sum((cost.cost for cost in self.costs), Fraction(0))

    @property
    def moved(self) -> list[str]:
        """The meetings that are elsewhere than they are to be kept."""
        keep = self.made.aim.keep or {}
        return [name for name, place in self.chosen.items() if name in keep and keep[name] != place]

    @property
    def solved(self) -> bool:
        """Whether it is as good as it was asked for."""
        return self.keeps and self.best.solved

    @property
    def exact(self) -> bool:
        """Whether it is known that none is better."""
        return self.keeps and self.best.gap(self.problem.problem.goal) == 0

    @property
    def impossible(self) -> bool:
        """Whether it is known that no timetable keeps all rules."""
        return self.none_keeps is not None

    @property
    def none_keeps(self) -> str | None:
        """By what that is known."""
        return self.none or self.known(self.problem.none_keeps)

    @property
    def names(self) -> Same:
        return {name: str(place) for name, place in self.chosen.items()}

    def known(self, holds: Callable[[int | None], bool]) -> str | None:
        """By what it is known that something follows from a bound; None where it is not known."""
        return known_by(holds, self.best, self.problem)


def better(one: Plan, other: Plan) -> Plan:
    """The better of two timetables of one file, with the better of their bounds: what is asked of rooms holds for each timetable."""
    if not other.found or (one.found and (len(one.breaches), len(one.moved), one.cost) < (len(other.breaches), len(other.moved), other.cost)):
        one, other = other, one
    best, cost = replace(other.best), other.best.cost
    if one.problem.shift == other.problem.shift and one.problem.scale == other.problem.scale and cost is not None and other.keeps:
        for what in ("lower", "checked", "proved"):
            bound = getattr(one.best, what)
            if bound is not None and bound < one.problem.hard_cost:
                setattr(best, what, min(cost, max(bound, getattr(best, what) or 0)))
        best.solved = best.solved or best.gap("min") == 0
    best.stopped = best.stopped or one.best.stopped
    found = replace(other, best=best, none=other.none_keeps or one.none_keeps)
    return told_by(one, found) if best.lower != other.best.lower else found


def told_by(one: Plan, found: Plan) -> Plan:
    """A timetable as an answer of the problem of another one, whose bound it has; the same if it is none there."""
    problem, values = one.problem, list[int]()
    for place, (name, its) in enumerate(zip(problem.names, problem.values)):
        if place in problem.counters:
            values.append(problem.counted(place, values))
        elif found.chosen.get(name) in its:
            values.append(its.index(found.chosen[name]))
        else:
            return found
    if problem.problem.cost(values) != found.best.cost:
        return found
    best = replace(found.best, values=values, certified=one.best.certified, certified_values=one.best.certified_values)
    return replace(found, made=one.made, problem=problem, best=best)


@dataclass
class Session:
    """What a command solves with: the programs, until when, and what the file is called."""

    programs: Programs
    options: argparse.Namespace
    title: str
    until: float | None
    stopped: bool = False
    """Whether the user stopped it."""

    @classmethod
    def of(cls, options: argparse.Namespace, title: str) -> Session:
        return cls(Programs(), options, title, deadline(options))

    @property
    def over(self) -> bool:
        return self.stopped or (self.until is not None and time.monotonic() >= self.until)

    def within(self, seconds: float) -> Session:
        """The same for at most so long."""
        until = time.monotonic() + seconds
        return replace(self, until=until if self.until is None else min(until, self.until))

    def ask(self, told: Timetable, aim: Aim | None = None) -> Plan:
        """Finds a timetable. Where there are not rooms for all, its slots are chosen anew, with what was learnt of rooms."""
        aim = aim or Aim()
        best: Plan | None = None
        for turn in range(_ROUNDS):
            try:
                plan, crowds = self.ask_once(told, aim)
            except (Trouble, KeyboardInterrupt) as fault:
                if best is None:
                    raise
                best.notes.append(f"the search for rooms was stopped: {fault or 'interrupted'}")
                self.stopped = self.stopped or not isinstance(fault, Trouble) or isinstance(fault, OutOfTime)
                break
            if turn == 0 and crowds and not plan.problem.counters:
                plan = self.repaired(plan)
            best = plan if best is None else better(best, plan)
            if best.exact:
                break
            self.stopped = self.stopped or plan.best.stopped == "interrupted"
            crowds = [crowd for crowd in crowds if crowd not in aim.crowds]
            if not crowds or plan.best.stopped or plan.none_keeps or self.over:
                break
            aim = replace(aim, crowds=[*aim.crowds, *crowds])
        assert best is not None
        return best

    def repaired(self, plan: Plan) -> Plan:
        """A timetable in which all have rooms, found from one in which some have none; the same where none is found so."""
        try:
            values = rooms.repaired(plan.told, plan.made.places, plan.problem, plan.best.values or [])
        except KeyboardInterrupt:
            self.stopped, values = True, None
        if values is None:
            return plan
        best = replace(plan.best, moments=list(plan.best.moments))
        best.take_better(values, plan.problem.problem.cost(values), plan.problem.problem.goal)
        best.solved = best.gap(plan.problem.problem.goal) == 0
        chosen = plan.problem.told(values)
        given, _, missing = rooms.give(plan.told, chosen)
        found = rules.breaches(plan.told, chosen) + missing
        return replace(plan, best=best, chosen=chosen, rooms=given, breaches=found, costs=rules.costs(plan.told, chosen))

    def ask_once(self, told: Timetable, aim: Aim) -> tuple[Plan, list[Crowd]]:
        with reading(self.until):
            made = make(told, self.title, aim)
            problem = translate(made.source)
        left = None if self.until is None else self.until - self.options.began
        gap = getattr(self.options, "gap", None) if aim.plain else None
        options = argparse.Namespace(**{**vars(self.options), "time": left, "gap": gap})
        crowds: list[Crowd] = []
        plan = Plan(told, made, problem, solved_apart(self.programs, problem, options))
        if plan.best.values is None:
            return plan, crowds
        with undisturbed():
            plan.chosen = problem.told(plan.best.values)
            plan.breaches, plan.costs = rules.breaches(told, plan.chosen), rules.costs(told, plan.chosen)
            if told.rooms:
                broken = bool(plan.breaches)
                plan.rooms, crowds, missing = rooms.give(told, plan.chosen)
                plan.breaches = plan.breaches + missing
                crowds = [] if broken else crowds
        return plan, crowds
