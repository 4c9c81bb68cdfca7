"""What a timetable's report was made with besides its file: an earlier timetable, calendars, and what was learnt of rooms.

The report says it by a line `with`. `check` and `cost` make the same problem again from the same files; what was learnt of rooms is in no
file but the problem that `meetings --problem` writes.
"""

from __future__ import annotations

import argparse
from dataclasses import dataclass
from fractions import Fraction
from pathlib import Path

from ..arguments import add_busy
from ..asking import deadline, loaded
from ..best import Best
from ..files import KINDS, read_text
from ..output import reading
from ..problem import Trouble
from ..programs import Programs
from ..report import made_with
from ..translate import Translation, translate
from . import earlier, rules
from .make import Aim, Made, make
from .session import Plan, opened

KEEP, BUSY, ROOMS = "keep", "busy", "rooms"
_ASK = {KEEP: "name the old timetable by --keep OLD", BUSY: "name the calendars by --busy PERSON=ICS"}


def of_plan(plan: Plan, options: argparse.Namespace) -> tuple[str, ...]:
    """What a timetable was made with besides the file."""
    aim = plan.made.aim
    return tuple(word for word, holds in ((KEEP, aim.keep is not None), (BUSY, options.busy), (ROOMS, aim.crowds)) if holds)


def add_besides(command: argparse.ArgumentParser) -> None:
    """The words that name what `meetings` was given besides the file."""
    command.add_argument("--keep", metavar="OLD", help="the earlier timetable with which `meetings --keep OLD` made the report")
    add_busy(command)


@dataclass
class Asked:
    """A problem, and, if meetings of an earlier timetable are kept, how its sum is told."""

    told: Translation
    made: Made | None = None

    def plan(self, values: list[int]) -> Plan | None:
        """The timetable of some values, added up from the file; None if none is to be kept."""
        if self.made is None:
            return None
        timetable, chosen = self.made.told, self.told.told(values)
        return Plan(timetable, self.made, self.told, Best(values=values), chosen, {}, rules.breaches(timetable, chosen), rules.costs(timetable, chosen))

    def own_sum(self, values: list[int]) -> Fraction:
        """What an assignment costs in the user's costs; of a timetable without what moves."""
        plan = self.plan(values)
        return self.told.own_sum(values) if plan is None else plan.cost


def asked(options: argparse.Namespace, programs: Programs, report: str | None) -> Asked:
    """The problem of a command's file and of what is named besides, which has to be what the report was made with."""
    is_timetable = KINDS.get(Path(options.file).suffix.lower()) == "meetings"
    named = named_by(options)
    if named and not is_timetable and is_problem(options):
        raise Trouble(f"{options.file} is not a timetable: {words(named)} is only for a timetable's CSV; a problem that `meetings --problem` wrote includes it already")
    if is_timetable and report is not None:
        test_named(options.file, [word for word in made_with(report) if word not in named])
    if not named:
        return Asked(loaded(options, programs))
    with reading(deadline(options)):
        told = opened(options)
        before = earlier.read(told, read_text(options.keep), options.keep) if options.keep else None
        made = make(told, Path(options.file).name, Aim(keep=before.places if before else None))
        return Asked(translate(made.source), made if before else None)


def named_by(options: argparse.Namespace) -> list[str]:
    return [word for word, given in ((KEEP, options.keep), (BUSY, options.busy)) if given]


def is_problem(options: argparse.Namespace) -> bool:
    """Whether a file is of another kind than timetables, by its name or its first words."""
    lines = (line.split() for line in options.text.splitlines())
    first = next((line for line in lines if line and not line[0].startswith("#")), list[str]())
    return Path(options.file).suffix.lower() in KINDS or first[:1] == ["dcop"]


def words(named: list[str]) -> str:
    return " and ".join(f"--{word}" for word in named)


def test_named(file: str, missing: list[str]) -> None:
    """Raises if a report was made with what is not named."""
    if ROOMS in missing:
        raise Trouble(f"this report is about more than {file}, since rooms were scarce: {problem_written(file)}")
    if missing:
        raise Trouble(f"this report was made with {words(missing)}: {', and '.join(_ASK.get(word, f'name it by --{word}') for word in missing)}")


def test_alone(file: str, report: str) -> None:
    """Raises if a report is about more than its file, for a command that can't make that again."""
    besides = made_with(report)
    if besides and KINDS.get(Path(file).suffix.lower()) == "meetings":
        raise Trouble(f"this report is about more than {file}: {problem_written(file)}")


def problem_written(file: str) -> str:
    return f"`meetings --problem OUT` writes its problem, so name OUT instead of {file}"


def only_with(options: argparse.Namespace, report: str) -> str:
    """What is told of a report that does not hold with what is named besides the file."""
    named = named_by(options)
    if not named:
        return ""
    if not set(named) <= set(made_with(report)):
        return f"; this report does not say that it was made with {words(named)}"
    return f"; the report only holds with what {words(named)} named when it was made"


__all__ = ["Asked", "add_besides", "asked", "of_plan", "only_with", "test_alone"]
