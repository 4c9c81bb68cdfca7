"""`sefwllon meetings`: a timetable from a CSV."""

from __future__ import annotations

import argparse
import json
import os
import shlex
from collections.abc import Callable
from fractions import Fraction
from functools import partial
from pathlib import Path

from .. import draw
from ..arguments import Commands, add_busy, add_solving, natural
from ..asking import kept
from ..best import ADDED_UP
from ..files import read_text
from ..output import OutOfTime, deliver, reading, test_outputs, undisturbed
from ..problem import Trouble
from ..telling import OPEN, SOLVED, TEXT, as_json, as_text, by_line, notes_of
from ..timetable import besides, calendars, earlier, impossible, lines, telling
from ..timetable.earlier import Earlier
from ..timetable.make import Aim
from ..timetable.session import Plan, Session, opened


CROWDED_SECONDS = 10.0
"""How long a timetable is sought where somebody has more meetings than times for them, and no time is given."""


def add(commands: Commands) -> None:
    when = commands.add_parser(
        "meetings",
        help="a timetable from a CSV",
        description="Makes a timetable from a CSV.\n\n" + (lines.__doc__ or ""),
        formatter_class=argparse.RawDescriptionHelpFormatter,
    )
    when.add_argument("file", metavar="CSV")
    when.add_argument("--keep", metavar="OLD", help="move the fewest meetings of an earlier timetable, given as its calendar, its report, or the printed answer")
    when.add_argument("--alternatives", type=natural, default=0, metavar="N", help="add N further timetables with the same cost, as different as possible")
    when.add_argument("--ics", metavar="OUT", help="write the timetable to OUT as iCalendar")
    when.add_argument("--ics-each", metavar="FOLDER", help="write a calendar for each person into this folder")
    when.add_argument("--svg", metavar="OUT", help="write a picture of the timetable to OUT, as SVG, which a browser opens")
    when.add_argument("--problem", metavar="OUT", help="write to OUT the problem that was solved; the report is about this problem")
    add_busy(when)
    add_solving(when)
    when.set_defaults(run=run)


def run(options: argparse.Namespace) -> int:
    test_outputs([options.file, *([options.keep] if options.keep else [])], options.report, options.ics, options.svg, options.problem)
    session = Session.of(options, Path(options.file).name)
    with reading(session.until):
        told = opened(options)
        before = earlier.read(told, read_text(options.keep), options.keep) if options.keep else None
    if options.ics or options.ics_each:
        calendars.check(told)
        calendars.library()
    if options.ics_each:
        make_folder(options.ics_each)
    crowded = impossible.too_many(told)
    asked = session.within(CROWDED_SECONDS) if crowded and session.until is None else session
    plan = asked.ask(told, Aim(keep=before.places if before else None))
    if not plan.found:
        print(as_text(plan.best, plan.problem), end="")
        return OPEN
    further, none = alternatives(session, plan, options.alternatives)
    reason = impossible.find(session, told) if plan.breaches and (crowded or plan.impossible) else None
    with undisturbed():
        why = impossible.sentences(told, reason) if reason else []
        text = as_object(session, options, plan, further, none, why) if options.json else as_table(options, plan, further, none, why, bool(crowded))
        good = deliver(text, outputs(options, plan, before))
    return TEXT if not good else SOLVED if plan.solved else OPEN


def as_table(options: argparse.Namespace, plan: Plan, further: list[Plan], none: str | None, why: list[str], crowded: bool) -> str:
    """The answer for people."""
    told = telling.heads(plan, ADDED_UP if crowded else None)
    told += [f"stopped: {plan.best.stopped}"] if plan.best.stopped else []
    told += [*telling.details(plan), *why]
    told += [f"note: {note}" for note in (*notes_of(plan.best), *plan.notes, *plan.told.notes, *notes_of_files(options, plan))]
    told += telling.moves(plan)
    text = "\n".join(told) + "\n" + telling.body(plan) + by_line(plan.best) + "\n"
    for at, other in enumerate(further, 1):
        apart = sum(place != plan.chosen[name] for name, place in other.chosen.items())
        text += f"\nalternative {at}: {apart} of {len(plan.chosen)} meetings elsewhere, cost {telling.money(other.cost)}\n{telling.body(other)}"
    return text + (f"\n{none}\n" if none else "")


def notes_of_files(options: argparse.Namespace, plan: Plan) -> list[str]:
    """What is to be known of the files that are written."""
    notes = calendars.lacking(plan.told) if options.ics or options.ics_each else []
    made_with = besides.of_plan(plan, options)
    if not options.report or not made_with:
        return notes
    if besides.ROOMS in made_with:
        words = ["check", options.problem or "OUT", options.report]
        why = "the report is about more than the file, since rooms were scarce"
        return [*notes, f"{why}: {'' if options.problem else '`--problem OUT` writes its problem, and '}`sefwllon {shlex.join(words)}` checks it"]
    words = ["check", options.file, options.report, *(["--keep", options.keep] if options.keep else [])]
    words += [word for calendar in options.busy or [] for word in ("--busy", calendar)]
    return [*notes, f"`sefwllon {shlex.join(words)}` checks the report"]


def alternatives(session: Session, plan: Plan, count: int) -> tuple[list[Plan], str | None]:
    """Further timetables as good as one, as different as can be, and why there are no more."""
    found: list[Plan] = []
    if not count:
        return found, None
    if not plan.exact:
        return found, "no alternatives: it is not known that this timetable is the best, so others can't be compared with it"
    while len(found) < count:
        try:
            other = next_alternative(session, plan, [plan, *found])
        except (OutOfTime, KeyboardInterrupt):
            other = None
        except Trouble as trouble:
            return found, f"the search for a further timetable failed: {trouble}"
        if other is None or not as_good(other, plan, found):
            known = other is not None and other.best.solved
            what = "no further timetable is as good" if known else "no further timetable as good was found in time"
            return found, f"{what}: {len(found)} of {count} alternatives"
        found.append(other)
    return found, None


def next_alternative(session: Session, plan: Plan, before: list[Plan]) -> Plan:
    """A timetable as good as one, as different as can be from all of these; where it is one of them, another one."""
    aim, known = plan.made.aim, [other.names for other in before]
    other = session.ask(plan.told, Aim(aim.keep, unlike=known, crowds=aim.crowds))
    if other.names in known:
        other = session.ask(plan.told, Aim(aim.keep, unlike=known, crowds=aim.crowds, others=known))
    return other


def as_good(other: Plan, plan: Plan, found: list[Plan]) -> bool:
    new = other.names not in [plan.names, *(it.names for it in found)]
    return other.keeps and new and other.cost <= plan.cost and len(other.moved) <= len(plan.moved)


def as_object(session: Session, options: argparse.Namespace, plan: Plan, further: list[Plan], none: str | None, why: list[str]) -> str:
    """The answer for programs."""
    more: dict[str, object] = {
        "timetable": entries(plan),
        "moved": plan.moved,
        "costs": [cost.sentence() for cost in plan.costs],
        "why": why,
        "alternatives": [{"cost": plain(other.cost), "timetable": entries(other)} for other in further],
        "alternatives_note": none,
        "notes": [*plan.notes, *plan.told.notes, *notes_of_files(options, plan)],
    }
    answer = json.loads(as_json(plan.best, plan.problem, session.programs, more))
    answer |= {"solved": plan.solved, "cost": plain(plan.cost), "broken": [breach.sentence() for breach in plan.breaches]}
    if plan.made.whole:  # the sum has moves in it
        answer |= {"lower": plain(plan.cost) if plan.exact else None, "upper": plain(plan.cost), "bounds": [], "gap_percent": None}
    return json.dumps(answer, ensure_ascii=False, default=str) + "\n"


def plain(cost: Fraction) -> int | float:
    return cost.numerator if cost.denominator == 1 else float(cost)


def entries(plan: Plan) -> list[dict[str, object]]:
    """A timetable for programs: an entry for each meeting."""
    told = plan.told
    found: list[dict[str, object]] = []
    for name, meeting in told.meetings.items():
        slot = told.slot_of(plan.chosen, name)
        end = slot.end(meeting.minutes)
        found.append(
            {
                "meeting": name,
                "slot": slot.name,
                "week": told.place_of(meeting, plan.chosen[name]).week + 1 if told.weeks > 1 else None,
                "begin": slot.begin.isoformat() if slot.begin else None,
                "end": end.isoformat() if end else None,
                "people": meeting.people,
                "optional": list(meeting.optional),
                "room": plan.rooms.get(name),
            }
        )
    return found


def outputs(options: argparse.Namespace, plan: Plan, before: Earlier | None) -> list[tuple[str, Callable[[], str]]]:
    """The files that are to be written, each with how its text is made."""
    told, title = plan.told, Path(options.file).name

    def calendar(person: str | None = None) -> str:
        return calendars.written(told, plan.chosen, title, plan.rooms, plan.breaches, before, person).decode()

    made: list[tuple[str | None, Callable[[], str]]] = [
        (options.report, lambda: kept(plan.best, plan.problem.problem, besides.of_plan(plan, options))),
        (options.problem, plan.problem.problem.text),
        (options.ics, calendar),
        (options.svg, lambda: draw.timetable(told, plan.chosen, plan.breaches, plan.rooms)),
    ]
    if options.ics_each:
        names: set[str] = set()
        for person in told.people():
            path = str(Path(options.ics_each) / f"{file_name(person, names)}.ics")
            made.append((path, partial(calendar, person)))
    return [(name, text) for name, text in made if name]


def make_folder(folder: str) -> None:
    try:
        os.makedirs(folder, exist_ok=True)
    except OSError as fault:
        raise Trouble(f"the folder {folder} can't be made: {fault.strerror}") from None


def file_name(person: str, taken: set[str]) -> str:
    """A name of a file for somebody: without what a file's name can't have, and another for each."""
    plain_name = "".join(letter if letter.isalnum() or letter in " ._-@+" else "_" for letter in person).strip(" .")[:80] or "_"
    name, count = plain_name, 1
    while name.lower() in taken:
        count += 1
        name = f"{plain_name}_{count}"
    taken.add(name.lower())
    return name
