"""Why a timetable can't be: meetings, people and lines that cannot go together, and of which none can be left out.

They are found by leaving out, one after the other, what is not needed: what remains has no timetable, and has one without any of it. Each step
asks whether there is a timetable; where that is not decided in time, the thing stays, and it is said that less may be enough. That somebody
has more meetings than times for them is counted here, by a matching, since it is hard to find for a solver.
"""

from __future__ import annotations

from collections.abc import Callable
from dataclasses import dataclass, field, replace
from functools import partial
from typing import TypeVar

from ..best import ADDED_UP
from ..output import OutOfTime
from ..problem import Trouble
from . import rules
from .make import Aim, NoPlace
from .model import Meeting, Room, Timetable
from .session import Session

_SECONDS = 20.0
"""How long reasons are looked for where no time is given."""
Thing = TypeVar("Thing", str, int)
ANOTHER_ROOM = "to have another room that suits all"
_MOST_RELAXED = 40
"""How many ways to relax a week are tried."""


@dataclass
class Reason:
    """What can't go together."""

    meetings: list[str]
    people: list[str]
    lines: list[int]
    least: bool = True
    """Whether none of it can be left out."""
    known: str = ""
    """By what it is known that it can't go together."""
    relaxed: list[str] = field(default_factory=list)
    """What alone makes a week possible."""
    tried: bool = True
    """Whether all ways to relax one thing were tried."""
    rooms: bool = False
    """Whether it is since rooms are too few."""


def reduced(told: Timetable, meetings: list[str], people: list[str], lines: list[int]) -> Timetable:
    """The timetable of these meetings with these people, and these of its other lines."""
    its = set(people)
    kept = {name: without_others(told.meetings[name], its, lines) for name in meetings}

    def stays(line: int) -> bool:
        return line in lines

    return replace(
        told,
        meetings=kept,
        absences=[it for it in told.absences if stays(it.line)],
        busy=[it for it in told.busy if stays(it.line)],
        wishes=[],
        sequences=[replace(it, then=[x for x in it.then if x in kept]) for it in told.sequences if stays(it.line) and it.first in kept],
        together=[replace(it, names=[x for x in it.names if x in kept]) for it in told.together if stays(it.line)],
        most=[it for it in told.most if stays(it.line)],
    )


def without_others(meeting: Meeting, people: set[str], lines: list[int]) -> Meeting:
    """A meeting without the people that are left out; it still needs as many seats, and is still fixed."""
    return replace(meeting, people=[it for it in meeting.people if it in people], optional={}, seats=meeting.size)


def rule_lines(told: Timetable) -> list[int]:
    """The lines that can be left out: absences, times, and the rules of meetings and people."""
    return list(dict.fromkeys(rule.line for rule in told.rules()))


def too_many(told: Timetable, people: list[str] | None = None) -> tuple[str, list[str]] | None:
    """Somebody (of these) who has more meetings than times for them, and meetings of theirs that are one too many; none where that is not so."""
    for person in told.meetings_of if people is None else people:
        names = told.meetings_of.get(person, [])
        its = [name for name in names if told.meetings[name].every == 1]
        point = points(told, its)
        free = {
            name: {point[place.slot] for place in told.places_for(told.meetings[name]) if rules.can(told, told.meetings[name], place)} for name in its
        }
        found = unplaced(free) if len(its) > 1 else []
        if found:
            return person, found
    return None


def is_counted(told: Timetable) -> bool:
    """Whether a matching for each person tells exactly whether there is a timetable: there is one person, each meeting has a place, no two slots
    overlap, and nothing else is ruled."""
    rules_left = told.rooms or told.sequences or told.most or any(len(it.names) > 1 for it in told.together)
    if rules_left or len(told.meetings_of) > 1 or any(meeting.every > 1 for meeting in told.meetings.values()):
        return False
    longest = max((meeting.minutes or 0 for meeting in told.meetings.values()), default=0)
    spans = sorted(span for slot in told.slots for span in [slot.span(max(slot.minutes, longest))] if span is not None)
    if any(later[0] < earlier[1] for earlier, later in zip(spans, spans[1:])) or (told.weeks > 1 and spans):
        return False
    return all(any(rules.can(told, it, place) for place in told.places_for(it)) for it in told.meetings.values())


def points(told: Timetable, names: list[str]) -> dict[int, int]:
    """For each slot a moment at which each of these meetings is on, wherever in it: at each moment somebody is in one of them at most. Slots
    that overlap have one moment together where that can be."""
    minutes = [told.meetings[name].minutes for name in names]
    found: dict[int, int] = {}
    timed = []
    for at, slot in enumerate(told.slots):
        spans = [span for it in set(minutes) for span in [slot.span(it)] if span is not None]
        if spans:
            timed.append((min(end for _, end in spans), spans[0][0], at))
        else:
            found[at] = at
    last = None
    for end, begin, at in sorted(timed):
        if last is None or begin >= last[0]:
            last = end, at
        found[at] = last[1]
    return found


def unplaced(free: dict[str, set[int]]) -> list[str]:
    """Meetings that have fewer times together than they are, by one; nothing where each can have one of its own."""
    holder: dict[int, str] = {}

    def place(name: str, seen: set[int]) -> bool:
        for point in free[name] - seen:
            seen.add(point)
            if point not in holder or place(holder[point], seen):
                holder[point] = name
                return True
        return False

    for name in free:
        seen: set[int] = set()
        if not place(name, seen):
            return [it for it in free if it == name or it in {holder[point] for point in seen}]
    return []


class Search:
    """A search for what can't go together."""

    def __init__(self, session: Session, told: Timetable):
        self.session = session.within(_SECONDS)
        self.told = told
        self.decided = True
        self.known = ""
        self.crowded: list[str] = []
        """Who has too many meetings: of them it is counted first."""

    def fails(self, meetings: list[str], people: list[str], lines: list[int]) -> bool:
        """Whether it is known that these have no timetable."""
        return self.fails_told(reduced(self.told, meetings, people, lines)) is True

    def fails_told(self, told: Timetable) -> bool | None:
        """Whether these have no timetable; None where that is not known in time."""
        if not told.meetings:
            return False
        if too_many(told, self.crowded) or too_many(told):
            self.known = ADDED_UP
            return True
        if is_counted(told):
            return False
        if self.session.over:
            self.decided = False
            return None
        try:
            plan = self.session.ask(told, Aim(free=True))
        except NoPlace:
            self.known = ADDED_UP
            return True
        except (OutOfTime, KeyboardInterrupt):
            self.session.stopped, self.decided = True, False
            return None
        except Trouble:
            self.decided = False
            return None
        if plan.keeps:
            return False
        known = plan.none_keeps
        if known is None:
            self.decided = False
            return None
        self.known = known
        return True

    def reason(self) -> Reason | None:
        """What can't go together, where that is found."""
        told = self.told
        lines = rule_lines(told)
        meetings, people = self.start(lines)
        if not meetings:
            return None
        meetings = self.least(meetings, lambda its: self.fails(its, people, lines))
        people = [person for person in people if any(person in told.meetings[name].people for name in meetings)]
        people = self.least(people, lambda its: self.fails(meetings, its, lines))
        lines = self.least([line for line in lines if self.concerns(line, meetings, people)], lambda its: self.fails(meetings, people, its))
        if not self.fails(meetings, people, lines):
            return None
        reason = Reason(meetings, people, lines, self.decided, self.known)
        if told.rooms:
            reason.rooms = self.fails_told(replace(reduced(told, meetings, people, lines), rooms={})) is False
        return reason

    def start(self, lines: list[int]) -> tuple[list[str], list[str]]:
        """Meetings that have no timetable: those of one person, where these are enough, or all."""
        told = self.told
        counted_out = too_many(told)
        if counted_out:
            person, names = counted_out
            self.crowded = [person]
            others = (it for name in names for it in told.meetings[name].people if it != person)
            return names, [*dict.fromkeys(others), person]
        slots = len(told.slots) * max([1, *(it.every for it in told.meetings.values())])
        loads = sorted(told.meetings_of.items(), key=lambda it: -len(it[1]))
        for person, names in loads:
            if 2 * len(names) >= slots and self.fails(names, [person], lines):
                return names, [person]
        everybody = list(told.meetings_of)
        return (list(told.meetings), everybody) if self.fails(list(told.meetings), everybody, lines) else ([], [])

    def concerns(self, line: int, meetings: list[str], people: list[str]) -> bool:
        """Whether a line is about these."""
        told = self.told
        if any(it.line == line and (it.who in people or it.who in told.rooms) for it in told.of_people()):
            return True
        if any(it.line == line and it.first in meetings for it in told.sequences):
            return True
        return any(it.line == line and any(name in meetings for name in it.names) for it in told.together)

    def least(self, its: list[Thing], fails: Callable[[list[Thing]], bool]) -> list[Thing]:
        """What is left of a list when all that is not needed is left out: first in halves, then in smaller pieces, then one by one."""
        size = max(1, len(its) // 2)
        while True:
            at = 0
            while at < len(its):
                fewer = its[:at] + its[at + size :]
                if fails(fewer):
                    its = fewer
                else:
                    at += size
            if size == 1:
                return its
            size = max(1, size // 2)

    def relax(self, reason: Reason) -> None:
        """What alone, left out, makes the whole file possible."""
        told, lines = self.told, rule_lines(self.told)
        everybody, names = list(told.meetings_of), list(told.meetings)
        ways: list[tuple[str, Callable[[], Timetable]]] = []
        if reason.rooms:
            things = list(dict.fromkeys(it for meeting in told.meetings.values() for it in meeting.needs))
            more = {**told.rooms, "another room": Room("another room", None, things)}
            ways.append((ANOTHER_ROOM, partial(replace, told, rooms=more, wishes=[])))
        for line in reason.lines:
            ways.append((f"the line {told.line(line)}", partial(reduced, told, names, everybody, [it for it in lines if it != line])))
        for name in reason.meetings:
            meeting = told.meetings[name]
            for person in (it for it in meeting.people if it in reason.people):
                ways.append((f"{person} in {name}", partial(leave, told, name, person)))
            if meeting.fixed:
                ways.append((f"that {name} is fixed", partial(loosen, told, name)))
        for name in reason.meetings:
            ways.append((f"the meeting {name}", partial(reduced, told, [it for it in names if it != name], everybody, lines)))
        for words, made in ways[:_MOST_RELAXED]:
            fails = self.fails_told(made())
            if fails is False:
                reason.relaxed.append(words)
            elif fails is None:
                reason.tried = False
                return
        reason.tried = len(ways) <= _MOST_RELAXED


def leave(told: Timetable, name: str, person: str) -> Timetable:
    """The timetable without somebody in a meeting."""
    meeting = told.meetings[name]
    fewer = replace(meeting, people=[it for it in meeting.people if it != person])
    return replace(told, meetings={**told.meetings, name: fewer}, wishes=[])


def loosen(told: Timetable, name: str) -> Timetable:
    """The timetable without a meeting's being fixed."""
    return replace(told, meetings={**told.meetings, name: replace(told.meetings[name], fixed=[])}, wishes=[])


def find(session: Session, told: Timetable) -> Reason | None:
    """Why a timetable can't be, and what to relax; None where that is not found in time."""
    search = Search(session, told)
    reason = None
    try:
        reason = search.reason()
        if reason is not None:
            search.relax(reason)
    except KeyboardInterrupt:
        session.stopped = True
    return reason


def sentences(told: Timetable, reason: Reason) -> list[str]:
    """A reason for people."""
    lines = []
    count = len(reason.meetings)
    if len(reason.people) == 1:
        lines += of_one(told, reason, reason.people[0])
    else:
        who = f", for {', '.join(reason.people)}," if reason.people else ""
        lines.append(f"why: {counted(count, 'meeting')}{who} can't go together: {', '.join(reason.meetings)}")
    for line in reason.lines:
        lines.append(f"why: with the line {told.line(line)}")
    for name in reason.meetings:
        if told.meetings[name].fixed:
            lines.append(f"why: with {name} fixed in {' or '.join(told.meetings[name].fixed)}")
    if reason.rooms:
        lines.append(f"why: with the rooms {', '.join(told.rooms)}")
    least = "if any one of these is left out, the others can go together" if reason.least else "less than this may be enough, which was not decided in time"
    lines.append(f"why: {least} ({reason.known})")
    if reason.relaxed:
        more = [words for words in reason.relaxed if words.startswith(ANOTHER_ROOM)]
        less = [words for words in reason.relaxed if words not in more]
        ways = [*more, *([f"to leave out one of {'; '.join(less)}"] if less else [])]
        lines.append(f"to relax: it is enough {', or '.join(ways)}")
    elif reason.tried:
        lines.append("to relax: no single one of these is enough, so more than one thing is in the way; relax one, and ask again")
    return lines


def of_one(told: Timetable, reason: Reason, person: str) -> list[str]:
    """What can't go together where it is all of one person."""
    slots, all_of = open_slots(told, reason, person), told.meetings_of[person]
    have = f"{person} has {counted(len(all_of), 'meeting')} and {counted(len(slots), 'slot')} for them ({', '.join(slots) or 'none'})"
    few = reason.meetings
    if len(few) < len(all_of):
        have += f", and {counted(len(few), 'meeting')} of these can't go together already"
    lines = [f"why: {have}: {', '.join(few)}"]
    more = len(all_of) - len(slots)
    if more > 1 and told.weeks == 1 and len(few) == len(slots) + 1:
        lines.append(f"to relax: {person} is in at least {counted(more, 'meeting')} too many; or as many slots must be added")
    return lines


def open_slots(told: Timetable, reason: Reason, person: str) -> list[str]:
    """The slots in which one of the meetings of somebody could be."""
    its = reduced(told, reason.meetings, [person], reason.lines)
    return [slot.name for at, slot in enumerate(told.slots) if any(rules.can(its, meeting, place) for meeting in its.meetings.values() for place in its.places_for(meeting) if place.slot == at)]


_WORDS = ("no", "one", "two", "three", "four", "five", "six", "seven", "eight", "nine", "ten", "eleven", "twelve")


def counted(count: int, what: str) -> str:
    return f"{_WORDS[count] if count < len(_WORDS) else count} {what}{'' if count == 1 else 's'}"
