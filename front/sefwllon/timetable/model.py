"""What a timetable is made of: slots, meetings, people, rooms and rules, as their file says.

A *place* is what a meeting is given: a slot and, where it takes place each second week or more rarely, the first of its weeks.
"""

from __future__ import annotations

import datetime
from collections.abc import Iterator
from dataclasses import dataclass, field
from fractions import Fraction
from functools import cached_property
from typing import Protocol

from .words import instant

WEEK = datetime.timedelta(days=7)
Span = tuple[datetime.datetime, datetime.datetime]
"""From when to when, as moments that compare with each other."""


@dataclass
class Slot:
    name: str
    begin: datetime.datetime | None = None
    minutes: int = 60
    line: int = 0

    def end(self, minutes: int | None = None) -> datetime.datetime | None:
        """When what stands here ends; so many minutes behind the beginning, or those of the slot."""
        if self.begin is None:
            return None
        long = datetime.timedelta(minutes=minutes or self.minutes)
        if self.begin.tzinfo is None:
            return self.begin + long
        return (instant(self.begin) + long).replace(tzinfo=datetime.timezone.utc).astimezone(self.begin.tzinfo)

    def span(self, minutes: int | None = None, week: int = 0) -> Span | None:
        """The moments of its beginning and its end, in a week that recurs."""
        if self.begin is None:
            return None
        begin = instant(self.begin + week * WEEK)
        return begin, begin + datetime.timedelta(minutes=minutes or self.minutes)

    def hours_of(self, minutes: int | None = None) -> str:
        """When it is, for people; nothing where that is not told."""
        end = self.end(minutes)
        return "" if self.begin is None or end is None else f"{self.begin:%Y-%m-%d %H:%M}\N{EN DASH}{end:%H:%M}"

    @property
    def hours(self) -> str:
        return self.hours_of()

    @property
    def day(self) -> datetime.date | None:
        return None if self.begin is None else self.begin.date()


class OfSomebody(Protocol):
    """What a line says of somebody, or of a room."""

    @property
    def who(self) -> str: ...

    @property
    def line(self) -> int: ...


class Ruled(Protocol):
    """A rule of a line."""

    @property
    def line(self) -> int: ...


def spans_meet(one: Span, other: Span) -> bool:
    return one[0] < other[1] and other[0] < one[1]


@dataclass
class Meeting:
    name: str
    people: list[str] = field(default_factory=list)
    """Who must come."""
    optional: dict[str, Fraction] = field(default_factory=dict)
    """Who need not come, and what it costs where they can't."""
    minutes: int | None = None
    """How long it is, where it is not as long as its slot."""
    fixed: list[str] = field(default_factory=list)
    """The slots of which it stands in one; all where there are none."""
    seats: int | None = None
    """How many seats it needs; as many as people must come where that is not told."""
    needs: list[str] = field(default_factory=list)
    """What its room must have, or the room itself."""
    roomless: bool = False
    every: int = 1
    """It takes place each so many weeks."""
    line: int = 0

    @property
    def everybody(self) -> list[str]:
        return [*self.people, *self.optional]

    @property
    def size(self) -> int:
        return len(self.people) if self.seats is None else self.seats


@dataclass(frozen=True)
class Place:
    """Where a meeting may stand: a slot, by its index, and the first of its weeks, from 0."""

    slot: int
    week: int = 0


@dataclass
class Room:
    name: str
    seats: int | None = None
    """None where any number of people fits."""
    has: list[str] = field(default_factory=list)
    line: int = 0

    def suits(self, meeting: Meeting) -> bool:
        fits = self.seats is None or meeting.size <= self.seats
        return fits and all(need in (self.name, *self.has) for need in meeting.needs)


@dataclass
class Wish:
    """What somebody, or a meeting, likes or dislikes."""

    taste: str
    who: str
    slots: list[str]
    cost: Fraction
    line: int = 0

    def unmet(self, slot: str) -> bool:
        return (slot in self.slots) == (self.taste == "dislike")


@dataclass
class Absence:
    """Slots in which somebody can't, or a room is closed."""

    who: str
    slots: list[str]
    line: int = 0


@dataclass
class Busy:
    """A time at which somebody can't, or a room is closed."""

    who: str
    begin: datetime.datetime
    end: datetime.datetime
    line: int = 0

    @property
    def span(self) -> Span:
        return instant(self.begin), instant(self.end)


@dataclass
class Sequence:
    """A meeting that ends before others begin."""

    first: str
    then: list[str]
    line: int = 0


@dataclass
class Together:
    """Meetings that are on one day, or no two of which are."""

    names: list[str]
    same: bool
    line: int = 0


@dataclass
class Most:
    """At most so many meetings a day for somebody."""

    who: str
    count: int
    line: int = 0


@dataclass
class Timetable:
    """What a file says."""

    slots: list[Slot] = field(default_factory=list)
    meetings: dict[str, Meeting] = field(default_factory=dict)
    rooms: dict[str, Room] = field(default_factory=dict)
    absences: list[Absence] = field(default_factory=list)
    busy: list[Busy] = field(default_factory=list)
    wishes: list[Wish] = field(default_factory=list)
    sequences: list[Sequence] = field(default_factory=list)
    together: list[Together] = field(default_factory=list)
    most: list[Most] = field(default_factory=list)
    mails: dict[str, str] = field(default_factory=dict)
    zone: datetime.tzinfo | None = None
    weeks: int = 1
    notes: list[str] = field(default_factory=list)
    """What is likely a slip, and what else is to be known."""
    lines: list[str] = field(default_factory=list)
    """The lines of the file."""

    def aways(self) -> list[OfSomebody]:
        """When who can't."""
        return [*self.absences, *self.busy]

    def of_people(self) -> list[OfSomebody]:
        """What is said of somebody, but for wishes."""
        return [*self.absences, *self.busy, *self.most]

    def rules(self) -> list[Ruled]:
        """What can be left out of a file, but for meetings and people."""
        return [*self.absences, *self.busy, *self.sequences, *self.together, *self.most]

    def people(self) -> list[str]:
        """Who takes part in a meeting, in the order of the file."""
        return list(dict.fromkeys(person for meeting in self.meetings.values() for person in meeting.everybody))

    def line(self, number: int) -> str:
        """A line of the file, for people."""
        return f"`{self.lines[number - 1].strip()}` (line {number})" if 0 < number <= len(self.lines) else "a calendar"

    @cached_property
    def clock(self) -> Clock:
        return Clock(self)

    @cached_property
    def slot_at(self) -> dict[str, int]:
        return {slot.name: at for at, slot in enumerate(self.slots)}

    @cached_property
    def meetings_of(self) -> dict[str, list[str]]:
        """The meetings to which each person must come."""
        found: dict[str, list[str]] = {}
        for name, meeting in self.meetings.items():
            for person in meeting.people:
                found.setdefault(person, []).append(name)
        return found

    @cached_property
    def wishes_of(self) -> dict[str, list[Wish]]:
        found: dict[str, list[Wish]] = {}
        for wish in self.wishes:
            found.setdefault(wish.who, []).append(wish)
        return found

    def places_for(self, meeting: Meeting) -> list[Place]:
        """All places that a meeting might have, slot by slot."""
        weeks = min(meeting.every, self.weeks)
        return [Place(slot, week) for slot in range(len(self.slots)) for week in range(weeks)]

    def place_name(self, meeting: Meeting, place: Place) -> str:
        """A place as it is told to people."""
        slot = self.slots[place.slot].name
        return slot if meeting.every == 1 else f"{slot} from week {place.week + 1}"

    def place_of(self, meeting: Meeting, name: object) -> Place:
        """The place of this name."""
        told, week = str(name), 0
        if told not in self.slot_at and " from week " in told:
            told, _, number = told.rpartition(" from week ")
            week = int(number) - 1
        return Place(self.slot_at[told], week)

    def places(self, chosen: dict[str, object]) -> dict[str, Place]:
        """The place of each meeting in a timetable."""
        return {name: self.place_of(meeting, chosen[name]) for name, meeting in self.meetings.items()}

    def slot_of(self, chosen: dict[str, object], name: str) -> Slot:
        return self.slots[self.place_of(self.meetings[name], chosen[name]).slot]

    def weeks_of(self, meeting: Meeting, place: Place) -> range:
        """The weeks in which a meeting takes place, from 0."""
        return range(place.week, self.weeks, meeting.every)

    def rooms_for(self, meeting: Meeting) -> list[Room]:
        """The rooms that suit a meeting, the smallest first; none where it takes none."""
        if meeting.roomless:
            return []
        suits = [room for room in self.rooms.values() if room.suits(meeting)]
        return sorted(suits, key=lambda room: (room.seats is None, room.seats or 0, len(room.has)))

    def takes_room(self, meeting: Meeting) -> bool:
        return bool(self.rooms) and not meeting.roomless

    def barred(self) -> dict[str, set[str]]:
        """For each person the slots in which they can't be: they are absent there, or in one that overlaps it, or busy."""
        whole = Meeting("")
        return {
            who: {slot.name for at, slot in enumerate(self.slots) if self.clock.why_away(who, whole, Place(at))}
            for who in dict.fromkeys(away.who for away in self.aways())
        }


class Clock:
    """Which places of a timetable are at the same time, and who can't be there: each looked up once."""

    def __init__(self, told: Timetable):
        self.told = told
        self._meets: dict[tuple[int, int | None, int, int | None], list[list[bool]]] = {}
        self._away: dict[tuple[str, int | None, int], list[list[int]]] = {}
        self._index: dict[str, tuple[list[Absence], list[Busy]]] = {}
        for absence in told.absences:
            self._index.setdefault(absence.who, ([], []))[0].append(absence)
        for busy in told.busy:
            self._index.setdefault(busy.who, ([], []))[1].append(busy)

    def at(self, meeting: Meeting, place: Place) -> int:
        """The row of a place among all that a meeting might have."""
        return place.slot * min(meeting.every, self.told.weeks) + place.week

    def meets(self, one: Meeting, other: Meeting) -> list[list[bool]]:
        """For each place of the one and each of the other, whether nobody can be in both."""
        key = one.every, one.minutes, other.every, other.minutes
        if key not in self._meets:
            self._meets[key] = [[self.at_once(one, a, other, b) for b in self.told.places_for(other)] for a in self.told.places_for(one)]
        return self._meets[key]

    def at_once(self, one: Meeting, here: Place, other: Meeting, there: Place) -> bool:
        """Whether two meetings at these places are at the same time in some week."""
        mine, others = self.told.weeks_of(one, here), set(self.told.weeks_of(other, there))
        if here.slot == there.slot and any(week in others for week in mine):
            return True
        a, b = self.told.slots[here.slot].span(one.minutes), self.told.slots[there.slot].span(other.minutes)
        if a is None or b is None:
            return False
        shifts = (-1, 0, 1) if self.told.weeks > 1 else (0,)
        return any(
            spans_meet((a[0] + by * WEEK, a[1] + by * WEEK), b) and any(week + by in others for week in mine) for by in shifts
        )

    def why_away(self, who: str, meeting: Meeting, place: Place) -> list[int]:
        """The lines by which somebody can't be at a meeting at a place, or a room is closed then."""
        if who not in self._index:
            return []
        key = who, meeting.minutes, meeting.every
        if key not in self._away:
            self._away[key] = [self._lines_away(who, meeting, it) for it in self.told.places_for(meeting)]
        return self._away[key][self.at(meeting, place)]

    def _lines_away(self, who: str, meeting: Meeting, place: Place) -> list[int]:
        absences, busy = self._index[who]
        whole = Meeting("")
        lines = [
            absence.line
            for absence in absences
            if any(self.at_once(meeting, place, whole, Place(self.told.slot_at[slot])) for slot in absence.slots if slot in self.told.slot_at)
        ]
        if busy:
            slot, weeks = self.told.slots[place.slot], self.told.weeks_of(meeting, place)
            spans = [span for week in weeks for span in [slot.span(meeting.minutes, week)] if span is not None]
            lines += [it.line for it in busy if any(spans_meet(it.span, span) for span in spans)]
        return lines

    def seen(self) -> Iterator[str]:
        """Whoever is absent or busy at times."""
        return iter(self._index)
