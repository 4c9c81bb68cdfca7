"""What in a file is likely a slip, though it can be meant: told as notes beside an answer."""

from __future__ import annotations

import re
import unicodedata
from collections import Counter

from .model import Timetable

_SHORT = 3
"""Names of up to so many letters differ by one letter often: of them only letters that changed places are told."""
_MANY = 2000
"""Above so many people no names are compared."""


def found(told: Timetable) -> list[str]:
    return [*near_names(told), *two_kinds(told), *empty(told)]


def near_names(told: Timetable) -> list[str]:
    """People in one line alone whose names are nearly those of others."""
    lines: Counter[str] = Counter()
    where: dict[str, int] = {}
    seen = [(person, meeting.line) for meeting in told.meetings.values() for person in meeting.everybody]
    seen += [(it.who, it.line) for it in told.of_people()] + [(it.who, it.line) for it in told.wishes if it.who not in told.meetings]
    for person, line in seen:
        lines[person] += 1
        where.setdefault(person, line)
    if len(lines) > _MANY:
        return []
    notes = []
    for person in (it for it, count in lines.items() if count == 1):
        near = [other for other in lines if other != person and is_near(person, other) and (lines[other] > 1 or other < person)]
        if near:
            most = max(near, key=lambda other: lines[other])
            notes.append(f"line {where[person]}: {person} is only in this line: is {most} meant?")
    return notes


def is_near(one: str, other: str) -> bool:
    """Whether one name is likely the other, mistyped: by its case or its accents, two letters that changed places, or, in a
    longer one, a letter that is changed, left out or added. Numbers are not mistyped here."""
    if folded(one) == folded(other):
        return True
    if re.sub("[^0-9]", "", one) != re.sub("[^0-9]", "", other) or abs(len(one) - len(other)) > 1:
        return False
    first = next((at for at, (a, b) in enumerate(zip(one, other)) if a != b), min(len(one), len(other)))
    a, b = one[first:], other[first:]
    if len(a) == len(b):
        if len(a) > 1 and a[0] == b[1] and a[1] == b[0] and a[2:] == b[2:]:
            return True
        return min(len(one), len(other)) > _SHORT and a[1:] == b[1:]
    longer, shorter = (a, b) if len(a) > len(b) else (b, a)
    return min(len(one), len(other)) > _SHORT and longer[1:] == shorter


def folded(name: str) -> str:
    """A name without case, accents, spaces and points."""
    plain = unicodedata.normalize("NFKD", name.casefold())
    return re.sub(r"[\s.\-]", "", "".join(letter for letter in plain if not unicodedata.combining(letter)))


def two_kinds(told: Timetable) -> list[str]:
    """Meetings and rooms that are named as people are."""
    people = set(told.people())
    notes = [f"line {it.line}: the meeting {name} has the name of a person: what {name} likes counts for both" for name, it in told.meetings.items() if name in people]
    return notes + [f"line {it.line}: the room {name} has the name of a person: both are absent at the same times" for name, it in told.rooms.items() if name in people]


def empty(told: Timetable) -> list[str]:
    return [f"line {meeting.line}: nobody takes part in the meeting {name}" for name, meeting in told.meetings.items() if not meeting.everybody]
