"""What a timetable was before: read from a calendar that was written then, from what was printed, or from a report of `dcop`."""

from __future__ import annotations

import re
from dataclasses import dataclass, field

from ..problem import Trouble
from ..report import printed
from ..translate import distinct_names
from .model import Timetable


@dataclass
class Earlier:
    """Where meetings stood, by the names of their places, and what their entries in a calendar were called."""

    places: dict[str, str] = field(default_factory=dict)
    rooms: dict[str, str] = field(default_factory=dict)
    uids: dict[str, str] = field(default_factory=dict)
    sequences: dict[str, int] = field(default_factory=dict)


def read(told: Timetable, text: str, name: str) -> Earlier:
    """Reads an earlier timetable of these meetings; of those that it has not nothing is known."""
    if text.lstrip("\ufeff \r\n").upper().startswith("BEGIN:VCALENDAR"):
        from . import calendars

        found = calendars.earlier(told, text)
    elif re.search(r"^value ", text, re.MULTILINE):
        found = from_report(told, text)
    else:
        found = from_table(told, text)
    if not found.places:
        raise Trouble(f"{name} has none of these meetings: name a calendar of an earlier timetable, what `meetings` printed, or its report")
    return found


def from_report(told: Timetable, text: str) -> Earlier:
    """From lines `value NAME PLACE`, in which names are those that `dcop` takes."""
    pairs = dict(line.split()[1:] for line in printed(text).splitlines() if line.startswith("value ") and len(line.split()) == 3)
    found = Earlier()
    for own, mangled in zip(told.meetings, distinct_names(list(told.meetings))):
        if mangled in pairs:
            meeting = told.meetings[own]
            places = [told.place_name(meeting, place) for place in told.places_for(meeting)]
            names = dict(zip(distinct_names(places), places))
            found.places[own] = names.get(pairs[mangled], pairs[mangled])
    return found


def from_table(told: Timetable, text: str) -> Earlier:
    """From lines as they are printed: the place, two spaces, the meeting and who comes."""
    found = Earlier()
    for line in text.splitlines():
        told_of = re.fullmatch(r"(\S.*?)\s{2,}(\S.*?)\s{2}\((.*)\)(?: in (.+))?", line.rstrip())
        if told_of and told_of[2] in told.meetings and told_of[2] not in found.places:
            found.places[told_of[2]] = told_of[1]
            if told_of[4]:
                found.rooms[told_of[2]] = told_of[4]
    return found
