"""Timetables: people, meetings, slots and rooms in a CSV, and the answer as a table, a calendar and a picture.

`cells` reads the CSV, `lines` says what its lines tell (with `words` for what stands in a cell, and `slips` for what is likely one),
`model` has what they tell, `rules` what is allowed and what is broken, `make` the problem that is made of it (with `limits` for what is
counted), `asking` how it is solved, `rooms` who gets which room, `impossible` why a week can't be, `earlier` what a timetable was before,
`telling` how one is told, `calendars` how it is written as iCalendar, and `busy` how such calendars are read.
"""

from ..source import Source
from .lines import read
from .make import source
from .model import Meeting, Slot, Timetable

__all__ = ["Meeting", "Slot", "Timetable", "read", "read_source", "source"]


def read_source(text: str, title: str) -> Source:
    """The problem of a file of meetings."""
    return source(read(text), title)
