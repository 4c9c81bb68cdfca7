"""Times at which people are busy, from their calendars, by Debian's python3-icalendar."""

from __future__ import annotations

import datetime
from collections.abc import Iterator
from typing import Any

from ..problem import Trouble
from .calendars import parsed
from .model import WEEK, Busy, Timetable
from .words import instant

_MOST = 100_000
"""How many times of one calendar are looked at."""


def taken(told: Timetable, who: str, text: str, name: str) -> list[Busy]:
    """The times of a calendar at which somebody is busy, as far as they matter for the slots."""
    if who not in told.people() and who not in told.rooms:
        raise Trouble(f"{who} takes part in no meeting and is not a room, so the calendar {name} has no effect")
    slot = next((slot for slot in told.slots if slot.begin is None), None)
    if slot is not None:
        raise Trouble(f"a calendar is compared with the slots' times, but the slot {slot.name} has no time: write it as slot,{slot.name},2026-03-02 09:00")
    first, last = window(told)
    found = []
    for begin, end in spans(told, parsed(text, name), first, last):
        if begin < last and first < end:
            found.append(Busy(who, begin, end))
    return found


def window(told: Timetable) -> tuple[datetime.datetime, datetime.datetime]:
    """From the first slot's day to the last one's, as moments."""
    begins = [instant(slot.begin) for slot in told.slots if slot.begin is not None]
    longest = max([slot.minutes for slot in told.slots] + [meeting.minutes or 0 for meeting in told.meetings.values()])
    return min(begins), max(begins) + (told.weeks - 1) * WEEK + datetime.timedelta(minutes=longest)


def spans(told: Timetable, calendar: Any, first: datetime.datetime, last: datetime.datetime) -> Iterator[tuple[datetime.datetime, datetime.datetime]]:
    """When the entries of a calendar begin and end, as moments without a zone."""
    events = [it for it in calendar.walk("VEVENT") if it.get("dtstart") is not None and is_busy(it)]
    changed = {(str(it.get("uid")), moment(told, it.get("recurrence-id").dt)) for it in calendar.walk("VEVENT") if it.get("recurrence-id")}
    for it in events:
        begin = it.get("dtstart").dt
        long = length(told, it, begin)
        for at in begins(told, it, begin, first - long, last):
            if it.get("recurrence-id") or (str(it.get("uid")), at) not in changed:
                yield at, at + long
    for it in calendar.walk("VFREEBUSY"):
        periods = it.get("freebusy", [])
        for entry in periods if isinstance(periods, list) else [periods]:
            for begin, end in (period.dt if hasattr(period, "dt") else (period.start, period.end) for period in getattr(entry, "dts", [entry])):
                yield moment(told, begin), moment(told, begin + end if isinstance(end, datetime.timedelta) else end)


def is_busy(it: Any) -> bool:
    return str(it.get("transp", "")).upper() != "TRANSPARENT" and str(it.get("status", "")).upper() != "CANCELLED"


def moment(told: Timetable, time: datetime.date) -> datetime.datetime:
    """A time of a calendar as those of the slots are compared: one without a zone is of the place."""
    if not isinstance(time, datetime.datetime):
        time = datetime.datetime.combine(time, datetime.time())
    if time.tzinfo is None:
        return instant(time.replace(tzinfo=told.zone))
    if told.zone is None:
        raise Trouble("the calendar's times have a zone, but those of the slots have none: add a line such as zone,Europe/Berlin")
    return instant(time)


def length(told: Timetable, it: Any, begin: datetime.date) -> datetime.timedelta:
    """How long an entry is; a day where it is of a day, and nothing else is told."""
    if it.get("dtend") is not None:
        return moment(told, it.get("dtend").dt) - moment(told, begin)
    if it.get("duration") is not None:
        return it.get("duration").dt
    return datetime.timedelta(0 if isinstance(begin, datetime.datetime) else 1)


def begins(told: Timetable, it: Any, begin: datetime.date, first: datetime.datetime, last: datetime.datetime) -> Iterator[datetime.datetime]:
    """When an entry begins, each time that it recurs in a span."""
    left_out = {moment(told, time.dt) for time in listed(it.get("exdate"))}
    for time in listed(it.get("rdate")):
        at = time.dt[0] if isinstance(time.dt, tuple) else time.dt
        yield moment(told, at)
    if it.get("rrule") is None:
        yield moment(told, begin)
        return
    from dateutil.rrule import rrulestr

    start = begin if isinstance(begin, datetime.datetime) else datetime.datetime.combine(begin, datetime.time())
    zone = start.tzinfo
    plain = start.replace(tzinfo=None)
    rules = it.get("rrule")
    for rule in rules if isinstance(rules, list) else [rules]:
        words = in_place(rule.to_ical().decode(), zone or told.zone)
        try:
            recurring = rrulestr(words, dtstart=plain)
        except ValueError as fault:
            raise Trouble(f"a calendar's rule `{words[:80]}` can't be read: {fault}") from None
        margin = datetime.timedelta(days=2)
        for at in recurring.xafter(first - margin, count=_MOST, inc=True):
            if at > last + margin:
                break
            told_at = moment(told, at.replace(tzinfo=zone) if zone is None or not hasattr(zone, "localize") else zone.localize(at))
            if told_at not in left_out:
                yield told_at


def in_place(words: str, zone: datetime.tzinfo | None) -> str:
    """A rule whose end is told in UTC, with that end as the clocks of its zone have it."""
    parts = []
    for part in words.split(";"):
        key, _, value = part.partition("=")
        if key.upper() == "UNTIL" and value.endswith("Z"):
            time = datetime.datetime.strptime(value, "%Y%m%dT%H%M%SZ").replace(tzinfo=datetime.timezone.utc)
            part = f"UNTIL={time.astimezone(zone) if zone else time:%Y%m%dT%H%M%S}"
        parts.append(part)
    return ";".join(parts)


def listed(value: Any) -> list[Any]:
    """The times of a property that may stand once or more often."""
    values = value if isinstance(value, list) else [] if value is None else [value]
    return [time for it in values for time in getattr(it, "dts", [it])]
