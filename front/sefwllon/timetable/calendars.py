"""A timetable as iCalendar (RFC 5545), by Debian's python3-icalendar, and what an earlier one says.

A meeting keeps its UID when it moves: it is made of the file's name and the meeting's, or taken from the earlier calendar that is kept. Its
SEQUENCE grows where it has moved since, so that calendars that have it already take the change.
"""

from __future__ import annotations

import datetime
import hashlib
from collections.abc import Iterable
from typing import Any

from ..problem import Trouble
from . import rules
from .earlier import Earlier
from .model import WEEK, Meeting, Place, Timetable
from .words import instant

STAMP = datetime.datetime(2000, 1, 1, tzinfo=datetime.timezone.utc)
PRODUCT = "-//Sefwllon//sefwllon//EN"
NO_MAIL = "invalid:nomail"
"""What stands in place of an address that is not known."""


def library() -> Any:
    """The library, which not every machine has."""
    try:
        import icalendar
    except ImportError:
        raise Trouble("calendars need Debian's package python3-icalendar, which is missing: install it, or leave the calendar out") from None
    return icalendar


def check(told: Timetable) -> None:
    """Raises where the slots can't be put into a calendar."""
    slot = next((slot for slot in told.slots if slot.begin is None), None)
    if slot is not None:
        raise Trouble(f"the slot {slot.name} has no time, so it can't be put into a calendar: write it as slot,{slot.name},2026-03-02 09:00")


def lacking(told: Timetable) -> list[str]:
    """What a calendar of a timetable lacks that its file may have."""
    unknown = [person for person in told.people() if person not in told.mails]
    names = ", ".join(unknown[:5]) + (" and others" if len(unknown) > 5 else "")
    notes = [f"the calendar has no address of {names}: add one by a line person,{unknown[0]},MAIL"] if unknown else []
    return notes + (["the calendar's times have no zone: add one by a line such as zone,Europe/Berlin"] if told.zone is None else [])


def written(
    told: Timetable,
    chosen: dict[str, object],
    title: str,
    rooms: dict[str, str] | None = None,
    breaches: Iterable[rules.Breach] | None = None,
    before: Earlier | None = None,
    person: str | None = None,
) -> bytes:
    """The timetable as a calendar; of one person alone where one is named. Where it breaks rules, it and their meetings say so."""
    check(told)
    icalendar = library()
    found = list(rules.breaches(told, chosen) if breaches is None else breaches)
    if person is not None:
        found = [breach for breach in found if any(person in told.meetings[name].everybody for name in breach.meetings)]
    calendar = icalendar.Calendar()
    calendar.add("version", "2.0")
    calendar.add("prodid", PRODUCT)
    if found:
        warning = "This timetable breaks rules:\n" + "\n".join(breach.sentence() for breach in found)
        calendar.add("description", warning)
        calendar.add("x-wr-caldesc", warning)
    if told.zone is not None and str(told.zone) not in ("UTC", "None"):
        calendar.add_component(zone_part(told))
    for name, meeting in told.meetings.items():
        if person is None or person in meeting.everybody:
            place = told.place_of(meeting, chosen[name])
            calendar.add_component(event(told, meeting, place, title, rooms or {}, found, before or Earlier(), str(chosen[name])))
    return bytes(calendar.to_ical())


def event(
    told: Timetable, meeting: Meeting, place: Place, title: str, rooms: dict[str, str], found: list[rules.Breach], before: Earlier, chosen: str
) -> Any:
    """The entry of a meeting."""
    icalendar = library()
    name, slot = meeting.name, told.slots[place.slot]
    own = [breach.sentence() for breach in found if name in breach.meetings]
    it = icalendar.Event()
    moved = before.places.get(name, chosen) != chosen or before.rooms.get(name) not in (None, rooms.get(name))
    it.add("uid", before.uids.get(name) or uid(title, name))
    it.add("dtstamp", STAMP)
    it.add("sequence", before.sequences.get(name, 0) + moved)
    assert slot.begin is not None
    begin = slot.begin + place.week * WEEK
    long = datetime.timedelta(minutes=meeting.minutes or slot.minutes)
    end = begin + long if begin.tzinfo is None else (instant(begin) + long).replace(tzinfo=datetime.timezone.utc).astimezone(begin.tzinfo)
    add_time(it, "dtstart", begin, told)
    add_time(it, "dtend", end, told)
    count = len(told.weeks_of(meeting, place))
    if told.weeks > 1:
        it.add("rrule", {"freq": "weekly", "count": count, **({"interval": meeting.every} if meeting.every > 1 else {})})
    it.add("summary", f"CLASH: {name}" if own else name)
    it.add("description", "\n".join([", ".join(meeting.everybody), *(f"Clash: {line}" for line in own)]))
    if name in rooms:
        it.add("location", rooms[name])
    for person in meeting.everybody:
        it.add("attendee", attendee(told, person, person in meeting.people), encode=0)
    return it


def attendee(told: Timetable, person: str, must: bool) -> Any:
    icalendar = library()
    mail = told.mails.get(person)
    address = icalendar.vCalAddress(f"mailto:{mail}" if mail else NO_MAIL)
    address.params["CN"] = icalendar.vText(person.replace('"', "'"))
    address.params["ROLE"] = icalendar.vText("REQ-PARTICIPANT" if must else "OPT-PARTICIPANT")
    return address


def uid(title: str, name: str) -> str:
    """What an entry is called: the same for a meeting of a file wherever it stands."""
    stem = title.rpartition(".")[0] or title
    return hashlib.sha256(f"{stem}\n{name}".encode()).hexdigest()[:32] + "@sefwllon"


def add_time(it: Any, what: str, time: datetime.datetime, told: Timetable) -> None:
    """A time of an entry: without a zone, in UTC, or by the zone's name."""
    icalendar = library()
    if told.zone is None or str(told.zone) == "UTC":
        it.add(what, time if told.zone is None else time.astimezone(datetime.timezone.utc))
        return
    value = icalendar.vDatetime(time.replace(tzinfo=None))
    value.params["TZID"] = str(told.zone)
    it.add(what, value, encode=0)


def zone_part(told: Timetable) -> Any:
    """How the zone's clocks go, from a year before the timetable to its end: an observance for each time at which they change."""
    icalendar = library()
    zone = told.zone
    assert zone is not None
    times = [instant(slot.begin) for slot in told.slots if slot.begin is not None]
    first, last = min(times) - datetime.timedelta(days=366), max(times) + told.weeks * WEEK + datetime.timedelta(days=1)
    part = icalendar.Timezone()
    part.add("tzid", str(zone))
    before = local(first, zone)
    part.add_component(observance(before.replace(tzinfo=None), before, before))
    for at in changes(first, last, zone):
        old, new = local(at - datetime.timedelta(minutes=1), zone), local(at, zone)
        offset = old.utcoffset()
        assert offset is not None
        part.add_component(observance(at + offset, old, new))
    return part


def local(at: datetime.datetime, zone: datetime.tzinfo) -> datetime.datetime:
    return at.replace(tzinfo=datetime.timezone.utc).astimezone(zone)


def changes(first: datetime.datetime, last: datetime.datetime, zone: datetime.tzinfo) -> list[datetime.datetime]:
    """The moments in UTC at which the offset changes, to the minute."""
    found, day, step = [], first, datetime.timedelta(days=1)
    while day < last:
        low, high = day, day + step
        if local(low, zone).utcoffset() != local(high, zone).utcoffset():
            while high - low > datetime.timedelta(minutes=1):
                middle = low + (high - low) / 2
                if local(low, zone).utcoffset() == local(middle, zone).utcoffset():
                    low = middle
                else:
                    high = middle
            found.append((high + datetime.timedelta(seconds=30)).replace(second=0, microsecond=0))
        day += step
    return found


def observance(begin: datetime.datetime, old: datetime.datetime, new: datetime.datetime) -> Any:
    icalendar = library()
    it = icalendar.TimezoneDaylight() if new.dst() else icalendar.TimezoneStandard()
    it.add("dtstart", begin)
    it.add("tzoffsetfrom", old.utcoffset())
    it.add("tzoffsetto", new.utcoffset())
    it.add("tzname", new.tzname() or "")
    return it


def parsed(text: str, name: str) -> Any:
    """A calendar that was read."""
    icalendar = library()
    try:
        return icalendar.Calendar.from_ical(text.lstrip("\ufeff"))
    except (ValueError, IndexError, KeyError) as fault:
        raise Trouble(f"{name} can't be read as a calendar: {str(fault)[:120]}") from None


def earlier(told: Timetable, text: str) -> Earlier:
    """Where the meetings of a timetable stood, by a calendar that was written of it, and what their entries are called."""
    found = Earlier()
    uids = {}
    for it in parsed(text, "the earlier calendar").walk("VEVENT"):
        name = str(it.get("summary", "")).removeprefix("CLASH: ")
        if name in told.meetings and it.get("dtstart") is not None:
            uids[name] = it
    for name, it in uids.items():
        meeting = told.meetings[name]
        place = place_at(told, meeting, it.get("dtstart").dt)
        found.places[name] = told.place_name(meeting, place) if place else f"{it.get('dtstart').dt:%Y-%m-%d %H:%M}"
        found.sequences[name] = int(it.get("sequence", 0))
        if it.get("uid"):
            found.uids[name] = str(it.get("uid"))
        if it.get("location"):
            found.rooms[name] = str(it.get("location"))
    return found


def place_at(told: Timetable, meeting: Meeting, time: datetime.date) -> Place | None:
    """The place of a meeting that begins then, if there is one."""
    if not isinstance(time, datetime.datetime):
        return None
    wanted = instant(time.replace(tzinfo=time.tzinfo or told.zone))
    if told.zone is None and time.tzinfo is not None:
        return None
    for place in told.places_for(meeting):
        span = told.slots[place.slot].span(week=place.week)
        if span is not None and span[0] == wanted:
            return place
    return None
