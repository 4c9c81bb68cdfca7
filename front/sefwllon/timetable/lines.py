"""Each line begins with what it tells:

    slot,NAME[,BEGIN[,MINUTES]]            a slot, in order; BEGIN as 2026-03-02 09:00 or 02.03.2026 9:00; 60 minutes where none are told
    meeting,NAME,PERSON;PERSON;..          a meeting, and who must come
    optional,MEETING,PERSON;..[,COST]      who need not come, and what it costs where they can't
    absent,PERSON,SLOT;SLOT;..             slots in which somebody can't, or a room is closed
    busy,PERSON,FROM,TO                    a time at which somebody can't, or a room is closed
    like,PERSON or MEETING,SLOT;..,COST    what every other slot costs
    dislike,PERSON or MEETING,SLOT;..,COST what these slots cost
    fixed,MEETING,SLOT                     a meeting stands in this slot; in one of several
    minutes,MEETING,MINUTES                how long a meeting is, where it is not as long as its slot
    before,MEETING,MEETING;..              the first ends before the others begin; after: it begins when they have ended
    same day,MEETING;MEETING;..            they are on one day; other day: no two of them are
    most,PERSON,N                          at most N meetings a day for somebody
    room,NAME[,SEATS[,EQUIPMENT;..]]       a room; any number of people fits where no seats are told
    needs,MEETING,EQUIPMENT or SEATS;..    what its room needs, the room itself, or `no room`
    weeks,N                                the slots are those of a week that recurs N times
    every,MEETING,N                        a meeting takes place each N weeks, and which are its weeks is chosen
    zone,ZONE                              the zone of the times, as Europe/Berlin; a time with an offset or a zone is told in it
    person,NAME,MAIL                       an address, for the calendar

Two meetings to which somebody must come never stand in one slot, nor in two that overlap by their times. Who is absent in a
slot is so too in each slot that overlaps it by its time. Where there are rooms, each meeting takes one that no other has at that
time, with as many seats as people must come, or as its line `needs` says. Days are those of the slots' times. Of somebody who need
not come COST counts once where they are absent, and once for each meeting of theirs at the same time: where they need not come to
either, the lesser of the two.

What somebody likes or dislikes counts for each meeting to which they must come, and what a meeting does for that meeting. The cost
of a timetable is the sum of the wishes that it does not meet: 0 where it meets all of them.

A line is of one person, meeting or room; it may name many slots. The names of a list stand between semicolons or commas. From #
at the beginning of a line it is a comment, and a first line that tells nothing is a heading. The file is UTF-8, with commas,
semicolons or tabs between its cells, as spreadsheets write it.
"""

from __future__ import annotations

import re
from collections.abc import Callable, Iterable
from dataclasses import dataclass, field
from difflib import get_close_matches
from fractions import Fraction

from ..problem import Trouble
from . import cells, slips
from .cells import Faults, Row, word_of
from .model import Absence, Busy, Meeting, Most, Room, Sequence, Slot, Timetable, Together, Wish
from .words import When, in_zone, instant, is_price, parts, price, when, whole, zone_of

FORMS = {
    "slot": "slot,NAME or slot,NAME,2026-03-02 09:00 or slot,NAME,2026-03-02 09:00,MINUTES",
    "meeting": "meeting,NAME,PERSON;PERSON",
    "optional": "optional,MEETING,PERSON;PERSON or optional,MEETING,PERSON;PERSON,COST",
    "absent": "absent,PERSON,SLOT;SLOT",
    "busy": "busy,PERSON,2026-03-02 09:00,2026-03-02 12:00",
    "like": "like,PERSON or MEETING,SLOT;SLOT,COST",
    "dislike": "dislike,PERSON or MEETING,SLOT;SLOT,COST",
    "fixed": "fixed,MEETING,SLOT",
    "minutes": "minutes,MEETING,MINUTES",
    "before": "before,MEETING,MEETING;MEETING",
    "after": "after,MEETING,MEETING;MEETING",
    "sameday": "same day,MEETING;MEETING",
    "otherday": "other day,MEETING;MEETING",
    "most": "most,PERSON,N",
    "room": "room,NAME or room,NAME,SEATS or room,NAME,SEATS,EQUIPMENT;EQUIPMENT",
    "needs": "needs,MEETING,EQUIPMENT or SEATS or no room",
    "weeks": "weeks,N",
    "every": "every,MEETING,N",
    "zone": "zone,Europe/Berlin",
    "person": "person,NAME,MAIL",
}
_SAME_WORD = {"notsameday": "otherday", "differentday": "otherday", "otherdays": "otherday", "differentdays": "otherday"}
_ONE = {"absent", "like", "dislike", "busy", "most", "fixed", "minutes", "optional", "needs", "every"}
"""The lines that are of one person or meeting."""
_MOST_WEEKS = 520


@dataclass
class Reading:
    """A file that is being read: what is known, what is wrong with which line, and what is still to be looked at."""

    told: Timetable
    faults: dict[int, list[str]] = field(default_factory=dict)
    rows: dict[str, list[Row]] = field(default_factory=dict)
    suspects: set[str] = field(default_factory=set)
    """Names that stand in lines that are not understood: nothing is said of those names."""
    times: list[tuple[int, Callable[[], None]]] = field(default_factory=list)

    def fault(self, number: int, why: str) -> None:
        self.faults.setdefault(number, []).append(why)

    def at(self, number: int, does: Callable[[], None]) -> None:
        """Does something for a line, and keeps what is wrong with it."""
        try:
            does()
        except Trouble as trouble:
            self.fault(number, str(trouble))

    def slots(self, row: Row, named: list[str], of: str) -> list[str]:
        """The slots that a line names; of those that are none it is told."""
        for name in named:
            if name not in self.told.slot_at and name not in self.suspects:
                self.fault(row.number, f"{of.format(name)}{meant(name, self.told.slot_at)}")
        return [name for name in named if name in self.told.slot_at]

    def meeting(self, row: Row, name: str) -> Meeting | None:
        """The meeting that a line names."""
        if name not in self.told.meetings:
            if name not in self.suspects:
                self.fault(row.number, f"{name} is not a meeting{meant(name, self.told.meetings)}")
            return None
        return self.told.meetings[name]


def read(text: str) -> Timetable:
    """Reads the file. All its faults are told at once, each with its line."""
    lines = cells.lines_of(text)
    reading = Reading(Timetable(lines=lines))
    rows, _ = cells.rows_of(lines, FORMS, reading.faults)
    for row in without_heading(rows, reading):
        reading.rows.setdefault(kind_of(row, reading), []).append(row)
    for kind, reader in READERS.items():
        for row in reading.rows.get(kind, []):
            if not fits(kind, row.cells):
                reading.suspects.update(row.cells[1:2])
                reading.fault(row.number, wrong_form(kind, row.cells))
            else:
                reading.at(row.number, lambda: reader(reading, row))
    for number, settle in reading.times:
        reading.at(number, settle)
    if not reading.faults:
        check_whole(reading)
    if reading.faults:
        raise Faults(reading.faults, lines)
    reading.told.notes += slips.found(reading.told)
    return reading.told


def kind_of(row: Row, reading: Reading) -> str:
    """What a line tells; nothing where its first word is none of those that are known."""
    word = word_of(row.cells[0])
    word = _SAME_WORD.get(word, word)
    if word in FORMS:
        return word
    near = get_close_matches(word, FORMS, 1, 0.6)
    reading.suspects.update(parts(row.cells[1:2]))
    told = f": is {FORMS[near[0]].split(',')[0]} meant?" if near else "; only the first line can be a heading"
    reading.fault(row.number, f"a line must begin with {', '.join(form.split(',')[0] for form in FORMS.values())}, not with `{row.cells[0]}`{told}")
    return ""


def without_heading(rows: list[Row], reading: Reading) -> list[Row]:
    """The lines without a first one that tells nothing: no word of it is near to one that is known, and it has no number."""
    if not rows:
        return rows
    first = rows[0]
    word = word_of(first.cells[0])
    plain = not any(re.search("[0-9]", cell) for cell in first.cells) and len(first.cells) > 1
    if word in FORMS or word in _SAME_WORD or not plain or get_close_matches(word, FORMS, 1, 0.7):
        return rows
    reading.told.notes.append(f"line {first.number} is ignored, since it looks like a heading (`{first.text.strip()[:80]}`)")
    return rows[1:]


def fits(kind: str, row: list[str]) -> bool:
    """Whether a line has the cells that its kind needs."""
    told = row[1:]
    if not told or not told[0]:
        return False
    match kind:
        case "slot" | "room":
            return len(told) <= 3 or kind == "room"
        case "meeting":
            return True
        case "like" | "dislike":
            return len(told) >= 3 and bool(parts(told[1:-1]))
        case "busy":
            return len(told) == 3 and all(told)
        case "minutes" | "most" | "every" | "person":
            return len(told) == 2 and bool(told[1])
        case "weeks" | "zone":
            return len(told) == 1
        case "sameday" | "otherday":
            return len(parts(told)) >= 2
        case _:
            return bool(parts(told[1:]))


def wrong_form(kind: str, row: list[str]) -> str:
    return f"a cell is missing, or there is one too many: write the line as {FORMS[kind]}"


def meant(name: str, names: Iterable[str]) -> str:
    """A name that is near to one that is not there."""
    near = get_close_matches(name, list(names), 1, 0.75)
    return f": is {near[0]} meant?" if near else ""


def one_alone(row: Row) -> None:
    """Raises where a line is of several, which it can't."""
    who = row.cells[1]
    if ";" in who:
        raise Trouble(f"a line `{row.cells[0]}` is about one person or meeting: write a line for each of {', '.join(parts([who]))}")


def read_weeks(reading: Reading, row: Row) -> None:
    reading.told.weeks = whole(row.cells[1], "weeks", most=_MOST_WEEKS)


def read_zone(reading: Reading, row: Row) -> None:
    if reading.told.zone is not None:
        raise Trouble("the zone is given twice")
    reading.told.zone = zone_of(row.cells[1])


def read_slot(reading: Reading, row: Row) -> None:
    _, name, *rest = row.cells
    if name in reading.told.slot_at:
        raise Trouble(f"the slot {name} is given twice")
    slot = Slot(name, line=row.number)
    reading.told.slot_at[name] = len(reading.told.slots)
    reading.told.slots.append(slot)
    if rest and rest[0]:
        reading.at(row.number, lambda: begin(reading, slot, when(rest[0])))
    if len(rest) > 1 and rest[1]:
        slot.minutes = whole(rest[1], "minutes")


def begin(reading: Reading, slot: Slot, told: When) -> None:
    """Gives a slot its time, once the zone is known."""

    def settle() -> None:
        slot.begin = in_zone(told, reading.told.zone)

    if told.date_alone:
        reading.told.notes.append(f"line {slot.line}: the slot {slot.name} begins at midnight, since its cell has only a date: is a time missing?")
    reading.times.append((slot.line, settle))


def read_meeting(reading: Reading, row: Row) -> None:
    _, name, *people = row.cells
    if name in reading.told.meetings:
        raise Trouble(f"the meeting {name} is given twice")
    reading.told.meetings[name] = Meeting(name, parts(people), line=row.number)


def read_room(reading: Reading, row: Row) -> None:
    _, name, *rest = row.cells
    if name in reading.told.rooms:
        raise Trouble(f"the room {name} is given twice")
    room = Room(name, line=row.number)
    reading.told.rooms[name] = room
    if rest and rest[0]:
        if not rest[0].isdigit():
            raise Trouble(f"{rest[0]} is not a number of seats: write the line as {FORMS['room']}")
        room.seats = whole(rest[0], "seats")
    room.has = parts(rest[1:])


def read_optional(reading: Reading, row: Row) -> None:
    _, name, *rest = row.cells
    meeting = reading.meeting(row, name)
    cost = price(rest.pop()) if len(rest) > 1 and is_price(rest[-1]) else Fraction(0)
    for person in parts(rest):
        if meeting and person in meeting.people:
            reading.fault(row.number, f"{person} must come to {name}, but is optional by this line: leave one of the two out")
        elif meeting:
            meeting.optional[person] = cost


def read_absent(reading: Reading, row: Row) -> None:
    one_alone(row)
    _, who, *rest = row.cells
    slots = reading.slots(row, parts(rest), f"{who} is absent in {{}}, which is not a slot")
    reading.told.absences.append(Absence(who, slots, row.number))


def read_busy(reading: Reading, row: Row) -> None:
    one_alone(row)
    _, who, first, last = row.cells
    begins, ends = when(first), when(last)

    def settle() -> None:
        zone = reading.told.zone
        told = Busy(who, in_zone(begins, zone), in_zone(ends, zone), row.number)
        if instant(told.end) <= instant(told.begin):
            raise Trouble(f"{last} is not after {first}: write the beginning first, then the end")
        reading.told.busy.append(told)

    reading.times.append((row.number, settle))


def read_wish(reading: Reading, row: Row) -> None:
    one_alone(row)
    _, who, *rest, cost = row.cells
    if who not in reading.told.meetings and who not in reading.told.people() and who not in reading.suspects:
        names = [*reading.told.people(), *reading.told.meetings]
        reading.fault(row.number, f"{who} likes or dislikes slots, but is neither a person nor a meeting{meant(who, names)}")
    if rest[-1].isdigit() and cost.isdigit() and rest[-1] not in reading.told.slot_at and len(rest) > 1:
        raise Trouble(f"{who} likes or dislikes {rest[-1]}, which is not a slot: is the cost {rest[-1]}.{cost} meant? Write it so, or in quotes: a comma separates cells")
    slots = reading.slots(row, parts(rest), f"{who} likes or dislikes {{}}, which is not a slot")
    reading.told.wishes.append(Wish(word_of(row.cells[0]), who, slots, price(cost), row.number))


def read_fixed(reading: Reading, row: Row) -> None:
    one_alone(row)
    _, name, *rest = row.cells
    meeting = reading.meeting(row, name)
    slots = reading.slots(row, parts(rest), f"{name} is fixed in {{}}, which is not a slot")
    if meeting and meeting.fixed:
        raise Trouble(f"{name} is fixed twice: name all slots that it may take in one line")
    if meeting:
        meeting.fixed = slots


def read_minutes(reading: Reading, row: Row) -> None:
    one_alone(row)
    meeting = reading.meeting(row, row.cells[1])
    long = whole(row.cells[2], "minutes")
    if meeting:
        meeting.minutes = long


def read_sequence(reading: Reading, row: Row) -> None:
    word, name, *rest = row.cells
    first = reading.meeting(row, name)
    others = [other for other in parts(rest) if reading.meeting(row, other)]
    if name in others:
        raise Trouble(f"{name} can't be {word} itself")
    if first is None:
        return
    if word_of(word) == "before":
        reading.told.sequences.append(Sequence(name, others, row.number))
    else:
        reading.told.sequences += [Sequence(other, [name], row.number) for other in others]


def read_together(reading: Reading, row: Row) -> None:
    names = [name for name in parts(row.cells[1:]) if reading.meeting(row, name)]
    reading.told.together.append(Together(names, word_of(row.cells[0]) == "sameday", row.number))


def read_most(reading: Reading, row: Row) -> None:
    one_alone(row)
    _, who, count = row.cells
    if who not in reading.told.people() and who not in reading.suspects:
        reading.fault(row.number, f"{who} takes part in no meeting{meant(who, reading.told.people())}")
    reading.told.most.append(Most(who, whole(count, "meetings a day"), row.number))


def read_needs(reading: Reading, row: Row) -> None:
    one_alone(row)
    meeting = reading.meeting(row, row.cells[1])
    if meeting is None:
        return
    for need in parts(row.cells[2:]):
        if word_of(need) in ("noroom", "none"):
            meeting.roomless = True
        elif need.isdigit():
            meeting.seats = whole(need, "seats")
        else:
            meeting.needs.append(need)
            things = [*reading.told.rooms, *(thing for room in reading.told.rooms.values() for thing in room.has)]
            if reading.told.rooms and need not in things:
                reading.fault(row.number, f"no room is called {need} or has {need}{meant(need, things)}")
    if not reading.told.rooms and not meeting.roomless:
        raise Trouble(f"{meeting.name} needs something in its room, but there is no line `room`")


def read_every(reading: Reading, row: Row) -> None:
    one_alone(row)
    meeting = reading.meeting(row, row.cells[1])
    every = whole(row.cells[2], "weeks")
    if every > reading.told.weeks:
        raise Trouble(f"{row.cells[1]} takes place every {every} weeks, but the week recurs {reading.told.weeks} times: say how often by a line such as weeks,10")
    if meeting:
        meeting.every = every


def read_person(reading: Reading, row: Row) -> None:
    _, name, mail = row.cells
    if not re.fullmatch(r"[^@\s]+@[^@\s]+", mail):
        raise Trouble(f"{mail} is not an address such as ida@example.org")
    reading.told.mails[name] = mail


READERS: dict[str, Callable[[Reading, Row], None]] = {
    "weeks": read_weeks,
    "zone": read_zone,
    "slot": read_slot,
    "meeting": read_meeting,
    "room": read_room,
    "optional": read_optional,
    "absent": read_absent,
    "busy": read_busy,
    "like": read_wish,
    "dislike": read_wish,
    "fixed": read_fixed,
    "minutes": read_minutes,
    "before": read_sequence,
    "after": read_sequence,
    "sameday": read_together,
    "otherday": read_together,
    "most": read_most,
    "needs": read_needs,
    "every": read_every,
    "person": read_person,
}
"""How the lines of each kind are read. What others name comes first, wherever it stands in the file."""


def check_whole(reading: Reading) -> None:
    """What is to be looked at once all lines are read."""
    told = reading.told
    if not told.slots or not told.meetings:
        reading.fault(0, "the file needs at least one line `slot,..` and one line `meeting,..`")
    timed = [slot for slot in told.slots if slot.begin is not None]
    untimed = next((slot for slot in told.slots if slot.begin is None), None)
    needing = [
        *((rule.line, "a rule about days needs the times of all slots") for rule in told.together),
        *((rule.line, "a rule about days needs the times of all slots") for rule in told.most),
        *((meeting.line, "a meeting with minutes needs the times of all slots") for meeting in told.meetings.values() if meeting.minutes),
        *((busy.line, "a line `busy` needs the times of all slots") for busy in told.busy),
        *((untimed.line, "a week that recurs needs the times of all slots") for _ in range(1) if untimed and told.weeks > 1),
    ]
    for line, why in needing:
        if untimed is not None:
            reading.fault(line, f"{why}, but the slot {untimed.name} has none: write it as slot,{untimed.name},2026-03-02 09:00")
    if told.weeks > 1 and len(timed) > 1:
        begins = [instant(slot.begin) for slot in timed if slot.begin is not None]
        first, last = min(begins), max(begins)
        if (last - first).days >= 7:
            late = timed[begins.index(last)]
            reading.fault(late.line, "the slots of a week that recurs must lie within seven days")
    for person in told.mails:
        if person not in told.people():
            told.notes.append(f"{person} has an address, but takes part in no meeting")
