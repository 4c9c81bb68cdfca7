"""Random small timetables, and what the best of each costs, found by trying all: each rule is told here once more, in its own words."""

from __future__ import annotations

import datetime
import itertools
import random
from dataclasses import dataclass, field
from fractions import Fraction

BEGIN = datetime.datetime(2026, 3, 2, 9)
MINUTE = datetime.timedelta(minutes=1)
WEEK = datetime.timedelta(days=7)
KINDS = ("plain", "fixed", "minutes", "optional", "before", "same day", "other day", "most", "room", "weeks", "busy")


@dataclass
class Week:
    """A timetable's parts, as they are drawn."""

    slots: dict[str, tuple[datetime.datetime, int]] = field(default_factory=dict)
    meetings: dict[str, list[str]] = field(default_factory=dict)
    optional: dict[str, dict[str, Fraction]] = field(default_factory=dict)
    absent: list[tuple[str, str]] = field(default_factory=list)
    busy: list[tuple[str, datetime.datetime, datetime.datetime]] = field(default_factory=list)
    wishes: list[tuple[str, str, str, Fraction]] = field(default_factory=list)
    fixed: dict[str, list[str]] = field(default_factory=dict)
    minutes: dict[str, int] = field(default_factory=dict)
    before: list[tuple[str, str]] = field(default_factory=list)
    same: list[tuple[str, str]] = field(default_factory=list)
    other: list[tuple[str, str]] = field(default_factory=list)
    most: list[tuple[str, int]] = field(default_factory=list)
    rooms: dict[str, tuple[int | None, list[str]]] = field(default_factory=dict)
    needs: dict[str, list[str]] = field(default_factory=dict)
    weeks: int = 1
    every: dict[str, int] = field(default_factory=dict)

    def text(self) -> str:
        lines = [f"slot,{name},{begin:%Y-%m-%d %H:%M},{long}" for name, (begin, long) in self.slots.items()]
        lines += [f"meeting,{name},{';'.join(people)}" for name, people in self.meetings.items()]
        lines += [f"optional,{name},{who},{float(cost):g}" for name, its in self.optional.items() for who, cost in its.items()]
        lines += [f"absent,{who},{slot}" for who, slot in self.absent]
        lines += [f"busy,{who},{a:%Y-%m-%d %H:%M},{b:%Y-%m-%d %H:%M}" for who, a, b in self.busy]
        lines += [f"{taste},{who},{slot},{float(cost):g}" for taste, who, slot, cost in self.wishes]
        lines += [f"fixed,{name},{';'.join(slots)}" for name, slots in self.fixed.items()]
        lines += [f"minutes,{name},{long}" for name, long in self.minutes.items()]
        lines += [f"before,{a},{b}" for a, b in self.before]
        lines += [f"same day,{a},{b}" for a, b in self.same] + [f"other day,{a},{b}" for a, b in self.other]
        lines += [f"most,{who},{count}" for who, count in self.most]
        lines += [f"room,{name},{'' if seats is None else seats},{';'.join(has)}" for name, (seats, has) in self.rooms.items()]
        lines += [f"needs,{name},{';'.join(needs)}" for name, needs in self.needs.items()]
        lines += [f"every,{name},{weeks}" for name, weeks in self.every.items()] + ([f"weeks,{self.weeks}"] if self.weeks > 1 else [])
        return "\n".join(lines) + "\n"

    def times(self, name: str, place: tuple[str, int]) -> list[tuple[datetime.datetime, datetime.datetime]]:
        """Each time at which a meeting takes place."""
        slot, week = place
        begin, long = self.slots[slot]
        found = []
        for at in range(week, self.weeks, self.every.get(name, 1)):
            found.append((begin + at * WEEK, begin + at * WEEK + self.minutes.get(name, long) * MINUTE))
        return found

    def at_once(self, a: str, here: tuple[str, int], b: str, there: tuple[str, int]) -> bool:
        return any(x[0] < y[1] and y[0] < x[1] for x in self.times(a, here) for y in self.times(b, there))

    def gone(self, who: str, name: str, place: tuple[str, int]) -> bool:
        """Whether somebody is absent at a meeting at a place."""
        away = [(begin + at * WEEK, begin + at * WEEK + long * MINUTE) for it, slot in self.absent if it == who for begin, long in [self.slots[slot]] for at in range(self.weeks)]
        away += [(a, b) for it, a, b in self.busy if it == who]
        return any(x[0] < y[1] and y[0] < x[1] for x in self.times(name, place) for y in away)

    def days(self, name: str, place: tuple[str, int]) -> set[datetime.date]:
        return {begin.date() for begin, _ in self.times(name, place)}

    def keeps(self, chosen: dict[str, tuple[str, int]]) -> bool:
        """Whether a timetable keeps all rules but those of rooms."""
        for name, place in chosen.items():
            if place[0] not in self.fixed.get(name, [place[0]]) or any(self.gone(who, name, place) for who in self.meetings[name]):
                return False
        for a, b in itertools.combinations(chosen, 2):
            if set(self.meetings[a]) & set(self.meetings[b]) and self.at_once(a, chosen[a], b, chosen[b]):
                return False
        for a, b in self.before:
            first, then = self.slots[chosen[a][0]], self.slots[chosen[b][0]]
            if first[0] + self.minutes.get(a, first[1]) * MINUTE > then[0]:
                return False
        if any(not self.days(a, chosen[a]) & self.days(b, chosen[b]) for a, b in self.same):
            return False
        if any(self.days(a, chosen[a]) & self.days(b, chosen[b]) for a, b in self.other):
            return False
        for who, count in self.most:
            days = [day for name in self.meetings if who in self.meetings[name] for day in self.days(name, chosen[name])]
            if any(days.count(day) > count for day in days):
                return False
        return True

    def has_rooms(self, chosen: dict[str, tuple[str, int]]) -> bool:
        """Whether all that need one can have rooms, by trying all ways to give them."""
        if not self.rooms:
            return True
        names = [name for name in self.meetings if "no room" not in self.needs.get(name, [])]
        return any(self.room_fits(chosen, dict(zip(names, given))) for given in itertools.product(self.rooms, repeat=len(names)))

    def room_fits(self, chosen: dict[str, tuple[str, int]], given: dict[str, str]) -> bool:
        for name, room in given.items():
            seats, has = self.rooms[room]
            wanted = [int(need) for need in self.needs.get(name, []) if need.isdigit()] or [len(self.meetings[name])]
            if seats is not None and seats < wanted[0]:
                return False
            if any(need not in (room, *has) for need in self.needs.get(name, []) if not need.isdigit()) or self.gone(room, name, chosen[name]):
                return False
        return not any(given[a] == given[b] and self.at_once(a, chosen[a], b, chosen[b]) for a, b in itertools.combinations(given, 2))

    def cost(self, chosen: dict[str, tuple[str, int]]) -> Fraction:
        total = Fraction(0)
        for name, place in chosen.items():
            for taste, who, slot, cost in self.wishes:
                if (who == name or who in self.meetings[name]) and (place[0] == slot) == (taste == "dislike"):
                    total += cost
            total += sum(cost for who, cost in self.optional.get(name, {}).items() if self.gone(who, name, place))
        for a, b in itertools.combinations(chosen, 2):
            if self.at_once(a, chosen[a], b, chosen[b]):
                for who in {*self.optional.get(a, {}), *self.optional.get(b, {})}:
                    if all(who in self.meetings[it] or who in self.optional.get(it, {}) for it in (a, b)):
                        total += min(self.optional[it][who] for it in (a, b) if who in self.optional.get(it, {}))
        return total

    def places(self, name: str) -> list[tuple[str, int]]:
        return [(slot, week) for slot in self.slots for week in range(min(self.every.get(name, 1), self.weeks))]

    def all_of(self) -> list[tuple[Fraction, dict[str, tuple[str, int]]]]:
        """All timetables that keep the rules, with what they cost."""
        choices = [dict(zip(self.meetings, places)) for places in itertools.product(*map(self.places, self.meetings))]
        return [(self.cost(it), it) for it in choices if self.keeps(it) and self.has_rooms(it)]


def drawn(kind: str, draw: random.Random) -> Week:
    """A timetable with lines of this kind."""
    week = Week()
    for at in range(draw.randint(3, 5)):
        begin = BEGIN + datetime.timedelta(days=draw.randint(0, 2), minutes=30 * draw.randint(0, 4))
        week.slots[f"s{at}"] = (begin, draw.choice((30, 60, 90)))
    people = [f"p{at}" for at in range(4)]
    for at in range(draw.randint(2, 4)):
        week.meetings[f"m{at}"] = draw.sample(people, draw.randint(1, 3))
    names, slots = list(week.meetings), list(week.slots)
    week.absent = [(draw.choice(people), draw.choice(slots)) for _ in range(draw.randint(0, 2))]
    for _ in range(draw.randint(0, 4)):
        week.wishes.append((draw.choice(("like", "dislike")), draw.choice(names + people), draw.choice(slots), Fraction(draw.randint(0, 6), 2)))
    week.wishes = [it for it in week.wishes if it[1] in names or any(it[1] in its for its in week.meetings.values())]
    pair = tuple(draw.sample(names, 2))
    if kind == "fixed":
        week.fixed[draw.choice(names)] = draw.sample(slots, draw.randint(1, 2))
    elif kind == "minutes":
        week.minutes = {name: draw.choice((15, 45, 120)) for name in draw.sample(names, 2)}
    elif kind == "optional":
        for name in draw.sample(names, 2):
            others = [who for who in people if who not in week.meetings[name]]
            week.optional[name] = {who: Fraction(draw.randint(0, 4), 2) for who in draw.sample(others, min(2, len(others)))}
    elif kind == "before":
        week.before.append(pair)
    elif kind == "same day":
        week.same.append(pair)
    elif kind == "other day":
        week.other.append(pair)
    elif kind == "most":
        busiest = max(people, key=lambda who: sum(who in its for its in week.meetings.values()))
        week.most = [(busiest, draw.randint(1, 2))]
    elif kind == "room":
        things = ("screen", "board")
        for at in range(draw.randint(1, 2)):
            week.rooms[f"r{at}"] = (draw.choice((None, 2, 3)), draw.sample(things, draw.randint(0, 2)))
        week.rooms["hall"] = (None, list(things))
        week.needs = {name: draw.choice((["screen"], ["1", "board"], ["no room"], ["3"])) for name in draw.sample(names, 2)}
        week.absent.append((draw.choice(list(week.rooms)), draw.choice(slots)))
    elif kind == "weeks":
        week.weeks = draw.randint(2, 5)
        week.every = {name: draw.randint(1, 2) for name in draw.sample(names, 2)}
    elif kind == "busy":
        for _ in range(2):
            begin = BEGIN + datetime.timedelta(days=draw.randint(0, 2), minutes=15 * draw.randint(0, 8))
            week.busy.append((draw.choice(people), begin, begin + datetime.timedelta(minutes=draw.choice((20, 60)))))
    return week
