"""Rooms are given out behind the slots.

Each meeting gets a room that suits it, is open, and is taken by no other meeting at that time. Where that can't be, it is told why in a form that
the problem can take: in each timetable at most as many meetings as there are rooms for them stand at once. With these *crowds* the slots are
chosen anew, so what is found in the end is the best timetable in which all have rooms.
"""

from __future__ import annotations

from collections.abc import Iterable

from ..problem import Table
from ..translate import Translation
from .make import Crowd
from .model import Place, Room, Timetable
from .rules import Breach, open_rooms

_STEPS = 100_000
"""How many rooms are tried before giving them out is given up."""
_MOVES = 3
"""How often a meeting is moved for a room, on an average."""


class Rooms:
    """The meetings of a timetable that take rooms, and what each can have."""

    def __init__(self, told: Timetable, chosen: dict[str, object]):
        self.told = told
        places = told.places(chosen)
        self.places = {name: place for name, place in places.items() if told.takes_room(told.meetings[name])}
        self.choices = {name: [room.name for room in open_rooms(told, told.meetings[name], place)] for name, place in self.places.items()}
        self.beside = {name: [other for other in self.places if other != name and self.at_once(name, other)] for name in self.places}
        self.steps = 0

    def at_once(self, one: str, other: str) -> bool:
        told = self.told
        rows = [told.clock.at(told.meetings[name], self.places[name]) for name in (one, other)]
        return told.clock.meets(told.meetings[one], told.meetings[other])[rows[0]][rows[1]]

    def given(self, names: Iterable[str] | None = None) -> dict[str, str] | None:
        """A room for each of these meetings, or None where there is none for all, or the search is given up."""
        self.steps = 0
        given: dict[str, str] = {}
        return given if self.give(given, set(self.places if names is None else names)) else None

    def give(self, given: dict[str, str], left: set[str]) -> bool:
        """Gives rooms to the meetings that are left, the one with the fewest choices first."""
        if not left:
            return True
        free = {name: [room for room in self.choices[name] if all(given.get(other) != room for other in self.beside[name])] for name in left}
        name = min(sorted(left), key=lambda it: len(free[it]))
        for room in free[name]:
            self.steps += 1
            if self.steps > _STEPS:
                return False
            given[name] = room
            if self.give(given, left - {name}):
                return True
            del given[name]
        return False

    @property
    def given_up(self) -> bool:
        return self.steps > _STEPS

    def clusters(self) -> list[list[str]]:
        """The meetings in groups that stand at the same times, one after the other."""
        found, seen = [], set()
        for name in self.places:
            group, waiting = [], [name]
            while waiting:
                it = waiting.pop()
                if it not in seen:
                    seen.add(it)
                    group.append(it)
                    waiting += self.beside[it]
            if group:
                found.append(group)
        return found


def give(told: Timetable, chosen: dict[str, object]) -> tuple[dict[str, str], list[Crowd], list[Breach]]:
    """A room for each meeting that takes one; where there is none for some, the crowds that are too large, and what is broken."""
    rooms = Rooms(told, chosen)
    given: dict[str, str] = {}
    crowds: list[Crowd] = []
    broken: list[Breach] = []
    for cluster in rooms.clusters():
        its = rooms.given(cluster)
        if its is not None:
            given |= its
            continue
        found = [] if rooms.given_up else [crowd for at in cluster for crowd in crowd_at(rooms, at, cluster)]
        if not found and not rooms.given_up:
            found = [no_good(rooms, cluster)]
        crowds += [crowd for crowd in found if crowd not in crowds]
        best, without = most_given(rooms, cluster)
        given |= best
        broken += [Breach((name,), f"{name} is in {chosen[name]}, and has no room there{beside(rooms, name, best)}") for name in without]
    return given, crowds, broken


def beside(rooms: Rooms, name: str, given: dict[str, str]) -> str:
    taken = [f"{given[other]} is taken by {other}" for other in rooms.beside[name] if given.get(other) in rooms.choices[name]]
    return f": {', '.join(taken)}" if taken else ""


def most_given(rooms: Rooms, cluster: list[str]) -> tuple[dict[str, str], list[str]]:
    """Rooms for as many meetings as get one, the one behind the other, and those that get none."""
    given: dict[str, str] = {}
    without = []
    for name in sorted(cluster, key=lambda it: len(rooms.choices[it])):
        free = [room for room in rooms.choices[name] if all(given.get(other) != room for other in rooms.beside[name])]
        if free:
            given[name] = free[0]
        else:
            without.append(name)
    return given, without


def crowd_at(rooms: Rooms, name: str, cluster: list[str]) -> list[Crowd]:
    """Where more meetings are at once, when one begins, than there are rooms for them: that this can't be, for all meetings that need these rooms."""
    told = rooms.told
    slot = told.slots[rooms.places[name].slot]
    now = [other for other in cluster if other == name or (rooms.at_once(name, other) and is_on(told, other, rooms.places[other], name, rooms.places[name]))]
    wanting = unmatched(rooms.choices, now)
    if not wanting:
        return []
    few = sorted({room for it in wanting for room in rooms.choices[it]})
    all_of = []
    for meeting in told.meetings.values():
        if not told.takes_room(meeting):
            continue
        places = frozenset(
            place
            for place in told.places_for(meeting)
            if is_on(told, meeting.name, place, name, rooms.places[name]) and within(open_rooms(told, meeting, place), few)
        )
        if places:
            all_of.append((meeting.name, places))
    return [Crowd(f"rooms {', '.join(few)} in {slot.name}", len(few), tuple(all_of))]


def within(rooms: list[Room], few: list[str]) -> bool:
    return bool(rooms) and all(room.name in few for room in rooms)


def is_on(told: Timetable, name: str, place: Place, other: str, begin: Place) -> bool:
    """Whether a meeting is on when another one begins, in the first week of that one."""
    weeks = told.weeks_of(told.meetings[name], place)
    if begin.week not in weeks:
        return False
    span, at = told.slots[place.slot].span(told.meetings[name].minutes), told.slots[begin.slot].span()
    if span is None or at is None:
        return place.slot == begin.slot
    return span[0] <= at[0] < span[1]


def unmatched(choices: dict[str, list[str]], names: list[str]) -> list[str]:
    """Of meetings that are at once some that have fewer rooms together than they are; nothing where each can have one."""
    holder: dict[str, str] = {}

    def seat(name: str, seen: set[str]) -> bool:
        for room in choices[name]:
            if room not in seen:
                seen.add(room)
                if room not in holder or seat(holder[room], seen):
                    holder[room] = name
                    return True
        return False

    for name in names:
        seen: set[str] = set()
        if not seat(name, seen):
            return [name, *(holder[room] for room in seen)]
    return []


def repaired(told: Timetable, places: dict[str, list[Place]], problem: Translation, values: list[int]) -> list[int] | None:
    """The values of a timetable in which all have rooms, found by moving meetings that have none, or others for them, one after the other:
    each time the move that costs least, to where no rule is broken and a room is free. None where that comes to no end."""
    repair = Repair(told, places, problem, list(values))
    for _ in range(_MOVES * len(places)):
        _, _, missing = give(told, problem.told(repair.values))
        if not missing:
            return repair.values
        if not repair.move(missing[0].meetings[0]):
            return None
    return None


class Repair:
    """A timetable that is changed until all have rooms."""

    def __init__(self, told: Timetable, places: dict[str, list[Place]], problem: Translation, values: list[int]):
        self.told, self.places, self.problem, self.values = told, places, problem.problem, values
        self.hard = problem.hard_cost or None
        self.index = {name: at for at, name in enumerate(told.meetings)}
        self.own: list[list[Table]] = [[] for _ in values]
        for table in self.problem.tables:
            for variable in table.scope:
                self.own[variable].append(table)
        self.seen: set[tuple[str, int]] = set()

    def place(self, name: str) -> Place:
        return self.places[name][self.values[self.index[name]]]

    def beside(self, name: str, place: Place) -> list[str]:
        """The other meetings that take a room at that time."""
        told, mine = self.told, self.told.meetings[name]
        row = told.clock.at(mine, place)
        found = []
        for other, meeting in told.meetings.items():
            if other != name and told.takes_room(meeting) and told.clock.meets(mine, meeting)[row][told.clock.at(meeting, self.place(other))]:
                found.append(other)
        return found

    def cost(self, variable: int, value: int) -> int:
        kept, self.values[variable] = self.values[variable], value
        total = sum(self.problem.cell(table, self.values) for table in self.own[variable])
        self.values[variable] = kept
        return total

    def move(self, name: str) -> bool:
        """Moves a meeting that has no room, or one that takes a room beside it."""
        best: tuple[int, str, int] | None = None
        for who in [name, *self.beside(name, self.place(name))]:
            variable = self.index[who]
            before = self.cost(variable, self.values[variable])
            for value in range(len(self.places[who])):
                if (who, value) in self.seen or value == self.values[variable]:
                    continue
                more = self.cost(variable, value) - before
                if (best is None or more < best[0]) and (self.hard is None or more < self.hard) and self.has_room(who, self.places[who][value]):
                    best = more, who, value
        if best is None:
            return False
        _, who, value = best
        self.seen |= {(who, value), (who, self.values[self.index[who]])}
        self.values[self.index[who]] = value
        return True

    def has_room(self, name: str, place: Place) -> bool:
        """Whether all that would be at that time could have rooms."""
        told = self.told
        choices = {other: [room.name for room in open_rooms(told, told.meetings[other], self.place(other))] for other in self.beside(name, place)}
        choices[name] = [room.name for room in open_rooms(told, told.meetings[name], place)]
        return not unmatched(choices, list(choices))


def no_good(rooms: Rooms, cluster: list[str]) -> Crowd:
    """That these meetings are never again in these places together; of those that get no rooms only as many as are needed."""
    left = list(cluster)
    for name in cluster:
        fewer = [other for other in left if other != name]
        if rooms.given(fewer) is None and not rooms.given_up:
            left = fewer
    places = tuple((name, frozenset({rooms.places[name]})) for name in left)
    return Crowd(f"rooms for {', '.join(left)} at once", len(left) - 1, places)
