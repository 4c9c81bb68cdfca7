"""The rules of a timetable: which places a meeting can have, which two it can't have beside another, and which are broken."""

from __future__ import annotations

from collections.abc import Callable
from dataclasses import dataclass
from fractions import Fraction
from itertools import combinations

from ..translate import number
from .model import Meeting, Most, Place, Room, Sequence, Timetable, Together


@dataclass(frozen=True)
class Breach:
    """A rule that a timetable breaks: the meetings that it is about, and a sentence."""

    meetings: tuple[str, ...]
    text: str

    def sentence(self) -> str:
        return self.text


@dataclass(frozen=True)
class PairRule:
    """A rule of two meetings: what it is, and for the places of each whether they break it."""

    kind: str
    first: str
    second: str
    forbids: list[list[bool]]
    who: tuple[str, ...] = ()
    line: int = 0

    @property
    def name(self) -> str:
        words = {"share": f"share {', '.join(self.who)}", "room": f"both need the room {', '.join(self.who)}"}
        words |= {"sameday": "are on one day", "otherday": "are not on one day"}
        if self.kind == "before":
            return f"{self.first} is before {self.second}"
        return f"{self.first} and {self.second} {words[self.kind]}"

    def sentence(self, here: str, there: str, line: str) -> str:
        """That two places break it."""
        first, second = self.first, self.second
        if self.kind in ("share", "room"):
            where = f"are both in {here}" if here == there else "overlap"
            names = f"{first} and {second}" if here == there else f"{first} in {here} and {second} in {there}"
            return f"{names} {where}, and {self.name.removeprefix(f'{first} and {second} ')}"
        if self.kind == "before":
            return f"{first} in {here} has not ended when {second} in {there} begins, against the line {line}"
        return f"{first} in {here} and {second} in {there} {'are not' if self.kind == 'sameday' else 'are'} on one day, against the line {line}"


def shared_by(told: Timetable) -> dict[tuple[str, str], list[str]]:
    """For each two meetings who must come to both, in the order of the file."""
    order = {name: at for at, name in enumerate(told.meetings)}
    shared: dict[tuple[str, str], list[str]] = {}
    for person, names in told.meetings_of.items():
        for pair in combinations(names, 2):
            shared.setdefault(pair, []).append(person)
    ranks = {pair: (order[pair[0]], order[pair[1]]) for pair in shared}
    at = {name: {person: place for place, person in enumerate(meeting.people)} for name, meeting in told.meetings.items()}
    return {pair: sorted(shared[pair], key=at[pair[0]].__getitem__) for pair in sorted(shared, key=ranks.__getitem__)}


def why_not(told: Timetable, meeting: Meeting, place: Place) -> list[str]:
    """Why a meeting can't have a place, for people; nothing where it can."""
    why = []
    slot = told.slots[place.slot].name
    if meeting.fixed and slot not in meeting.fixed:
        why.append(f"it is fixed in {' or '.join(meeting.fixed)}")
    for person in meeting.people:
        lines = told.clock.why_away(person, meeting, place)
        if lines:
            why.append(f"{person} can't: {', '.join(told.line(line) for line in lines)}")
    if told.takes_room(meeting) and not open_rooms(told, meeting, place):
        rooms = told.rooms_for(meeting)
        why.append(f"each room that suits it is closed ({', '.join(room.name for room in rooms)})" if rooms else "no room suits it")
    return why


def can(told: Timetable, meeting: Meeting, place: Place) -> bool:
    """Whether a meeting can have a place, by what is told of it and its people alone."""
    if meeting.fixed and told.slots[place.slot].name not in meeting.fixed:
        return False
    if any(told.clock.why_away(person, meeting, place) for person in meeting.people):
        return False
    return not told.takes_room(meeting) or bool(open_rooms(told, meeting, place))


def open_rooms(told: Timetable, meeting: Meeting, place: Place) -> list[Room]:
    """The rooms that suit a meeting and are open at a place."""
    return [room for room in told.rooms_for(meeting) if not told.clock.why_away(room.name, meeting, place)]


def pair_rules(told: Timetable) -> list[PairRule]:
    """All rules of two meetings."""
    shared = shared_by(told)
    rules = []
    for (first, second), people in shared.items():
        meets = told.clock.meets(told.meetings[first], told.meetings[second])
        rules.append(PairRule("share", first, second, meets, tuple(people)))
    for (first, second), room in one_room(told).items():
        if (first, second) not in shared:
            meets = told.clock.meets(told.meetings[first], told.meetings[second])
            rules.append(PairRule("room", first, second, meets, (room,)))
    rules += [rule for sequence in told.sequences for rule in sequence_rules(told, sequence)]
    rules += [rule for together in told.together for rule in day_rules(told, together)]
    return rules


def one_room(told: Timetable) -> dict[tuple[str, str], str]:
    """The room of each two meetings that both can have that one alone."""
    only: dict[str, list[str]] = {}
    for name, meeting in told.meetings.items() if told.rooms else ():
        rooms = told.rooms_for(meeting)
        if len(rooms) == 1:
            only.setdefault(rooms[0].name, []).append(name)
    return {pair: room for room, names in only.items() for pair in combinations(names, 2)}


def tested(told: Timetable, first: str, second: str, forbids: Callable[[Place, Place], bool]) -> list[list[bool]]:
    one, other = told.meetings[first], told.meetings[second]
    return [[forbids(a, b) for b in told.places_for(other)] for a in told.places_for(one)]


def sequence_rules(told: Timetable, sequence: Sequence) -> list[PairRule]:
    first = sequence.first
    return [
        PairRule("before", first, then, tested(told, first, then, lambda a, b: not ends_before(told, first, a, b)), line=sequence.line)
        for then in sequence.then
    ]


def ends_before(told: Timetable, first: str, here: Place, there: Place) -> bool:
    """Whether a meeting at one place has ended when what stands at the other begins: by their times, else by the order of the slots."""
    a, b = told.slots[here.slot].span(told.meetings[first].minutes), told.slots[there.slot].span()
    return here.slot < there.slot if a is None or b is None else a[1] <= b[0]


def day_rules(told: Timetable, together: Together) -> list[PairRule]:
    kind, rules = "sameday" if together.same else "otherday", []
    for first, second in combinations(together.names, 2):
        forbids = tested(told, first, second, lambda a, b: one_day(told, first, a, second, b) != together.same)
        rules.append(PairRule(kind, first, second, forbids, line=together.line))
    return rules


def one_day(told: Timetable, first: str, here: Place, second: str, there: Place) -> bool:
    """Whether two meetings are on one day, in some week."""
    others = set(told.weeks_of(told.meetings[second], there))
    same = told.slots[here.slot].day == told.slots[there.slot].day
    return same and any(week in others for week in told.weeks_of(told.meetings[first], here))


def day_groups(told: Timetable, most: Most) -> dict[str, dict[str, frozenset[int]]]:
    """For each day the meetings of somebody that may be on it, with the rows of the places at which they are; days on which these are
    the same count once."""
    names = told.meetings_of.get(most.who, [])
    days = list(dict.fromkeys(slot.day for slot in told.slots))
    groups: dict[str, dict[str, frozenset[int]]] = {}
    seen = set()
    for week in range(told.weeks):
        for day in days:
            group = {}
            for name in names:
                meeting = told.meetings[name]
                rows = frozenset(
                    row
                    for row, place in enumerate(told.places_for(meeting))
                    if told.slots[place.slot].day == day and week in told.weeks_of(meeting, place)
                )
                if rows:
                    group[name] = rows
            key = tuple(group.items())
            if len(group) > most.count and key not in seen:
                seen.add(key)
                groups[f"{day}" if told.weeks == 1 else f"{day:%A} of week {week + 1}"] = group
    return groups


def breaches(told: Timetable, chosen: dict[str, object]) -> list[Breach]:
    """The rules that a timetable breaks, but for those of rooms that several meetings share."""
    places = told.places(chosen)
    rows = {name: told.clock.at(told.meetings[name], place) for name, place in places.items()}
    found = alone_breaches(told, places)
    for rule in pair_rules(told):
        if rule.forbids[rows[rule.first]][rows[rule.second]]:
            text = rule.sentence(str(chosen[rule.first]), str(chosen[rule.second]), told.line(rule.line))
            found.append(Breach((rule.first, rule.second), text))
    for most in told.most:
        for day, group in day_groups(told, most).items():
            on = [name for name in group if rows[name] in group[name]]
            if len(on) > most.count:
                found.append(Breach(tuple(on), f"{most.who} has {len(on)} meetings on {day}, {', '.join(on)}, but may have {most.count} at most"))
    return found


def alone_breaches(told: Timetable, places: dict[str, Place]) -> list[Breach]:
    """The meetings that are where they can't be."""
    found = []
    for name, place in places.items():
        meeting = told.meetings[name]
        if not can(told, meeting, place):
            found.append(Breach((name,), f"{name} is in {told.place_name(meeting, place)}, and {'; '.join(why_not(told, meeting, place))}"))
    return found


@dataclass(frozen=True)
class Cost:
    """Something that a timetable costs: how much, and a sentence."""

    cost: Fraction
    text: str

    def sentence(self) -> str:
        return f"costs {number(self.cost)}: {self.text}"


def wish_costs(told: Timetable, meeting: Meeting, place: Place) -> list[Cost]:
    """The wishes that a meeting does not meet at a place, and who need not come and can't."""
    slot, name = told.slots[place.slot].name, told.place_name(meeting, place)
    costs = []
    for who in dict.fromkeys([meeting.name, *meeting.people]):
        for wish in told.wishes_of.get(who, []):
            if wish.unmet(slot):
                why = f"which {wish.who} dislikes" if wish.taste == "dislike" else f"and {wish.who} likes {' or '.join(wish.slots)}"
                costs.append((wish.line, Cost(wish.cost, f"{meeting.name} is in {name}, {why}")))
    for person, cost in meeting.optional.items():
        if cost and told.clock.why_away(person, meeting, place):
            costs.append((0, Cost(cost, f"{meeting.name} is in {name}, where {person}, who need not come, can't")))
    return [cost for _, cost in sorted(costs, key=lambda it: it[0])]


def both_costs(told: Timetable) -> dict[tuple[str, str], dict[str, Fraction]]:
    """For each two meetings that can be at once, since nobody must come to both, what that costs, by who need not come to one of them."""
    part: dict[str, list[tuple[str, Fraction | None]]] = {}
    for name, meeting in told.meetings.items():
        for person in meeting.people:
            part.setdefault(person, []).append((name, None))
        for person, cost in meeting.optional.items():
            part.setdefault(person, []).append((name, cost))
    found: dict[tuple[str, str], dict[str, Fraction]] = {}
    for person, its in part.items():
        for (first, a), (second, b) in combinations(sorted(its, key=lambda it: told.meetings[it[0]].line), 2):
            least = min((cost for cost in (a, b) if cost is not None), default=Fraction(0))
            if least and not set(told.meetings[first].people) & set(told.meetings[second].people):
                found.setdefault((first, second), {})[person] = least
    return found


def costs(told: Timetable, chosen: dict[str, object]) -> list[Cost]:
    """All that a timetable costs, each with a sentence."""
    places = told.places(chosen)
    found = [cost for name, place in places.items() for cost in wish_costs(told, told.meetings[name], place) if cost.cost]
    for (first, second), people in both_costs(told).items():
        one, other = told.meetings[first], told.meetings[second]
        if told.clock.meets(one, other)[told.clock.at(one, places[first])][told.clock.at(other, places[second])]:
            found += [Cost(cost, f"{first} and {second} are at once, and {person} need not come to both") for person, cost in people.items()]
    return found
