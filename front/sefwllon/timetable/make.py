"""The problem that is made of a timetable: a variable for each meeting, whose values are the places that it can have.

Places that a meeting can't have go first, so they are in no table. What is too large is refused from a count, before it is made.

What is least is told by up to three sums, the one behind the other: how many meetings move from an earlier timetable, what the timetable
costs, and how many meetings stand where they do in further ones. They are put into one: each counts more than all that is behind it together.
"""

from __future__ import annotations

from collections.abc import Iterable
from dataclasses import dataclass, field
from fractions import Fraction
from functools import cached_property
from itertools import chain
from math import lcm

from ..problem import MOST_CELLS, MOST_VALUES, MOST_VARIABLES, Trouble
from ..source import Constraint, Cost, Source
from . import limits, rules
from .limits import Limit
from .model import Meeting, Place, Timetable
from .rules import PairRule

Same = dict[str, str]
"""The places of meetings in another timetable, by name."""


@dataclass
class Aim:
    """What is wanted of a timetable besides the least cost."""

    keep: Same | None = None
    """Before all: the fewest meetings stand elsewhere than here."""
    unlike: list[Same] = field(default_factory=list)
    """Behind the cost: the fewest meetings stand where they stand in these."""
    like: Same | None = None
    """Behind the cost: the fewest meetings stand elsewhere than here."""
    held: Same = field(default_factory=dict)
    """These meetings stand here."""
    others: list[Same] = field(default_factory=list)
    """Timetables that are not wanted again."""
    crowds: list[Crowd] = field(default_factory=list)
    """Limits of meetings at once that rooms ask for."""
    free: bool = False
    """Whether no cost counts: it is asked alone whether there is a timetable."""

    @property
    def plain(self) -> bool:
        """Whether the problem is the one that the file alone tells."""
        return self == Aim()


@dataclass(frozen=True)
class Crowd:
    """At most so many of some meetings at some of their places: what rooms ask for."""

    name: str
    count: int
    places: tuple[tuple[str, frozenset[Place]], ...]


@dataclass
class Made:
    """The problem of a timetable, and how its sum is told."""

    told: Timetable
    aim: Aim
    source: Source
    places: dict[str, list[Place]]
    scale: int = 1
    """By what a cost is multiplied to be a whole number."""
    behind: int = 1
    """What a unit of a whole cost counts, above all that stands behind the cost."""
    move: int = 0
    """What a meeting that moves counts; 0 where none is to be kept."""
    whole: bool = False
    """Whether the sum is told in these whole numbers; else it is the cost."""
    cells_beside: dict[tuple[str, int, Cost], tuple[list[list[bool]], list[list[Cost]]]] = field(init=False, default_factory=dict)
    """What `beside` has made, each with what it was made of, by whose identity it is found."""

    @cached_property
    def rows(self) -> dict[str, list[int]]:
        """Which of all places that each meeting might have those are that it can have."""
        at = self.told.clock.at
        return {name: [at(self.told.meetings[name], place) for place in its] for name, its in self.places.items()}

    def beside(self, name: str, where: list[list[bool]], cost: Cost) -> list[list[Cost]]:
        """For each place of another meeting the cells of those that this one can have: this cost where it is told, and else 0. They are made once."""
        key = name, id(where), cost
        if key not in self.cells_beside:
            self.cells_beside[key] = where, [[cost if row[at] else 0 for at in self.rows[name]] for row in where]
        return self.cells_beside[key][1]

    @property
    def factor(self) -> int:
        return self.scale * self.behind if self.whole else 1

    def moves_of(self, total: Fraction) -> int:
        """How many meetings move, by a sum."""
        return int(total // self.move) if self.move else 0

    def cost_of(self, total: Fraction) -> Fraction:
        """The cost that a sum tells."""
        if not self.whole:
            return total
        return Fraction(int(total % self.move if self.move else total) // self.behind, self.scale)


def source(told: Timetable, title: str) -> Source:
    """The problem of a file."""
    made = make(told, title).source
    if told.rooms:
        made.notes.append("only slots are chosen here: each meeting may take the slots in which a suitable room is open. `meetings` assigns rooms")
    return made


def make(told: Timetable, title: str, aim: Aim | None = None) -> Made:
    """The problem of a timetable, with what is wanted besides."""
    aim = aim or Aim()
    check_count(told)
    places = {name: places_of(told, meeting, aim.held.get(name)) for name, meeting in told.meetings.items()}
    if told.rooms:
        places = spread(places)
    pairs = rules.pair_rules(told)
    soft = {} if aim.free else rules.both_costs(told)
    check_cells(told, places, pairs, soft)
    alone = {name: [Fraction(0)] * len(its) if aim.free else own_costs(told, told.meetings[name], its) for name, its in places.items()}
    made = weighed(told, aim, title, places, alone, soft)
    problem = made.source
    index = {name: at for at, name in enumerate(told.meetings)}
    for rule in pairs:
        scope = index[rule.first], index[rule.second]
        problem.constraints.append(Constraint(rule.name, scope, pair_cells(made, rule.first, rule.second, rule.forbids, None)))
    add_soft(made, soft, index)
    wanted = list(limits_of(told, made, index))
    check_limits(problem, wanted)
    for limit in wanted:
        limits.add(problem, limit)
    for at, other in enumerate(aim.others, 1):
        values = {index[name]: value for name, value in values_of(made, other).items()}
        if len(values) == len(index):
            limits.add_other(problem, f"not timetable {at} again", values)
    if len(problem.names) > MOST_VARIABLES:
        raise Trouble(f"{len(problem.names)} variables would be needed for the meetings and for counting them; dcop takes up to {MOST_VARIABLES}")
    return made


def check_count(told: Timetable) -> None:
    if len(told.meetings) > MOST_VARIABLES:
        raise Trouble(f"there are {len(told.meetings):,} meetings; dcop takes up to {MOST_VARIABLES:,}: make a file for each group that shares nobody with the others")
    most = max((min(meeting.every, told.weeks) for meeting in told.meetings.values()), default=1)
    if len(told.slots) * most > MOST_VALUES * 16:
        raise Trouble(f"there are {len(told.slots):,} slots; a meeting can have up to {MOST_VALUES:,}: leave some out")


def places_of(told: Timetable, meeting: Meeting, held: str | None) -> list[Place]:
    """The places that a meeting can have."""
    every = told.places_for(meeting)
    its = [
        place
        for place in every
        if held in (None, told.place_name(meeting, place), told.slots[place.slot].name) and rules.can(told, meeting, place)
    ]
    if not its:
        raise NoPlace(meeting.name, no_place(told, meeting))
    if len(its) > MOST_VALUES:
        raise Trouble(f"{meeting.name} has {len(its):,} slots to choose from; dcop takes up to {MOST_VALUES:,}: leave some out, or fix it in fewer")
    return its


def spread(places: dict[str, list[Place]]) -> dict[str, list[Place]]:
    """The places of each meeting from another one on: where several are as good, the first is taken, and few meetings are to be at once."""
    found = {}
    for at, (name, its) in enumerate(places.items()):
        first = at * len(its) // len(places)
        found[name] = its[first:] + its[:first]
    return found


class NoPlace(Trouble):
    """A meeting has no place that it can have."""

    def __init__(self, meeting: str, why: str):
        super().__init__(why)
        self.meeting = meeting


def no_place(told: Timetable, meeting: Meeting) -> str:
    """Why a meeting has no place, and what to do."""
    name, people = meeting.name, ", ".join(meeting.people)
    if told.takes_room(meeting) and not told.rooms_for(meeting):
        needs = [f"{meeting.size} seats", *meeting.needs]
        rooms = "; ".join(f"{room.name}: {'any number of' if room.seats is None else room.seats} seats{''.join(f', {it}' for it in room.has)}" for room in told.rooms.values())
        return f"no room has what {name} needs, {', '.join(needs)} ({rooms}): write needs,{name},no room or, for fewer seats, needs,{name},SEATS"
    slots = [slot.name for slot in told.slots if not meeting.fixed or slot.name in meeting.fixed]
    barred = {
        person: [told.slots[place.slot].name for place in told.places_for(meeting) if told.clock.why_away(person, meeting, place)]
        for person in meeting.people
    }
    gone = "; ".join(f"{person}: {', '.join(dict.fromkeys(it for it in its if it in slots))}" for person, its in barred.items() if set(its) & set(slots))
    if meeting.fixed:
        why = f"somebody of {people} is absent there or in a slot that overlaps it ({gone})" if gone else "no room that suits it is open"
        return f"{name} is fixed in {' or '.join(meeting.fixed)}, and {why}"
    if told.takes_room(meeting) and any(not any(told.clock.why_away(person, meeting, it) for person in meeting.people) for it in told.places_for(meeting)):
        return f"{name} has no slot: whenever {people} can come, each room that suits it is closed ({', '.join(room.name for room in told.rooms_for(meeting))})"
    return f"{name} has no slot: in each of them, or in one that overlaps it, somebody of {people} is absent ({gone})"


def check_cells(told: Timetable, places: dict[str, list[Place]], pairs: list[PairRule], soft: Iterable[tuple[str, str]]) -> None:
    """Refuses what does not fit, from a count."""
    size = {name: len(its) for name, its in places.items()}
    both = [(rule.first, rule.second) for rule in pairs]
    cells = sum(size[first] * size[second] for first, second in (*both, *soft))
    if cells > MOST_CELLS:
        raise Trouble(
            f"{len(both):,} pairs of meetings share somebody or have a rule, and together have {cells:,} pairs of slots; dcop takes up to "
            f"{MOST_CELLS:,}: use fewer slots, add lines `fixed`, or make a file for a part of the meetings"
        )


def check_limits(problem: Source, wanted: list[Limit]) -> None:
    """The same for what is counted."""
    told = [limits.cells_of(problem, limit) for limit in wanted]
    cells = sum(len(constraint.costs) for constraint in problem.constraints) + sum(cells for cells, _ in told)
    variables = len(problem.names) + sum(count for _, count in told)
    for count, most, what in ((cells, MOST_CELLS, "costs"), (variables, MOST_VARIABLES, "variables")):
        if count > most:
            raise Trouble(f"the lines `most` and the rooms need {count:,} {what}; dcop takes up to {most:,}: limit fewer people, or use fewer slots")


def own_costs(told: Timetable, meeting: Meeting, places: list[Place]) -> list[Fraction]:
    """What each place costs a meeting."""
    return [sum((cost.cost for cost in rules.wish_costs(told, meeting, place)), Fraction(0)) for place in places]


def weighed(
    told: Timetable, aim: Aim, title: str, places: dict[str, list[Place]], alone: dict[str, list[Fraction]], soft: dict[tuple[str, str], dict[str, Fraction]]
) -> Made:
    """The problem with what each meeting counts alone."""
    sums = [sum(people.values(), Fraction(0)) for people in soft.values()]
    scale = lcm(1, *(cost.denominator for its in (*alone.values(), sums) for cost in its))
    names = {name: [told.place_name(told.meetings[name], place) for place in its] for name, its in places.items()}
    late = {name: [counted_behind(aim, name, place) for place in its] for name, its in names.items()}
    behind = 1 + sum(max(its) for its in late.values())
    greatest = sum((max(its) for its in alone.values()), Fraction(0)) + sum(sums, Fraction(0))
    move = behind * (int(greatest * scale) + 1) if aim.keep else 0
    made = Made(told, aim, Source("min", list(told.meetings), [list(its) for its in names.values()], [], title, list(told.notes)), places)
    made.scale, made.behind, made.move, made.whole = scale, behind, move, aim.keep is not None or behind > 1
    for at, name in enumerate(told.meetings):
        moved = [move if aim.keep and name in aim.keep and aim.keep[name] != place else 0 for place in names[name]]
        costs = [cost * made.factor + extra + far for cost, extra, far in zip(alone[name], late[name], moved)] if made.whole else alone[name]
        if any(costs):
            made.source.constraints.append(Constraint(f"when {name} can be", (at,), costs))
    return made


def counted_behind(aim: Aim, name: str, place: str) -> int:
    """What a place counts behind the cost."""
    count = sum(other.get(name) == place for other in aim.unlike)
    return count + (aim.like is not None and name in aim.like and aim.like[name] != place)


def pair_cells(made: Made, first: str, second: str, where: list[list[bool]], cost: Cost) -> list[Cost]:
    """The cells of two meetings: this cost where it is told, and else 0."""
    cells = made.beside(second, where, cost)
    return list(chain.from_iterable([cells[row] for row in made.rows[first]]))


def add_soft(made: Made, soft: dict[tuple[str, str], dict[str, Fraction]], index: dict[str, int]) -> None:
    """Adds what it costs that two meetings are at once to which somebody need not come both."""
    for (first, second), people in soft.items():
        meets = made.told.clock.meets(made.told.meetings[first], made.told.meetings[second])
        cells = pair_cells(made, first, second, meets, sum(people.values(), Fraction(0)) * made.factor)
        name = f"{first} and {second} at once, without {', '.join(people)}"
        made.source.constraints.append(Constraint(name, (index[first], index[second]), cells))


def limits_of(told: Timetable, made: Made, index: dict[str, int]) -> Iterable[Limit]:
    """What is counted: meetings a day for somebody, and meetings at once for rooms."""
    for most in told.most:
        for day, group in rules.day_groups(told, most).items():
            rows = {name: values for name, values in group.items()}
            yield limit_of(made, index, f"{most.who} on {day}", most.count, rows)
    for crowd in made.aim.crowds:
        rows = {name: frozenset(told.clock.at(told.meetings[name], place) for place in places) for name, places in crowd.places}
        yield limit_of(made, index, crowd.name, crowd.count, rows)


def limit_of(made: Made, index: dict[str, int], name: str, count: int, rows: dict[str, frozenset[int]]) -> Limit:
    """A limit over the places that the meetings can have."""
    told, group = made.told, {}
    for meeting, counted in rows.items():
        its = made.places[meeting]
        values = frozenset(at for at, place in enumerate(its) if told.clock.at(told.meetings[meeting], place) in counted)
        if values:
            group[index[meeting]] = values
    return Limit(name, count, group)


def values_of(made: Made, chosen: Same) -> dict[str, int]:
    """The values of a timetable, where they are still there."""
    return {
        name: made.source.values[at].index(chosen[name])
        for at, name in enumerate(made.told.meetings)
        if chosen.get(name) in made.source.values[at]
    }
