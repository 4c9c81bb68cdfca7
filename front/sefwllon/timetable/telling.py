"""How a timetable is told: as a table, with what it costs, what it breaks, what moves, and how well that is known."""

from __future__ import annotations

from collections.abc import Callable
from fractions import Fraction
from functools import partial

from ..telling import headline
from ..translate import number
from .model import Timetable
from .session import Plan


def table(told: Timetable, chosen: dict[str, object], rooms: dict[str, str] | None = None) -> str:
    """The timetable, a line for each meeting, slot by slot."""
    names = {name: told.place_name(meeting, told.place_of(meeting, chosen[name])) for name, meeting in told.meetings.items()}
    width = max(len(slot) for slot in (*(slot.name for slot in told.slots), *names.values()))
    lines = []
    for slot in told.slots:
        for name, meeting in told.meetings.items():
            if told.slot_of(chosen, name) is slot:
                room = (rooms or {}).get(name)
                where = f" in {room}" if room else ""
                lines.append(f"{names[name]:<{width}}  {name}  ({who(told, name)}){where}")
    return "\n".join(lines) + "\n"


def who(told: Timetable, name: str) -> str:
    """Who comes to a meeting, and who need not."""
    meeting = told.meetings[name]
    must = ", ".join(meeting.people) or "nobody"
    return must if not meeting.optional else f"{must}; {', '.join(meeting.optional)} need not come"


def heads(plan: Plan, counted: str | None = None) -> list[str]:
    """What is known of a timetable: where it breaks rules in the words of who makes one, and then in exact ones. It may be known already,
    by a count, that none keeps all rules."""
    if not plan.breaches:
        return [kept(plan) if plan.made.aim.keep is not None else headline(plan.best, plan.problem)]
    broken = plan.problem.broken(plan.best.values or [])
    count, exact = len(plan.breaches), [headline(plan.best, plan.problem)] if broken else []
    by_bound = plan.none_keeps
    none = by_bound or counted
    if none is None:
        return [f"no timetable that keeps all the rules was found; this one breaks {count}", *exact]
    pairs = len(broken) == count and not plan.told.most and not plan.told.rooms
    fewest = plan.known(lambda bound: plan.problem.fewest_broken(bound) == len(broken)) if pairs else None
    told = "no timetable keeps all the rules" + ("" if none == fewest else f" ({none})") + f"; this one breaks {count}"
    return [told + (f", and none breaks fewer ({fewest})" if fewest else ""), *(exact if by_bound else [])]


def moving(plan: Plan) -> str:
    """How many meetings move."""
    count = len(plan.moved)
    return "no meeting moves" if not count else "1 meeting moves" if count == 1 else f"{count} meetings move"


Known = Callable[[Callable[["int | None"], bool]], "str | None"]
"""By what it is known that something follows from a bound, which may be empty; None if it is not known."""


def fewest(plan: Plan, bound: int | None) -> bool:
    """Whether no timetable moves fewer, by a bound of the sum."""
    return bound is not None and plan.made.moves_of(plan.problem.own_cost(bound)) >= len(plan.moved)


def least(plan: Plan, bound: int | None) -> bool:
    """Whether, besides, none that moves as few costs less."""
    return bound is not None and fewest(plan, bound) and plan.made.cost_of(plan.problem.own_cost(bound)) >= plan.cost


def kept(plan: Plan, by: Known | None = None) -> str:
    """What is known of a timetable of which as few meetings as can be are to move."""
    count, meetings, by = len(plan.moved), moving(plan), by or plan.known
    known, cheap = by(partial(fewest, plan)), by(partial(least, plan))
    cost = f"cost {number(plan.cost)}"
    if cheap is not None:
        return f"{meetings}{', and no timetable moves fewer' if count else ''}; {cost}, and none of those is better{in_brackets(cheap)}"
    if known is not None:
        return f"{meetings}{f', and no timetable moves fewer{in_brackets(known)}' if count else ''}; {cost}, and one that moves as few may cost less"
    return f"{meetings}, and one may move fewer; {cost}"


def in_brackets(word: str) -> str:
    return f" ({word})" if word else ""


def moves(plan: Plan) -> list[str]:
    """Where each meeting goes that moves."""
    keep = plan.made.aim.keep or {}
    return [f"moved: {name} from {keep[name]} to {plan.chosen[name]}" for name in plan.moved]


def details(plan: Plan) -> list[str]:
    """What a timetable breaks."""
    return [f"broken: {breach.sentence()}" for breach in plan.breaches]


def wishes(plan: Plan) -> list[str]:
    """What a timetable costs, each with its reason."""
    return [f"wish not met, {cost.sentence()}" for cost in plan.costs]


def body(plan: Plan) -> str:
    """The timetable as it stands, and the wishes that it does not meet."""
    return table(plan.told, plan.chosen, plan.rooms) + "".join(line + "\n" for line in wishes(plan))


def money(cost: Fraction) -> str:
    return number(cost)


__all__ = ["body", "details", "heads", "kept", "moves", "moving", "money", "table", "who", "wishes"]
