"""How an answer is told: by the exit status, in sentences, and as JSON."""

from __future__ import annotations

import json
from collections.abc import Callable
from fractions import Fraction

from .best import SMALLER, START, Best
from .programs import VERIFIED, VERIFIED_UNPROVED, Programs
from .translate import Translation, number

SOLVED, OPEN, TEXT, UNDECIDED = 0, 1, 3, 4
"""The exit statuses: solved, or yes; not solved, or no; a text that is refused, or an output; a check that is not decided."""

OWN_SEARCH = "found by a short search of sefwllon's own, as no program had come to an answer yet"


def status_of(best: Best, told: Translation) -> int:
    return SOLVED if best.solved and best.values is not None and not told.broken(best.values) else OPEN


def as_text(best: Best, told: Translation) -> str:
    """The answer for people."""
    if best.values is None or best.cost is None:
        return f"nothing found: {best.stopped or 'no method fits this problem'}\n"
    lines = [headline(best, told)]
    broken = told.broken(best.values)
    if broken:
        lines.append("broken, though it must hold: " + ", ".join(broken))
    if best.stopped:
        lines.append(f"stopped: {best.stopped}")
    lines += [f"note: {line}" for line in (*notes_of(best), *told.notes(best.values))]
    lines.append(by_line(best))
    lines += values_of(best.values, told)
    return "\n".join(lines) + "\n"


def values_of(values: list[int], told: Translation) -> list[str]:
    """The values that were chosen, a line for each variable."""
    chosen = told.told(values)
    width = max(map(len, chosen), default=0)
    return [f"  {name:<{width}}  {value}" for name, value in chosen.items()]


def by_line(best: Best) -> str:
    """The method, the time, and the messages or nodes."""
    counts = ((best.nodes, "node"), (best.messages, "message"))
    told = [f"{count:,} {what}{'' if count == 1 else 's'}" for count, what in counts if count]
    method = {START: "a short search of sefwllon's own", SMALLER: "a smaller problem"}.get(best.method, best.method)
    return ", ".join([f"by {method} in {best.seconds:.1f} s", *told])


def headline(best: Best, told: Translation) -> str:
    assert best.cost is not None and best.values is not None
    if told.broken(best.values):
        return hard_headline(best, told)
    goal = told.problem.goal
    own, rests = told.own_sum(best.values), best.rests(goal)
    gap, checked = best.gap(goal), best.checked_gap
    if gap is None:
        return f"{noun(told)} {number(own)}"
    if gap == 0:
        return f"{noun(told)} {number(own)}, and {from_best(gap, told)} ({rests})"
    besides = f"; {verified(best)}: {from_best(checked, told)}" if checked is not None and checked != gap else ""
    return f"{noun(told)} {number(own)}, {from_best(gap, told)}{percent(gap, own, told)} ({rests}{besides})"


def from_best(gap: int, told: Translation) -> str:
    """How far a sum is from the best one at most, by the difference of two sums of the problem."""
    if gap == 0 and told.slack:
        return f"none is better by more than {number(told.slack)}, to which costs are rounded"
    return "none is better" if gap == 0 else f"at most {number(Fraction(gap, told.scale) + told.slack)} from the best"


def percent(gap: int, own: Fraction, told: Translation) -> str:
    """A gap as a part of the cost, in a hundred."""
    return f", {hundredths(share(gap, own, told))} of it" if own else ""


def hundredths(part: float) -> str:
    """A part in a hundred, as it is told to people."""
    return f"{part:.0f} %" if part >= 100 else f"{part:.3g} %" if part >= 0.001 else "less than 0.001 %"


def share(gap: int, own: Fraction, told: Translation) -> float:
    return float(100 * (Fraction(gap, told.scale) + told.slack) / abs(own))


def verified(best: Best) -> str:
    """What is told of what was checked."""
    return VERIFIED_UNPROVED if best.quick else VERIFIED


def known_by(holds: Callable[[int | None], bool], best: Best, told: Translation) -> str | None:
    """What it rests on that something follows from a bound, in a word; None where it does not follow from one that is known."""
    if holds(best.checked):
        return verified(best)
    return best.rests(told.problem.goal) if holds(best.bound(told.problem.goal)) else None


def hard_headline(best: Best, told: Translation) -> str:
    """What is known where the best assignment breaks a hard constraint."""
    known = known_by(told.none_keeps, best, told)
    return f"{none_keeps_all(told)} ({known})" if known else none_was_found(told)


def none_keeps_all(told: Translation) -> str:
    """That no assignment keeps all hard constraints, which in a WCSP is to cost less than its top."""
    if told.top is None:
        return "no assignment keeps all hard constraints"
    return f"the WCSP has no solution, since no assignment costs less than its top {number(told.top)}"


def none_was_found(told: Translation) -> str:
    """That none was found, where there may be one."""
    if told.top is None:
        return "no assignment that keeps all hard constraints was found"
    return f"no solution of the WCSP was found, which is an assignment that costs less than its top {number(told.top)}"


def notes_of(best: Best) -> list[str]:
    """What else is to be known of how an answer was found."""
    return [*best.notes, *([OWN_SEARCH] if best.method == START and not best.solved else [])]


def plain_number(cost: Fraction | None) -> float | int | None:
    return None if cost is None else cost.numerator if cost.denominator == 1 else float(cost)


def as_json(best: Best, told: Translation, programs: Programs, more: dict[str, object] | None = None) -> str:
    """The answer for programs."""
    goal = told.problem.goal
    values = best.values
    broken = [] if values is None else told.broken(values)
    checked = best.checked_gap is not None and best.checked_gap == best.gap(goal)
    cost, gap = None if values is None else told.own_sum(values), best.gap(goal)
    lower, upper = told.own_bounds(best.lower, best.upper)
    if cost is not None and not broken:
        lower, upper = (lower, cost) if goal == "min" else (cost, upper)
    if broken and told.top is not None:
        cost = upper = None  # what a WCSP's top forbids is worth the top, and is no solution
    notes = [hard_headline(best, told) if broken else None, *notes_of(best), *([] if values is None else told.notes(values))]
    answer: dict[str, object] = {
        "solved": best.solved and not broken,
        "rests_on": None if values is None else best.rests(goal),
        "verified": checked,
        "verified_by": None if not checked else "a check that was compiled without proofs" if best.quick else "dcop check",
        "note": "; ".join(filter(None, notes)) or None,
        "method": best.method,
        "goal": goal,
        "cost": plain_number(cost),
        "lower": plain_number(lower),
        "upper": plain_number(upper),
        "gap_percent": None if broken or gap is None or not cost else round(share(gap, cost, told), 4),
        "messages": best.messages,
        "nodes": best.nodes,
        "time": round(best.seconds, 3),
        "stopped": best.stopped,
        "broken": broken,
        "values": None if values is None else told.told(values),
        **(more or {}),
        "bounds": bounds_of(best, told),
        "versions": programs.versions(),
    }
    return shown(answer)


def bounds_of(best: Best, told: Translation) -> list[dict[str, object]]:
    """What was known over time, in the user's own costs."""
    told_of = []
    for moment in best.moments:
        lower, upper = told.own_bounds(moment.lower, moment.upper)
        cost = None if moment.cost is None else told.own_cost(moment.cost)
        known = {"cost": plain_number(cost), "lower": plain_number(lower), "upper": plain_number(upper)}
        told_of.append({"time": round(moment.seconds, 3), "method": moment.method, **known})
    return told_of


def shown(answer: dict[str, object]) -> str:
    return json.dumps(answer, ensure_ascii=False, default=str) + "\n"


def noun(told: Translation) -> str:
    return "cost" if told.problem.goal == "min" else "sum"
