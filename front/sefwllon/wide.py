"""Constraints over more variables than a table of `dcop` has: told as sums of narrower ones, or by a variable for their choices."""

from __future__ import annotations

from dataclasses import replace
from fractions import Fraction
from itertools import product
from math import prod

from .problem import MOST_CELLS, MOST_SCOPE, MOST_VALUES, Trouble
from .source import Constraint, Relation, Source, Tupled

MOST_SPLIT = 2**18
"""How many choices of values a wide constraint may have to be tried as a sum."""

Support = tuple[int, ...]
"""Some of a constraint's variables, by their places in its scope."""


def check_count(name: str, sizes: list[int]) -> None:
    """Raises `Trouble` where a constraint has too many choices of values to go through them."""
    most = MOST_CELLS if len(sizes) <= MOST_SCOPE else MOST_SPLIT
    if prod(sizes) > most:
        raise Trouble(f"{name} is over {len(sizes)} variables, which together have {prod(sizes)} choices of values; the limit is {most}")


def narrowed(source: Source) -> Source:
    """The same problem with tables over up to four variables alone."""
    if not source.relations:
        return source
    names, values = list(source.names), list(source.values)
    result = replace(source, names=names, values=values, constraints=list(source.constraints), counters=dict(source.counters), relations=[])
    for relation in source.relations:
        parts = split(relation, [len(source.values[variable]) for variable in relation.scope])
        if parts is None:
            by_choices(relation, result)
        else:
            result.constraints += parts
    return result


def split(relation: Relation, sizes: list[int]) -> list[Constraint] | None:
    """A constraint that is a sum of narrower ones as these; None where it is none, or too large to find out.

    Each cost is the sum of what it takes for some variables to leave their first value together. Where that is nothing for more than
    four variables at once, what is left are tables over at most four."""
    count = prod(sizes)
    if count > MOST_SPLIT or None in relation.costs.values() or (relation.default is None and len(relation.costs) < count):
        return None
    shares: dict[Support, dict[tuple[int, ...], Fraction | int]] = {}
    for choice, share in zip(product(*map(range, sizes)), differences(relation, sizes)):
        if share:
            support = tuple(place for place, value in enumerate(choice) if value)
            if len(support) > MOST_SCOPE:
                return None
            shares.setdefault(support, {})[tuple(value for value in choice if value)] = share
    widest: dict[Support, list[Support]] = {}
    for support in sorted(shares, key=len, reverse=True):
        home = next((wide for wide in widest if set(support) <= set(wide)), support or (0,))
        widest.setdefault(home, []).append(support)
    return [joined(relation, wide, parts, shares, sizes) for wide, parts in widest.items()]


def differences(relation: Relation, sizes: list[int]) -> list[Fraction | int]:
    """For each choice by how much its cost is more than what follows from the choices in which some of its variables have their
    first value."""
    costs = [cost for cost in (relation.costs.get(choice, relation.default) for choice in product(*map(range, sizes))) if cost is not None]
    stride = len(costs)
    for size in sizes:
        block, stride = stride, stride // size
        for start in range(0, len(costs), block):
            first = costs[start : start + stride]
            for at in range(start + stride, start + block, stride):
                costs[at : at + stride] = [cost - base for cost, base in zip(costs[at : at + stride], first)]
    return costs


def joined(
    relation: Relation, wide: Support, parts: list[Support], shares: dict[Support, dict[tuple[int, ...], Fraction | int]], sizes: list[int]
) -> Constraint:
    """The table over some of a constraint's variables that has the shares of some of these."""
    costs: list[Fraction | int] = []
    for choice in product(*(range(sizes[place]) for place in wide)):
        value = dict(zip(wide, choice))
        costs.append(sum(shares[part].get(tuple(value[place] for place in part), 0) for part in parts))
    return Constraint(relation.name, tuple(relation.scope[place] for place in wide), costs)


def by_choices(relation: Relation, result: Source) -> None:
    """Adds a variable that says which of its choices a constraint's variables make, and tables by which it does."""
    sizes = [len(result.values[variable]) for variable in relation.scope]
    count = prod(sizes)
    told = relation.costs if relation.default is None or count > MOST_VALUES else product(*map(range, sizes))
    choices = sorted(choice for choice in told if relation.costs.get(choice, relation.default) is not None)
    if not choices:
        raise Trouble(f"{relation.name} forbids every choice of values, so there is no solution")
    if len(choices) > MOST_VALUES or (relation.default is not None and count > MOST_VALUES):
        allowed = len(choices) if relation.default is None else count
        raise Trouble(
            f"{relation.name} is over {len(sizes)} variables and allows {allowed} choices of their values; the limit is {MOST_SCOPE} variables, "
            f"or {MOST_VALUES} allowed choices, unless it is a sum of constraints over up to {MOST_SCOPE} variables"
        )
    place, name = len(result.names), f"choice of {relation.name}"
    result.names.append(name if name not in result.names else f"{name} ({place})")
    result.values.append(list(range(len(choices))))
    result.counters[place] = Tupled(relation.scope, {choice: at for at, choice in enumerate(choices)})
    result.constraints.append(Constraint(relation.name, (place,), [relation.costs.get(choice, relation.default) for choice in choices]))
    for at, (variable, size) in enumerate(zip(relation.scope, sizes)):
        costs = [0 if choice[at] == value else None for value in range(size) for choice in choices]
        result.constraints.append(Constraint(relation.name, (variable, place), costs))
