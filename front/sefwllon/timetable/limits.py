"""At most so many of some meetings in some of their places: a rule that no small table tells.

Where the meetings are few it is told exactly by tables over each so many and one of them, and else by a chain of counting variables: the
first counts the first meeting, each next one the meetings so far, and what it may be is told by a table of three variables, the count so far,
the next meeting and the new count. A count above the limit has no value, so it is forbidden. A counting variable follows from the
meetings: it never costs anything, and for each timetable that keeps the limit there is exactly one way to count.
"""

from __future__ import annotations

from dataclasses import dataclass
from itertools import combinations, product
from math import comb

from ..translate import Constraint, Counter, Source

MOST_TABLE_CELLS = 2**18
"""How many cells the tables of one limit may have; with more a chain is made."""


@dataclass(frozen=True)
class Limit:
    """At most `count` of these variables have one of these values."""

    name: str
    count: int
    group: dict[int, frozenset[int]]
    """For each variable the indices of the values that count."""


def cells_of(source: Source, limit: Limit) -> tuple[int, int]:
    """How many cells and how many new variables a limit takes."""
    variables = list(limit.group)
    if len(variables) <= limit.count:
        return 0, 0
    sizes = [len(source.values[v]) for v in variables]
    if limit.count <= 3:
        cells = table_cells(sizes, limit.count + 1)
        if cells <= MOST_TABLE_CELLS:
            return cells, 0
    counts = [min(place + 1, limit.count) + 1 for place in range(len(variables) - 1)]
    cells = sizes[0] * counts[0] + sum(counts[i - 1] * sizes[i] * counts[i] for i in range(1, len(counts))) + counts[-1] * sizes[-1]
    return cells, len(counts)


def table_cells(sizes: list[int], together: int) -> int:
    """How many cells the tables over each so many variables have."""
    if comb(len(sizes), together) > MOST_TABLE_CELLS:
        return MOST_TABLE_CELLS + 1
    sums = [1] + [0] * together
    for size in sizes:
        for place in range(together, 0, -1):
            sums[place] += sums[place - 1] * size
    return sums[together]


def add(source: Source, limit: Limit) -> None:
    """Adds a limit to a problem."""
    if len(limit.group) <= limit.count:
        return
    if cells_of(source, limit)[1] == 0:
        add_tables(source, limit)
    else:
        add_chain(source, limit)


def add_tables(source: Source, limit: Limit) -> None:
    for scope in combinations(limit.group, limit.count + 1):
        choices = product(*([value in limit.group[v] for value in range(len(source.values[v]))] for v in scope))
        source.constraints.append(Constraint(limit.name, scope, [None if all(choice) else 0 for choice in choices]))


def add_chain(source: Source, limit: Limit) -> None:
    variables = list(limit.group)
    before: int | None = None
    for place, variable in enumerate(variables[:-1]):
        counts = min(place + 1, limit.count) + 1
        counter = len(source.names)
        source.names.append(f"{limit.name}, {place + 1}")
        source.values.append(list(range(counts)))
        source.counters[counter] = Counter(before, variable, limit.group[variable])
        scope = (variable, counter) if before is None else (before, variable, counter)
        known = range(1) if before is None else range(len(source.values[before]))
        costs = [
            0 if so_far + (value in limit.group[variable]) == count else None
            for so_far in known
            for value in range(len(source.values[variable]))
            for count in range(counts)
        ]
        source.constraints.append(Constraint(limit.name, scope, costs))
        before = counter
    assert before is not None
    last = variables[-1]
    full = [
        None if so_far + (value in limit.group[last]) > limit.count else 0
        for so_far in range(len(source.values[before]))
        for value in range(len(source.values[last]))
    ]
    source.constraints.append(Constraint(limit.name, (before, last), full))


def add_other(source: Source, name: str, values: dict[int, int]) -> None:
    """Adds that not all of these variables have these values, by a chain of variables that tell whether one so far has another."""
    before: int | None = None
    *firsts, (last, wanted) = values.items()
    for place, (variable, value) in enumerate(firsts):
        size = len(source.values[variable])
        counter = len(source.names)
        source.names.append(f"{name}, {place + 1}")
        source.values.append([0, 1])
        source.counters[counter] = Counter(before, variable, frozenset(range(size)) - {value})
        scope = (variable, counter) if before is None else (before, variable, counter)
        known = (0,) if before is None else (0, 1)
        costs = [0 if max(so_far, it != value) == told else None for so_far in known for it in range(size) for told in (0, 1)]
        source.constraints.append(Constraint(name, scope, costs))
        before = counter
    same = [None if it == wanted else 0 for it in range(len(source.values[last]))]
    if before is None:  # a value that is forbidden alone would be left out, and there may be no other
        before = len(source.names)
        source.names.append(f"{name}, 0")
        source.values.append([0])
        source.counters[before] = Counter(None, last, frozenset())
        source.constraints.append(Constraint(name, (before, last), same))
    else:
        source.constraints.append(Constraint(name, (before, last), [*same, *([0] * len(same))]))
