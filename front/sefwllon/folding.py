"""Which values of a problem may stand for one another.

A variable has n values of which none costs more than c alone, and whatever its neighbours do, they raise the costs of fewer than n of these.
Then it never has to cost more than c, so those of its values that cost c or more are as good as one that costs c and meets nobody, and the
best sum stays what it is. Of a colouring these are the vertices with fewer neighbours than colours, which Kempe left out (American Journal
of Mathematics 2, 1879); of values that may stand for one another Freuder wrote (AAAI 1991). Where no such variable is left, one is taken of
which it is likely: then the best sum may fall, and whether it did is seen when an assignment is lifted. So the smaller problem is an
abstraction that is refined by what fails.

Nothing that is told of bounds rests on this (`smaller`).
"""

from __future__ import annotations

import time
from collections import deque
from collections.abc import Iterable
from dataclasses import dataclass
from itertools import chain, compress
from math import prod

from .cells import Cells
from .problem import Problem

MOST_WORK = 2**25
"""How many cells are looked at, at most, before values are put together no further."""
LIKELY = 2.0
"""How many values are free in the mean where it is likely that one is."""


class Hits:
    """Which values of a variable cost more than they may in a table, for each choice of the others' values, as sets of bits."""

    def __init__(self, table: Cells, at: int):
        rows = table.rows(at)
        hit = [0] * len(rows[0])
        choices = range(len(hit))
        for value, row in enumerate(rows):
            for choice in compress(choices, row):
                hit[choice] |= 1 << value
        self.choices, self.reach = set(hit), 0
        for values in self.choices:
            self.reach |= values
        self.free = [row.count(0) / len(row) for row in rows]
        """For each value in which part of the choices it is free."""

    def most(self, values: int) -> int:
        """How many of these values are hit at most at once."""
        return max((choice & values).bit_count() for choice in self.choices)


@dataclass(frozen=True, eq=False)
class Fold:
    """Values of a variable that were put together, and the tables that it had."""

    variable: int
    groups: list[list[int]]
    """For each new value the old ones for which it stands: one for each but the last."""
    own: list[int]
    """What each old value costs alone."""
    tables: list[Cells]

    def lift(self, values: list[int]) -> bool:
        """Puts an old value in place of a new one, that which costs least with the others' values. Whether it costs no more than it was
        put together for."""
        group = self.groups[values[self.variable]]
        costs = [self.cost(value, values) for value in group] if len(group) > 1 else [0]
        values[self.variable] = group[costs.index(min(costs))]
        return min(costs) <= min(self.own[value] for value in group)

    def cost(self, value: int, values: list[int]) -> int:
        values[self.variable] = value
        return self.own[value] + sum(table.cost(values) for table in self.tables)


class Folding:
    """Values of a problem that are put together, one variable after another. All costs are turned for a greatest sum, and the least cost of
    each table counts as 0."""

    def __init__(self, problem: Problem, until: float | None = None):
        self.until = until
        sign = 1 if problem.goal == "min" else -1
        self.sizes = [variable.size for variable in problem.variables]
        self.own = [[0] * size for size in self.sizes]
        self.of: list[dict[Cells, Hits]] = [{} for _ in self.sizes]
        self.folds: list[Fold] = []
        self.work = 0
        for table in problem.tables:
            if self.over:
                return
            self.add(Cells(table.scope, tuple(self.sizes[v] for v in table.scope), table.costs if sign > 0 else [-cost for cost in table.costs]))

    @property
    def over(self) -> bool:
        """Whether its time is over, or its work is done."""
        return self.work >= MOST_WORK or (self.until is not None and time.monotonic() >= self.until)

    def fork(self) -> Folding:
        """Another one that goes on from here by itself."""
        other = Folding.__new__(Folding)
        other.sizes, other.own, other.of, other.folds = list(self.sizes), list(self.own), [dict(tables) for tables in self.of], list(self.folds)
        other.until, other.work = self.until, 0
        return other

    def add(self, table: Cells) -> None:
        """Takes a table."""
        self.work += len(table.costs) * len(table.scope)
        table, least = table.slim(), min(table.costs)
        if least:
            table = Cells(table.scope, table.sizes, [cost - least for cost in table.costs])
        if len(table.scope) == 1:
            variable = table.scope[0]
            own = [cost + more for cost, more in zip(self.own[variable], table.costs)]
            self.own[variable] = [cost - min(own) for cost in own]
        elif any(table.costs):
            for at, variable in enumerate(table.scope):
                self.of[variable][table] = Hits(table, at)

    def near(self, variable: int) -> set[int]:
        """A variable and those that it shares a table with."""
        return {variable, *chain.from_iterable(table.scope for table in self.of[variable])}

    def fold_sure(self, variables: Iterable[int] | None = None) -> None:
        """Puts values together as long as it is sure that they may stand for one another: first of these variables, and then of those near
        to what changed."""
        waiting = deque(range(len(self.sizes)) if variables is None else variables)
        awaited = set(waiting)
        while waiting and not self.over:
            variable = waiting.popleft()
            awaited.discard(variable)
            cost = self.sure_cost(variable)
            if cost is not None:
                near = self.near(variable) - awaited
                self.fold(variable, cost)
                awaited |= near
                waiting.extend(sorted(near))

    def fold_likely(self, keep: set[int]) -> bool:
        """Goes on where it is likely that values may stand for one another, but for these variables; the likeliest first. Whether there
        were any."""
        any_were, likely = False, {variable: self.likely_cost(variable) for variable in range(len(self.sizes)) if variable not in keep}
        while not self.over:
            free, variable, cost = max(((free, variable, cost) for variable, (free, cost) in likely.items()), default=(0.0, 0, 0))
            if free < LIKELY:
                break
            before, near = len(self.folds), self.near(variable)
            self.fold(variable, cost)
            self.fold_sure(sorted(near))
            changed = near.union(*(self.near(fold.variable) for fold in self.folds[before:]))
            likely |= {other: self.likely_cost(other) for other in changed if other not in keep}
            any_were = True
        return any_were

    def costs(self, variable: int) -> list[int]:
        """What its values cost alone, where several cost so much or more."""
        own = sorted(self.own[variable])
        return sorted(set(own[:-1])) if own else []

    def sure_cost(self, variable: int) -> int | None:
        """The least cost c for which it is sure that some value that costs at most c alone is free."""
        own, hits = self.own[variable], list(self.of[variable].values())
        for cost in self.costs(variable):
            values = sum(1 << value for value, it in enumerate(own) if it <= cost)
            self.work += sum(len(it.choices) for it in hits)
            if values.bit_count() > most_hit(hits, values):
                return cost
        return None

    def likely_cost(self, variable: int) -> tuple[float, int]:
        """The least cost c for which it is likely, with how many values are free in the mean; without any free where there is none."""
        own, hits = self.own[variable], list(self.of[variable].values())
        self.work += len(own) * len(hits)
        free = [prod(it.free[value] for it in hits) for value in range(len(own))]
        for cost in self.costs(variable):
            count = sum(part for part, it in zip(free, own) if it <= cost)
            if count >= LIKELY:
                return count, cost
        return 0.0, 0

    def fold(self, variable: int, cost: int) -> None:
        """Puts the values of a variable together that cost so much alone, or more."""
        own, tables = self.own[variable], list(self.of[variable])
        keep = [value for value, it in enumerate(own) if it < cost]
        group = [value for value, it in enumerate(own) if it >= cost]
        self.folds.append(Fold(variable, [*([value] for value in keep), group], own, tables))
        self.own[variable], self.sizes[variable] = [*(own[value] for value in keep), cost], len(keep) + 1
        self.own[variable] = [it - min(self.own[variable]) for it in self.own[variable]]
        for table in tables:
            for other in table.scope:
                del self.of[other][table]
            at = table.scope.index(variable)
            rows = table.rows(at)
            self.add(table.with_rows(at, [*(rows[value] for value in keep), list(map(min, *(rows[value] for value in group)))]))


def most_hit(hits: list[Hits], values: int) -> int:
    """How many of these values are hit at most, whatever the others do. Each table hits at most so many at once; tables that reach few
    values hit together no more than they reach."""
    its = sorted(((it.reach & values).bit_count(), it.most(values), it.reach & values) for it in hits)
    rest = sum(most for _, most, _ in its)
    fewest, reached = rest, 0
    for _, most, reach in its:
        reached |= reach
        rest -= most
        fewest = min(fewest, reached.bit_count() + rest)
    return fewest
