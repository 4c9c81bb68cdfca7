"""Tables whose variables' values are put together."""

from __future__ import annotations

from collections.abc import Sequence
from dataclasses import dataclass
from itertools import chain
from math import prod


@dataclass(frozen=True, eq=False)
class Cells:
    """A table over variables of these sizes, the last variable's value moving fastest."""

    scope: tuple[int, ...]
    sizes: tuple[int, ...]
    costs: Sequence[int]

    def step(self, at: int) -> int:
        """By how many cells the next value of this one of its variables is apart."""
        return prod(self.sizes[at + 1 :])

    def rows(self, at: int) -> list[Sequence[int]]:
        """The costs of each value of one of its variables."""
        size, step = self.sizes[at], self.step(at)
        if step == 1:
            return [self.costs[value::size] for value in range(size)]
        firsts = range(0, len(self.costs), size * step)
        if len(firsts) == 1:
            return [self.costs[value * step : (value + 1) * step] for value in range(size)]
        return [list(chain.from_iterable(self.costs[it + value * step : it + (value + 1) * step] for it in firsts)) for value in range(size)]

    def with_rows(self, at: int, rows: list[Sequence[int]]) -> Cells:
        """The same table with these rows in place of those of one of its variables."""
        step = self.step(at)
        blocks = range(0, len(rows[0]), step)
        costs = list(chain.from_iterable(row[it : it + step] for it in blocks for row in rows))
        return Cells(self.scope, (*self.sizes[:at], len(rows), *self.sizes[at + 1 :]), costs)

    def slim(self) -> Cells:
        """The same table without the variables of which one value is left."""
        kept = [at for at, size in enumerate(self.sizes) if size > 1]
        return self if len(kept) == len(self.sizes) else Cells(tuple(self.scope[at] for at in kept), tuple(self.sizes[at] for at in kept), self.costs)

    def cost(self, values: list[int]) -> int:
        """What an assignment costs in it."""
        at = 0
        for variable, size in zip(self.scope, self.sizes):
            at = at * size + values[variable]
        return self.costs[at]
