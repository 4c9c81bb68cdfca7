"""A first assignment, and a short search of the front's own for better ones (tabu search; Glover, ORSA Journal on Computing 1, 1989).
What an assignment costs is added up from the file; nothing else is claimed of it."""

from __future__ import annotations

import random
import time
from math import prod

from .problem import Problem

TABU = 5
"""For how many steps, and up to so many and half the variables more, a variable does not go back to a value that it left."""


def made(problem: Problem) -> list[int]:
    """An assignment that is made value by value: next comes a variable with the fewest values that cost least with those that have theirs,
    and takes one of these (as DSATUR does; Brélaz, Communications of the ACM 22, 1979)."""
    sign, sizes = 1 if problem.goal == "min" else -1, [variable.size for variable in problem.variables]
    rows = [[0] * size for size in sizes]
    of: list[list[int]] = [[] for _ in sizes]
    for at, table in enumerate(problem.tables):
        for variable in table.scope:
            of[variable].append(at)
    left = [len(table.scope) for table in problem.tables]
    values: list[int] = [0] * len(sizes)
    fewest = {variable: (size, -len(of[variable])) for variable, size in enumerate(sizes)}

    def count(at: int) -> None:
        """Counts what a table costs whose other variables have their values."""
        table = problem.tables[at]
        for place, variable in enumerate(table.scope):
            if variable in fewest:
                step = prod(sizes[other] for other in table.scope[place + 1 :])
                first = problem.place(table, values) - step * values[variable]
                costs = table.costs[first : first + step * sizes[variable] : step]
                rows[variable] = [cost + sign * more for cost, more in zip(rows[variable], costs)]
                fewest[variable] = (rows[variable].count(min(rows[variable])), -len(of[variable]))

    for at, open_ones in enumerate(left):
        if open_ones == 1:
            count(at)
    while fewest:
        variable = min(fewest, key=fewest.__getitem__)
        del fewest[variable]
        values[variable] = rows[variable].index(min(rows[variable]))
        for at in of[variable]:
            left[at] -= 1
            if left[at] == 1:
                count(at)
    return values


class Bettering:
    """Assignments of a problem, one after another, each by a change of one variable, and the best of them."""

    def __init__(self, problem: Problem, values: list[int]):
        self.sign = 1 if problem.goal == "min" else -1
        self.sizes = [v.size for v in problem.variables]
        self.near = [sorted(near) for near in problem.neighbours()]
        self.of: list[list[tuple[tuple[int, ...], int, list[tuple[int, int]]]]] = [[] for _ in self.sizes]
        """For each variable its tables: the costs, turned for a greatest sum, the step of its own values, and those of the others'."""
        for table in problem.tables:
            sizes = [self.sizes[v] for v in table.scope]
            steps = [(v, prod(sizes[at + 1 :])) for at, v in enumerate(table.scope)]
            costs = table.costs if self.sign > 0 else tuple(-cost for cost in table.costs)
            for at, (variable, step) in enumerate(steps):
                self.of[variable].append((costs, step, steps[:at] + steps[at + 1 :]))
        self.problem, self.draw, self.step = problem, random.Random(1), 0
        self.begin(values)

    @property
    def best_cost(self) -> int:
        return self.sign * self.least

    def begin(self, values: list[int]) -> None:
        """Begins from this assignment."""
        self.values, self.sum = list(values), self.sign * self.problem.cost(values)
        self.best, self.least = list(values), self.sum
        self.rows = [self.row(variable) for variable in range(len(self.sizes))]
        self.left: list[dict[int, int]] = [{} for _ in self.sizes]
        """For each variable up to which step it does not go back to a value."""

    def row(self, variable: int) -> list[int]:
        """What the tables of a variable cost together for each of its values, the others' kept."""
        size, rows = self.sizes[variable], []
        for costs, step, others in self.of[variable]:
            first = sum(step_of * self.values[other] for other, step_of in others)
            rows.append(costs[first : first + size * step : step])
        return [sum(costs) for costs in zip(*rows)] if rows else [0] * size

    def go(self, until: float) -> bool:
        """Goes on until this moment. Whether a better assignment was found."""
        before = self.least
        while time.monotonic() < until:
            self.step += 1
            change = self.next_change()
            if change is None:
                break
            self.change(*change)
        return self.least < before

    def descend(self, until: float | None = None) -> list[int]:
        """Betters the assignment until no change of one variable does, or until this moment."""
        while until is None or time.monotonic() < until:
            variable, value, least = -1, 0, 0
            for it, row in enumerate(self.rows):
                gain = min(row) - row[self.values[it]]
                if gain < least:
                    variable, value, least = it, row.index(min(row)), gain
            if variable < 0:
                break
            self.change(variable, value)
        return self.values

    def next_change(self) -> tuple[int, int] | None:
        """The best change of one variable, but for those that go back to a value that was left a short while ago; one that is
        the best of all is made even so."""
        found, least = None, None
        for variable, row in enumerate(self.rows):
            here, left = self.values[variable], self.left[variable]
            now = row[here]
            if len(row) == 1 or (least is not None and min(row) - now >= least):
                continue
            for value, cost in enumerate(row):
                gain = cost - now
                if (least is None or gain < least) and value != here and (left.get(value, 0) <= self.step or self.sum + gain < self.least):
                    found, least = (variable, value), gain
        return found

    def change(self, variable: int, value: int) -> None:
        row, old = self.rows[variable], self.values[variable]
        self.sum += row[value] - row[old]
        self.values[variable] = value
        self.left[variable][old] = self.step + TABU + self.draw.randrange(TABU + len(self.sizes) // 2)
        for other in self.near[variable]:
            self.rows[other] = self.row(other)
        if self.sum < self.least:
            self.best, self.least = list(self.values), self.sum
