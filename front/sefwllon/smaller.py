"""A smaller problem in place of a problem: values of a variable that stand for one another are put together.

Values that are put together cost in each table the least that one of them costs there (for a greatest sum the greatest), and tables over one
variable are added up. So whichever are put together, no sum of the problem is better than the best one of the smaller problem, and a
bound of that is one of the problem. This is all that bounds rest on, and `Merged` is all of it: the smaller problem is made from the
problem's own tables and the groups of values, and not by what chose these (`folding`). An assignment of it is lifted to one of the
problem, and what that costs is added up from the file.
"""

from __future__ import annotations

from collections.abc import Callable
from dataclasses import dataclass
from itertools import chain

from .cells import Cells
from .folding import Fold
from .problem import Problem, Table, Trouble, Variable

SMALL = 4
"""Parts of up to so many variables are solved together."""


class Merged:
    """The tables of a problem as values are put together."""

    def __init__(self, problem: Problem):
        self.best: Callable[..., int] = min if problem.goal == "min" else max
        self.sizes = [variable.size for variable in problem.variables]
        self.base = 0
        """What each assignment costs besides the tables."""
        self.own = [[0] * size for size in self.sizes]
        """What each value of a variable costs alone."""
        self.of: list[dict[Cells, None]] = [{} for _ in self.sizes]
        """The tables of each variable, over two variables or more."""
        for table in problem.tables:
            self.add(Cells(table.scope, tuple(self.sizes[variable] for variable in table.scope), table.costs))

    def add(self, table: Cells) -> None:
        """Adds a table, without those of its variables that have one value left."""
        table = table.slim()
        if min(table.costs) == max(table.costs):
            self.base += table.costs[0]
        elif len(table.scope) == 1:
            self.own[table.scope[0]] = [cost + more for cost, more in zip(self.own[table.scope[0]], table.costs)]
        else:
            for variable in table.scope:
                self.of[variable][table] = None

    def put_together(self, variable: int, groups: list[list[int]]) -> None:
        """Puts a new value of a variable in place of each of these groups of its values."""
        tables = list(self.of[variable])
        self.sizes[variable] = len(groups)
        self.own[variable] = [self.best(self.own[variable][value] for value in group) for group in groups]
        for table in tables:
            for other in table.scope:
                del self.of[other][table]
            at = table.scope.index(variable)
            rows = table.rows(at)
            self.add(table.with_rows(at, [list(map(self.best, *(rows[value] for value in group))) if len(group) > 1 else rows[group[0]] for group in groups]))
        if len(groups) == 1:
            self.base += self.own[variable][0]
            self.own[variable] = [0]

    def tables(self) -> list[Cells]:
        """What is left."""
        own = [Cells((variable,), (self.sizes[variable],), costs) for variable, costs in enumerate(self.own) if any(costs)]
        return own + list(dict.fromkeys(chain.from_iterable(self.of)))


def components(count: int, scopes: list[tuple[int, ...]]) -> list[list[int]]:
    """The variables in groups that share no table, small ones in one group; the smallest group first."""
    leader = list(range(count))

    def top(variable: int) -> int:
        while leader[variable] != variable:
            leader[variable] = leader[leader[variable]]
            variable = leader[variable]
        return variable

    for scope in scopes:
        for variable in scope[1:]:
            leader[top(variable)] = top(scope[0])
    groups: dict[int, list[int]] = {}
    for variable in range(count):
        groups.setdefault(top(variable), []).append(variable)
    small = sorted(variable for group in groups.values() if len(group) <= SMALL for variable in group)
    large = [group for group in groups.values() if len(group) > SMALL]
    return [*([small] if small else []), *sorted(large, key=len)]


@dataclass
class Part:
    """A part of the smaller problem, which shares no table with the others."""

    variables: list[int]
    """Its variables, by their places in the problem."""
    problem: Problem


class Smaller:
    """The smaller problem to which values of a problem were put together."""

    def __init__(self, problem: Problem, folds: list[Fold]):
        self.problem, self.folds = problem, folds
        merged = Merged(problem)
        for fold in folds:
            merged.put_together(fold.variable, fold.groups)
        self.base, self.sizes, tables = merged.base, merged.sizes, merged.tables()
        left = [variable for variable, size in enumerate(self.sizes) if size > 1]
        at = {variable: new for new, variable in enumerate(left)}
        parts = components(len(left), [tuple(at[it] for it in table.scope) for table in tables])
        self.parts = [self.part([left[it] for it in group], tables) for group in parts]
        self.failed: set[int] = set()
        """The variables that had to cost more than it was hoped when an assignment was lifted."""

    def part(self, group: list[int], tables: list[Cells]) -> Part:
        at = {variable: new for new, variable in enumerate(group)}
        variables = [Variable(self.problem.variables[it].name, self.sizes[it]) for it in group]
        own = [Table(tuple(at[it] for it in table.scope), tuple(table.costs)) for table in tables if table.scope[0] in at]
        return Part(group, Problem(self.problem.goal, variables, own))

    @property
    def served(self) -> bool:
        """Whether it is smaller, and its parts are problems that the programs take."""
        try:
            for part in self.parts:
                part.problem.check_limits()
        except Trouble:
            return False
        return bool(self.folds)

    def lifted(self, answers: list[list[int]]) -> list[int]:
        """The assignment of the problem to which these of the parts are lifted."""
        values = [0] * len(self.sizes)
        for part, answer in zip(self.parts, answers):
            for variable, value in zip(part.variables, answer):
                values[variable] = value
        self.failed = {fold.variable for fold in reversed(self.folds) if not fold.lift(values)}
        return values

    def lowered(self, values: list[int]) -> list[list[int]]:
        """The assignments of the parts from which one of the problem comes. They cost at most as much."""
        now = list(values)
        for fold in self.folds:
            now[fold.variable] = next(new for new, group in enumerate(fold.groups) if now[fold.variable] in group)
        return [[now[variable] for variable in part.variables] for part in self.parts]

    def sum_of(self, sums: list[int]) -> int:
        """What sums of the parts come to together."""
        return self.base + sum(sums)
