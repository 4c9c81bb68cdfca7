"""Slices of a problem: some variables have one value there, and all others have theirs."""

from __future__ import annotations

from collections.abc import Mapping
from dataclasses import dataclass

from ..problem import MOST_COST, Problem, Table, Variable


@dataclass(frozen=True)
class Slice:
    """A part of all assignments: those in which some variables have these values."""

    fixed: Mapping[int, int]
    bound: int
    """What no assignment of it is better than."""
    budget: int
    """How many nodes a search of it may visit."""
    tries: int = 0
    """How often a search of it has failed."""


def restricted(problem: Problem, fixed: Mapping[int, int]) -> Problem:
    """The problem of a slice: a fixed variable has one value, tables name the others alone, and what is left of a table that names
    no other is a constant on a fixed variable. So an assignment of the slice costs there what it costs in the problem."""
    variables = [variable if at not in fixed else held(variable, fixed[at]) for at, variable in enumerate(problem.variables)]
    tables, constant = [], 0
    for table in problem.tables:
        scope = tuple(variable for variable in table.scope if variable not in fixed)
        if len(scope) == len(table.scope):
            tables.append(table)
        elif scope:
            tables.append(Table(scope, cells_left(problem, table, fixed)))
        else:
            constant += cells_left(problem, table, fixed)[0]
    while constant:
        share = min(constant, MOST_COST)
        tables.append(Table((min(fixed),), (share,)))
        constant -= share
    return Problem(problem.goal, variables, tables)


def held(variable: Variable, value: int) -> Variable:
    """A variable with one of its values alone."""
    return Variable(variable.name, 1, (variable.values[value],) if variable.values else None)


def cells_left(problem: Problem, table: Table, fixed: Mapping[int, int]) -> tuple[int, ...]:
    """The cells of a table at these values."""
    places = [0]
    for variable in table.scope:
        size = problem.variables[variable].size
        values = (fixed[variable],) if variable in fixed else range(size)
        places = [place * size + value for place in places for value in values]
    return tuple([table.costs[place] for place in places])


def next_variable(problem: Problem, near: list[set[int]], fixed: Mapping[int, int]) -> int | None:
    """The variable that is fixed next: the one that shares tables with the most others that are not fixed; None if there is none."""
    free = [at for at, variable in enumerate(problem.variables) if at not in fixed and variable.size > 1]
    return max(free, key=lambda at: (len(near[at] - fixed.keys()), -at), default=None)


def parts(problem: Problem, near: list[set[int]], whole: Slice, bound: int, budget: int) -> list[Slice]:
    """The slices that make up a slice, one for each value of a further variable; none if no variable is left."""
    variable = next_variable(problem, near, whole.fixed)
    if variable is None:
        return []
    return [Slice({**whole.fixed, variable: value}, bound, budget) for value in range(problem.variables[variable].size)]
