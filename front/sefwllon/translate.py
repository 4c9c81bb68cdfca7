"""Problems made from what other tools and people write, and the way back to their own names and costs."""

from __future__ import annotations

import re
from collections.abc import Iterable, Mapping, Sequence
from contextlib import suppress
from dataclasses import dataclass, field, replace
from fractions import Fraction
from math import lcm, prod
from typing import cast

from .problem import MOST_CELLS, MOST_NAME, MOST_SCOPE, Problem, Table, Trouble, Variable, is_name
from .source import FORBIDDEN, Constraint, Cost, Counter, Source, Tupled
from .wide import narrowed

_ROUNDED = 10**6


@dataclass
class Translation:
    """A problem for `dcop`, and how its names, values and sums are told in the user's own."""

    problem: Problem
    names: list[str]
    values: list[list[object]]
    scale: int = 1
    shift: Fraction = Fraction(0)
    rounded: bool = False
    hard: dict[int, frozenset[int]] = field(default_factory=dict)
    hard_names: dict[int, str] = field(default_factory=dict)
    hard_cost: int = 0
    source: Source | None = None
    """What it was made from, with a constraint for each table."""

    def own_cost(self, total: int) -> Fraction:
        """What a sum of the problem is in the user's costs, where no hard constraint is broken."""
        if self.problem.goal == "max":
            total -= self.hard_cost * len(self.hard)
        return Fraction(total, self.scale) + self.shift

    def own_costs(self, assignment: list[int]) -> list[Fraction]:
        """What each of the user's constraints costs, as it is written, but for those that the assignment breaks."""
        assert self.source is not None
        pairs = zip(self.problem.tables, self.source.constraints)
        told = (constraint.costs[self.problem.place(table, assignment)] for table, constraint in pairs)
        return [Fraction(cost) for cost in told if cost is not None]

    def own_sum(self, assignment: list[int]) -> Fraction:
        """What an assignment costs in the user's costs; what it breaks costs nothing here."""
        if self.source is None:
            return self.own_cost(self.problem.cost(assignment))
        return sum(self.own_costs(assignment), Fraction(0))

    @property
    def top(self) -> Fraction | None:
        """The top of the WCSP that the problem was made from, if it was."""
        return None if self.source is None else self.source.top

    @property
    def slack(self) -> Fraction:
        """By how much the costs of two assignments may differ otherwise than the problem says, since costs are rounded."""
        return Fraction(len(self.problem.tables), self.scale) if self.rounded else Fraction(0)

    def notes(self, assignment: list[int]) -> list[str]:
        """What is to be known besides of an assignment."""
        if self.source is None:
            return []
        infinite = 0 if self.source.infinity is None else self.own_costs(assignment).count(self.source.infinity)
        if not infinite or self.source.infinity is None:
            return self.source.notes
        rest = self.own_sum(assignment) - infinite * self.source.infinity
        return [*self.source.notes, f"{infinite} of the constraints cost {self.source.infinity}, which the other tool counts as "
                f"violations: it prints the cost {float(rest):g} and violation {infinite}"]

    def own_bounds(self, lower: int | None, upper: int | None) -> list[Fraction | None]:
        """Bounds of the best sum in the user's costs."""
        half = self.slack / 2
        return [None if bound is None else self.own_cost(bound) + half * sign for bound, sign in ((lower, -1), (upper, 1))]

    def broken(self, assignment: list[int]) -> list[str]:
        """The hard constraints that an assignment breaks, by name, and that its sum reaches the top of a WCSP."""
        names = []
        for at, cells in self.hard.items():
            if self.problem.place(self.problem.tables[at], assignment) in cells:
                names.append(self.hard_names[at])
        if self.top is not None and self.own_sum(assignment) >= self.top:
            names.append(f"a sum below the top {number(self.top)} (it is {number(self.own_sum(assignment))})")
        return list(dict.fromkeys(names))

    def fewest_broken(self, bound: int | None) -> int:
        """How many hard constraints every assignment breaks at least, by a bound of the best sum: a lower one, or an upper
        one for a greatest sum. What is forbidden costs more than all else together, so a sum tells how many are broken."""
        if bound is None or not self.hard:
            return 0
        count = bound // self.hard_cost
        return count if self.problem.goal == "min" else max(0, len(self.hard) - count)

    def none_keeps(self, bound: int | None) -> bool:
        """Whether no assignment keeps all hard constraints, and its sum below the top of a WCSP, by a bound as above."""
        return self.fewest_broken(bound) > 0 or (bound is not None and self.top is not None and self.own_cost(bound) >= self.top)

    @property
    def counters(self) -> dict[int, Counter | Tupled]:
        """The variables that follow from others."""
        return {} if self.source is None else self.source.counters

    def counted(self, place: int, assignment: list[int]) -> int:
        """The value of a variable that follows from those before it; the greatest that it has, where it counts further."""
        return min(self.counters[place].value(assignment), len(self.values[place]) - 1)

    def told(self, assignment: list[int]) -> dict[str, object]:
        """The assignment by the user's own names and values."""
        pairs = enumerate(zip(self.names, self.values, assignment))
        return {name: values[value] for at, (name, values, value) in pairs if at not in self.counters}


def number(value: Fraction) -> str:
    """A cost as it is told to people."""
    return str(value.numerator) if value.denominator == 1 else str(float(value))


def plain(problem: Problem) -> Translation:
    """A problem that was written for `dcop`: names and sums are its own."""
    values: list[list[object]] = [[v.value_name(i) for i in range(v.size)] for v in problem.variables]
    return Translation(problem, [v.name for v in problem.variables], values)


def translate(source: Source) -> Translation:
    """Makes a problem for `dcop`: forbidden values are left out of the domains where one variable alone tells them,
    costs are scaled to whole numbers and each table is shifted so that its least cost is 0, and what is still
    forbidden gets one cost that is above all others together."""
    source = without_forbidden_values(narrowed(source))
    check_shape(source)
    kinds = [set(constraint.costs) for constraint in source.constraints]
    scale, rounded = scale_of(kinds)
    names = distinct_names(source.names)
    variables = [
        Variable(name, len(values), value_names(values)) for name, values in zip(names, source.values)
    ]
    whole, shift = whole_costs(kinds, scale)
    greatest = sum(max((c for c in told.values() if c is not None), default=0) for told in whole)
    hard = {at: forbidden(source.constraints[at].costs) for at, its in enumerate(kinds) if FORBIDDEN in its}
    hard_cost = greatest + 1 if hard else 0
    tables = []
    for at, (constraint, told) in enumerate(zip(source.constraints, whole)):
        tables.append(Table(constraint.scope, settled(constraint.costs, told, hard.get(at, []), hard_cost, source.goal)))
    problem = Problem(source.goal, variables, tables)
    result = Translation(
        problem,
        source.names,
        source.values,
        scale,
        shift,
        rounded,
        {at: frozenset(cells) for at, cells in hard.items()},
        {at: source.constraints[at].name for at in hard},
        hard_cost,
        source,
    )
    problem.comments = comments_of(source, result)
    problem.check_limits()
    return result


def forbidden(costs: Sequence[Cost]) -> list[int]:
    """Which cells are forbidden."""
    found, at = [], -1
    with suppress(ValueError):
        while True:
            at = costs.index(FORBIDDEN, at + 1)
            found.append(at)
    return found


def settled(costs: Sequence[Cost], whole: Mapping[Cost, int | None], hard: list[int], hard_cost: int, goal: str) -> tuple[int, ...]:
    """The cells of a table, by its costs as whole numbers and the cells that are forbidden. These have the hard cost; for a greatest sum
    all others have it besides."""
    extra = hard_cost if hard and goal == "max" else 0
    told = {c: hard_cost - extra if it is None else it + extra for c, it in whole.items()}
    if any(type(c) is not int or c != it for c, it in told.items() if c is not FORBIDDEN):
        return tuple(map(told.__getitem__, costs))
    cells = list(cast("Sequence[int]", costs))
    for at in hard:
        cells[at] = told[FORBIDDEN]
    return tuple(cells)


def check_shape(source: Source) -> None:
    for constraint in source.constraints:
        if len(constraint.scope) > MOST_SCOPE:
            raise Trouble(
                f"the constraint {constraint.name} names {len(constraint.scope)} variables; "
                f"dcop takes tables of up to {MOST_SCOPE}"
            )
    cells = sum(prod(len(source.values[v]) for v in c.scope) for c in source.constraints)
    if cells > MOST_CELLS:
        raise Trouble(f"all constraints together have {cells} combinations of values; dcop takes up to {MOST_CELLS}")


def without_forbidden_values(source: Source) -> Source:
    """The same problem without the values that a constraint of one variable forbids."""
    if not any(len(constraint.scope) == 1 and FORBIDDEN in constraint.costs for constraint in source.constraints):
        return source
    kept = [list(range(len(values))) for values in source.values]
    for constraint in source.constraints:
        if len(constraint.scope) == 1:
            (variable,) = constraint.scope
            kept[variable] = [v for v in kept[variable] if constraint.costs[v] is not FORBIDDEN]
            if not kept[variable]:
                name = source.names[variable]
                raise Trouble(f"every value of {name} is forbidden, the last by {constraint.name}, so there is no solution")
    constraints = []
    for constraint in source.constraints:
        places = [0]
        for v in constraint.scope:
            size = len(source.values[v])
            places = [place * size + value for place in places for value in kept[v]]
        costs = constraint.costs if len(places) == len(constraint.costs) else [constraint.costs[place] for place in places]
        constraints.append(Constraint(constraint.name, constraint.scope, costs))
    values = [[values[v] for v in keep] for values, keep in zip(source.values, kept)]
    return replace(source, values=values, constraints=constraints)


def scale_of(kinds: Iterable[Iterable[Cost]]) -> tuple[int, bool]:
    """By what the costs are multiplied to be whole numbers, and whether they are rounded then."""
    scale = 1
    for its in kinds:
        for cost in its:
            if cost is not None:
                scale = lcm(scale, cost.denominator)
                if scale > 10**9:
                    return _ROUNDED, True
    return scale, False


def whole_costs(kinds: Iterable[Iterable[Cost]], scale: int) -> tuple[list[dict[Cost, int | None]], Fraction]:
    """What each cost of each constraint is as a whole number from 0 up, and what they were shifted by, unscaled."""
    whole = []
    shift = Fraction(0)
    for its in kinds:
        scaled = {c: None if c is None else round(c * scale) for c in its}
        least = min((c for c in scaled.values() if c is not None), default=0)
        shift += Fraction(least, scale)
        whole.append({c: None if told is None else told - least for c, told in scaled.items()})
    return whole, shift


def mangled(word: str) -> str:
    """A name that `dcop` takes, near to the word."""
    name = re.sub(r"[^A-Za-z0-9_.-]", "_", word)
    if not name or not (name[0].isascii() and (name[0].isalpha() or name[0] == "_")):
        name = "v" + name
    return name[:MOST_NAME]


def distinct_names(words: list[str]) -> list[str]:
    """Names that `dcop` takes, one for each word, all different."""
    taken: set[str] = set()
    names = []
    for word in words:
        name = word if is_name(word) else mangled(word)
        count = 1
        while name in taken:
            count += 1
            suffix = f"_{count}"
            name = mangled(word)[: MOST_NAME - len(suffix)] + suffix
        taken.add(name)
        names.append(name)
    return names


def value_names(values: list[object]) -> tuple[str, ...] | None:
    """Names of values, or none where the values are just 0, 1, 2 and so on."""
    if values == list(range(len(values))):
        return None
    return tuple(distinct_names([str(v) for v in values]))


def comments_of(source: Source, result: Translation) -> list[str]:
    """Lines that say where the problem is from, and the way back."""
    lines = [f"made from {source.title}"]
    problem = result.problem
    for own, variable in zip(source.names, problem.variables):
        if own != variable.name:
            lines.append(f"variable {variable.name} is {own!r}")
    for variable, values in zip(problem.variables, source.values):
        for i, value in enumerate(values):
            if variable.values and variable.values[i] != str(value):
                lines.append(f"value {variable.values[i]} of {variable.name} is {value!r}")
    hard = f" - {result.hard_cost * len(result.hard)}" if result.hard and source.goal == "max" else ""
    if result.scale != 1 or result.shift or hard:
        lines.append(f"own cost = (sum{hard}) / {result.scale} + {result.shift}")
    if result.rounded:
        lines.append(f"costs are rounded to the next 1/{result.scale}")
    if result.hard:
        what = "costs" if source.goal == "min" else "misses"
        lines.append(f"what is forbidden {what} {result.hard_cost}, more than all else together")
    if source.top is not None:
        lines.append(f"a solution's own cost is below the top {number(source.top)}")
    return [line.replace("\n", " ") for line in lines]
