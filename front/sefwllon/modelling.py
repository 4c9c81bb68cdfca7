"""Problems as a Python program builds them: variables with values of any kind, and tables from lists, dicts or functions."""

from __future__ import annotations

import math
from collections.abc import Callable, Iterable, Mapping
from decimal import Decimal
from enum import Enum
from fractions import Fraction
from itertools import product
from numbers import Rational, Real
from os import PathLike, fspath
from typing import Any, Final, Literal, TypeAlias

from .evaluator import INFINITE, exact
from .files import load, read_text
from .problem import MOST_SCOPE, Trouble, parse
from .telling import plain_number
from .source import Constraint, Relation, Source
from .translate import Translation, plain, translate
from .wide import check_count


class Forbidden(Enum):
    """The type of `FORBIDDEN`."""

    FORBIDDEN = "forbidden"

    def __repr__(self) -> str:
        return self.name


FORBIDDEN: Final = Forbidden.FORBIDDEN
"""The cost of what must not be chosen."""

Number: TypeAlias = "int | float"
"""A cost that is told: a whole number where it is one, and else the nearest float."""
Cost: TypeAlias = "int | float | Fraction | Decimal | Forbidden"
"""A cost that is given: any number, or FORBIDDEN. A float counts as it is written, so 0.1 is a tenth."""
Costs: TypeAlias = "Callable[..., Cost] | Mapping[Any, Cost] | Iterable[Any]"
"""The costs of a table: a function of the values, a dict by them, or a list, nested or flat."""
Goal: TypeAlias = Literal["min", "max"]
"""Whether the least sum of all tables is sought, or the greatest."""


class Problem:
    """Variables with values of any kind, and tables of what the choices cost.

    >>> problem = Problem({"x": [0, 1], "y": [0, 1]})
    >>> problem.table(["x", "y"], [[5, 3], [2, 7]])
    >>> problem.cost({"x": 1, "y": 0})
    2
    """

    def __init__(self, variables: Mapping[str, Iterable[object]] | None = None, goal: Goal = "min", title: str = "a Python program"):
        if goal not in ("min", "max"):
            raise Trouble(f"the goal is {goal!r}, but it must be 'min' or 'max'")
        self._source = Source(goal, [], [], [], title)
        self._places: dict[str, int] = {}
        self._told: Translation | None = None
        for name, values in (variables or {}).items():
            self.variable(name, values)

    def __repr__(self) -> str:
        return f"<Problem: {len(self._source.names)} variables, {len(self._source.constraints) + len(self._source.relations)} tables>"

    @classmethod
    def read(cls, file: str | PathLike[str]) -> Problem:
        """The problem of a file of any kind that `sefwllon solve` reads."""
        return cls._of(load(fspath(file), read_text(fspath(file))))

    @classmethod
    def parse(cls, text: str) -> Problem:
        """The problem of a text as `dcop` reads it.

        >>> Problem.parse("dcop 2\\nvar x : low high\\ntable x : 3 1\\nend\\n").variables
        {'x': ('low', 'high')}
        """
        return cls._of(plain(parse(text)))

    @classmethod
    def _of(cls, told: Translation) -> Problem:
        problem = cls()
        problem._source = source_of(told)
        problem._places = {name: place for place, name in enumerate(told.names)}
        problem._told = told
        return problem

    @property
    def goal(self) -> str:
        """min or max."""
        return self._source.goal

    @property
    def variables(self) -> dict[str, tuple[object, ...]]:
        """The values of each variable, in order."""
        source = self._source
        pairs = enumerate(zip(source.names, source.values))
        return {name: tuple(values) for place, (name, values) in pairs if place not in source.counters}

    def variable(self, name: str, values: Iterable[object]) -> str:
        """Adds a variable with these values, and gives its name.

        >>> Problem().variable("slot", ["Mon 9", "Tue 9"])
        'slot'
        """
        own = list(values)
        if not isinstance(name, str) or not name.strip():
            raise Trouble(f"the name of a variable must be a text that is not blank, not {name!r}")
        if name in self._places:
            raise Trouble(f"there are two variables {name}: give one of them another name")
        if not own:
            raise Trouble(f"{name} has no values")
        if has_twins(own):
            raise Trouble(f"{name} has a value twice: {next(value for at, value in enumerate(own) if own.index(value) < at)!r}")
        self._places[name] = len(self._source.names)
        self._source.names.append(name)
        self._source.values.append(own)
        self._told = None
        return name

    def table(self, scope: str | Iterable[str], costs: Costs, default: Cost | None = None, name: str | None = None) -> None:
        """Adds a table over some variables: what each choice of their values costs.

        The costs are a function, which is called with one value of each variable; or a dict, whose keys are tuples of values, and
        of one variable alone its values, with `default` for the choices that it leaves out; or a list, nested as deep as there
        are variables, or flat with the last variable's values moving fastest.

        >>> problem = Problem({"x": ["a", "b"], "y": [1, 2]})
        >>> problem.table(["x", "y"], lambda x, y: 0.5 * y if x == "a" else FORBIDDEN)
        >>> problem.table(["x", "y"], {("a", 1): 4}, default=0)
        >>> problem.table("x", [1, 2])
        >>> problem.cost({"x": "a", "y": 1})
        5.5
        """
        places = self._scope(scope)
        told = name or f"the table over {', '.join(self._source.names[place] for place in places)}"
        values = [self._source.values[place] for place in places]
        check_count(told, [len(own) for own in values])
        choices = list(product(*values))
        if callable(costs):
            found: list[Any] = [costs(*choice) for choice in choices]
        elif isinstance(costs, Mapping):
            found = by_choice(costs, choices, default, told)
        elif is_list(costs):
            found = flat(costs, [len(own) for own in values], told)
        else:
            raise Trouble(f"{told}: costs must be a function, a dict or a list, not {costs!r}")
        prices = [cost if type(cost) is int else self._price(cost, told, choice) for cost, choice in zip(found, choices)]
        if len(places) > MOST_SCOPE:
            chosen = product(*(range(len(own)) for own in values))
            self._source.relations.append(Relation(told, places, dict(zip(chosen, prices))))
        else:
            self._source.constraints.append(Constraint(told, places, prices))
        self._told = None

    def require(self, scope: str | Iterable[str], holds: Callable[..., object], name: str | None = None) -> None:
        """Adds what must hold: a function of one value of each variable that is true where they may be chosen together.

        >>> problem = Problem({"a": ["Mon", "Tue"], "b": ["Mon", "Tue"]})
        >>> problem.require(["a", "b"], lambda a, b: a != b)
        >>> problem.cost({"a": "Mon", "b": "Mon"})
        inf
        """

        def cost(*choice: object) -> Cost:
            return 0 if holds(*choice) else FORBIDDEN

        self.table(scope, cost, name=name)

    def cost(self, values: Mapping[str, object]) -> Number:
        """What an assignment costs, by the tables as they were given; infinite (below 0 for a greatest sum) where it is forbidden."""
        chosen = self._chosen(values)
        costs = [relation.cost(chosen) for relation in self._source.relations]
        for constraint in self._source.constraints:
            place = 0
            for variable in constraint.scope:
                place = place * len(self._source.values[variable]) + chosen[variable]
            costs.append(constraint.costs[place])
        total = Fraction(0)
        for cost in costs:
            if cost is None:
                return math.inf if self.goal == "min" else -math.inf
            total += cost
        return plain_number(total) or 0

    def text(self) -> str:
        """The problem as the text that `dcop` reads, with names and costs as it takes them."""
        return self.translation.problem.text()

    @property
    def translation(self) -> Translation:
        """The problem as the programs are given it, and the way back to its own names and costs."""
        if self._told is None:
            self._told = translate(self._source)
        return self._told

    def _scope(self, scope: str | Iterable[str]) -> tuple[int, ...]:
        names = [scope] if isinstance(scope, str) else list(scope)
        unknown = next((name for name in names if name not in self._places), None)
        if unknown is not None:
            raise Trouble(f"a table names {unknown!r}, which is not a variable: add the variable first")
        if not names or len(set(names)) < len(names):
            raise Trouble(f"a table needs one or more different variables, not {names}")
        return tuple(self._places[name] for name in names)

    def _price(self, cost: object, told: str, choice: tuple[object, ...]) -> Fraction | int | None:
        where = f"{told} at {', '.join(map(repr, choice))}"
        if cost is FORBIDDEN:
            return None
        if isinstance(cost, Rational):
            return Fraction(int(cost.numerator), int(cost.denominator))
        if isinstance(cost, Decimal) and cost.is_finite():
            return Fraction(cost)
        if not isinstance(cost, (Decimal, Real)):
            raise Trouble(f"{where}: a cost must be a number or FORBIDDEN, not {cost!r}")
        price = exact(float(cost), where)
        if price is None and (float(cost) > 0) == (self.goal == "max"):
            raise Trouble(f"{where}: {INFINITE[self.goal]}")
        return price

    def _chosen(self, values: Mapping[str, object]) -> list[int]:
        """Which value of each variable is chosen; those that count follow from those before them."""
        unknown = next((name for name in values if name not in self._places), None)
        if unknown is not None:
            raise Trouble(f"{unknown!r} is not a variable")
        chosen: list[int] = []
        for place, (name, own) in enumerate(zip(self._source.names, self._source.values)):
            if name in values and values[name] not in own:
                raise Trouble(f"{values[name]!r} is not a value of {name}")
            if name not in values and place not in self._source.counters:
                raise Trouble(f"the assignment has no value for {name}")
            counter = self._source.counters.get(place)
            chosen.append(own.index(values[name]) if name in values or counter is None else min(counter.value(chosen), len(own) - 1))
        return chosen


def has_twins(values: list[object]) -> bool:
    """Whether a value stands twice in a list."""
    try:
        return len(set(values)) < len(values)
    except TypeError:
        return any(values.index(value) < at for at, value in enumerate(values))


def source_of(told: Translation) -> Source:
    """A problem as it was given; that of a text of `dcop` has its own names and costs."""
    if told.source is not None:
        return told.source
    problem = told.problem
    names = (", ".join(problem.variables[v].name for v in table.scope) for table in problem.tables)
    constraints = [Constraint(f"the table over {name}", table.scope, table.costs) for name, table in zip(names, problem.tables)]
    return Source(problem.goal, list(told.names), told.values, constraints)


def by_choice(costs: Mapping[Any, Cost], choices: list[tuple[object, ...]], default: Cost | None, told: str) -> list[Any]:
    """The costs of a dict, for each choice of values."""
    keys: list[Any] = [choice[0] if len(choice) == 1 else choice for choice in choices]
    try:
        known = set(keys)
    except TypeError:
        raise Trouble(f"{told}: its values can't be keys of a dict: give a function or a list") from None
    strange = next((key for key in costs if key not in known), None)
    if strange is not None:
        raise Trouble(f"{told}: {strange!r} is not a choice of values such as {keys[0]!r}")
    left = next((key for key in keys if key not in costs), None)
    if left is not None and default is None:
        raise Trouble(f"{told} has no cost for {left!r}: give it one, or give the table a default")
    return [costs.get(key, default) for key in keys]


def flat(costs: Iterable[Any], sizes: list[int], told: str) -> list[Any]:
    """The costs of a list, nested or flat, with the last variable's values moving fastest."""
    found = list(costs)
    if len(found) == math.prod(sizes) and not any(map(is_list, found)):
        return found
    for depth, size in enumerate(sizes):
        if len(found) != math.prod(sizes[: depth + 1]):
            raise Trouble(f"{told} needs {' x '.join(map(str, sizes))} costs, but the list has a different number")
        if depth + 1 < len(sizes):
            if not all(map(is_list, found)) or any(len(list(part)) != sizes[depth + 1] for part in found):
                raise Trouble(f"{told} needs {' x '.join(map(str, sizes))} costs, but the list has a different number")
            found = [cost for part in found for cost in part]
    return found


def is_list(part: object) -> bool:
    return isinstance(part, Iterable) and not isinstance(part, str)
