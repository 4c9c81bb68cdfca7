"""Problems as their users wrote them, whatever file or program they are from."""

from __future__ import annotations

from collections.abc import Sequence
from dataclasses import dataclass, field
from fractions import Fraction

Cost = Fraction | int | None
"""The cost of a combination of values, or FORBIDDEN."""
FORBIDDEN = None
"""The cost of a combination of values that must not be chosen."""


@dataclass
class Constraint:
    """A constraint over some variables: a cost for each choice of their values, or FORBIDDEN."""

    name: str
    scope: tuple[int, ...]
    costs: Sequence[Cost]


@dataclass(frozen=True)
class Counter:
    """A variable that counts, and follows from others: by one more than another counter where a variable has one of some values."""

    before: int | None
    counted: int
    values: frozenset[int]

    def value(self, assignment: list[int]) -> int:
        """What it counts, where the variables before it have these values."""
        so_far = 0 if self.before is None else assignment[self.before]
        return so_far + (assignment[self.counted] in self.values)


@dataclass(frozen=True)
class Tupled:
    """A variable that says which of some choices others make, and follows from them."""

    scope: tuple[int, ...]
    places: dict[tuple[int, ...], int]

    def value(self, assignment: list[int]) -> int:
        """Which choice it is; the first one where it is none of them."""
        return self.places.get(tuple(assignment[variable] for variable in self.scope), 0)


@dataclass
class Relation:
    """A constraint over many variables: a cost for some choices of their values, and one for all others."""

    name: str
    scope: tuple[int, ...]
    costs: dict[tuple[int, ...], Fraction | int | None]
    default: Fraction | int | None = FORBIDDEN

    def cost(self, assignment: list[int]) -> Fraction | int | None:
        """What it costs where the variables have these values."""
        return self.costs.get(tuple(assignment[variable] for variable in self.scope), self.default)


@dataclass
class Source:
    """A problem as its user wrote it: names and values of any kind, costs of any size and sign."""

    goal: str
    names: list[str]
    values: list[list[object]]
    constraints: list[Constraint]
    title: str = "a problem"
    notes: list[str] = field(default_factory=list)
    """What the user is told besides."""
    infinity: Fraction | None = None
    """A cost that the tool that the file is of counts as a violation, and leaves out of what it prints as the cost."""
    top: Fraction | None = None
    """The top of a WCSP, where it is one: only what costs less in all is a solution."""
    counters: dict[int, Counter | Tupled] = field(default_factory=dict)
    """The variables that follow from those before them, and are no choice."""
    relations: list[Relation] = field(default_factory=list)
    """The constraints over more variables than a table of `dcop` has."""
