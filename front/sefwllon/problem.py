"""Problems: variables with finite domains, and cost tables over them, as the text of `dcop` has them."""

from __future__ import annotations

import re
from dataclasses import dataclass, field
from itertools import product
from math import prod

MOST_VARIABLES = 1_000
MOST_VALUES = 1_024
MOST_SCOPE = 4
MOST_COST = 2**50
MOST_CELLS = 2**22
MOST_SUM = 2**62
MOST_BYTES = 2**28
MOST_NAME = 32
MOST_DIGITS = 19

_NAME = re.compile(r"[A-Za-z_][A-Za-z0-9_.-]{0,31}\Z")
_NUMBER = re.compile(rf"[0-9]{{1,{MOST_DIGITS}}}\Z")


class Trouble(Exception):
    """Something that the user is told in a sentence."""


@dataclass(frozen=True)
class Variable:
    """A variable: its name, how many values it has, and their names, where they have any."""

    name: str
    size: int
    values: tuple[str, ...] | None = None

    def value_name(self, value: int) -> str:
        return self.values[value] if self.values else str(value)

    def value_of(self, word: str) -> int | None:
        if self.values:
            return self.values.index(word) if word in self.values else None
        return int(word) if _NUMBER.match(word) and int(word) < self.size else None


@dataclass(frozen=True)
class Table:
    """Costs over one to four variables, the last variable's value moving fastest."""

    scope: tuple[int, ...]
    costs: tuple[int, ...]


@dataclass
class Problem:
    """A problem, and the comments that stand before it."""

    goal: str
    variables: list[Variable]
    tables: list[Table]
    comments: list[str] = field(default_factory=list)
    source: str | None = None
    """The text that it was read from, up to its line `end`."""

    def place(self, table: Table, assignment: list[int]) -> int:
        """Which cell of a table an assignment picks."""
        place = 0
        for variable in table.scope:
            place = place * self.variables[variable].size + assignment[variable]
        return place

    def cell(self, table: Table, assignment: list[int]) -> int:
        """The cost of a table at an assignment."""
        return table.costs[self.place(table, assignment)]

    def cost(self, assignment: list[int]) -> int:
        """The sum of all tables at an assignment."""
        sizes, total = [variable.size for variable in self.variables], 0
        for table in self.tables:
            place = 0
            for variable in table.scope:
                place = place * sizes[variable] + assignment[variable]
            total += table.costs[place]
        return total

    def neighbours(self) -> list[set[int]]:
        """For each variable those that it shares a table with."""
        near: list[set[int]] = [set() for _ in self.variables]
        for table in self.tables:
            for a, b in product(table.scope, repeat=2):
                if a != b:
                    near[a].add(b)
        return near

    def reordered(self, names: list[str]) -> Problem:
        """The same problem with its variables in this order."""
        at = {v.name: place for place, v in enumerate(self.variables)}
        to = {at[name]: place for place, name in enumerate(names)}
        tables = [Table(tuple(to[v] for v in table.scope), table.costs) for table in self.tables]
        return Problem(self.goal, [self.variables[at[name]] for name in names], tables, list(self.comments))

    def text(self) -> str:
        """The problem as text, which `dcop` reads: the one that it was read from, so that it is told by its own lines."""
        if self.source is not None:
            return self.source
        lines = [f"# {line}".rstrip() for line in self.comments]
        lines.append("dcop 2")
        if self.goal == "max":
            lines.append("goal max")
        for variable in self.variables:
            domain = f": {' '.join(variable.values)}" if variable.values else str(variable.size)
            lines.append(f"var {variable.name} {domain}")
        for table in self.tables:
            scope = " ".join(self.variables[v].name for v in table.scope)
            words = {cost: str(cost) for cost in set(table.costs)}
            lines.append(f"table {scope} : {' '.join(map(words.__getitem__, table.costs))}")
        lines.append("end")
        return "\n".join(lines) + "\n"

    def check_limits(self) -> None:
        """Raises `Trouble` where the problem is larger than `dcop` takes."""
        if not self.variables:
            raise Trouble("the problem has no variable")
        if len(self.variables) > MOST_VARIABLES:
            raise Trouble(f"the problem has {len(self.variables)} variables; dcop takes up to {MOST_VARIABLES}")
        for variable in self.variables:
            if not 1 <= variable.size <= MOST_VALUES:
                raise Trouble(f"{variable.name} has {variable.size} values; dcop takes 1 to {MOST_VALUES}")
        greatest = []
        for table in self.tables:
            if not 1 <= len(table.scope) <= MOST_SCOPE:
                names = ", ".join(self.variables[v].name for v in table.scope)
                raise Trouble(
                    f"a constraint names {len(table.scope)} variables ({names}); dcop takes up to {MOST_SCOPE}"
                )
            greatest.append(max(table.costs))
            if greatest[-1] > MOST_COST:
                raise Trouble(f"a cost is {greatest[-1]}; dcop takes costs up to 2^50 = {MOST_COST}")
        cells = sum(len(table.costs) for table in self.tables)
        if cells > MOST_CELLS:
            raise Trouble(f"all tables together have {cells} costs; dcop takes up to {MOST_CELLS}")
        if sum(greatest) > MOST_SUM:
            raise Trouble("the sum of the greatest costs of all tables is above 2^62, the most that dcop takes")


class TextFault(Trouble):
    """What is wrong with a problem's text, by line."""

    def __init__(self, line: int, why: str):
        super().__init__(f"line {line}: {why}")
        self.line = line
        self.why = why


def is_name(word: str) -> bool:
    return bool(_NAME.match(word))


def is_number(word: str) -> bool:
    return bool(_NUMBER.match(word))


def no_number(words: list[str]) -> str | None:
    """The first of these words that is no number, if there is one."""
    digits = "".join(words)
    if digits.isascii() and digits.isdigit() and max(map(len, words)) <= MOST_DIGITS:
        return None
    return next((word for word in words if not _NUMBER.match(word)), None)


def lines_of(text: str) -> list[tuple[int, list[str], str]]:
    """The lines that have words, each with its number, its words, and itself."""
    found = []
    for number, line in enumerate(text.split("\n"), 1):
        bare = line[:-1] if line.endswith("\r") else line
        words = bare.split("#", 1)[0].replace("\t", " ").split(" ")
        if "" in words:
            words = [word for word in words if word]
        if words:
            found.append((number, words, line))
    return found


def parse(text: str) -> Problem:
    """Reads a problem's text. `dcop` itself decides what is one; this reader is for drawing and telling."""
    lines = lines_of(text)
    if not lines or lines[0][1] not in (["dcop", "1"], ["dcop", "2"]):
        raise TextFault(lines[0][0] if lines else 1, "the first line must be `dcop 1` or `dcop 2`")
    problem = Problem("min", [], [])
    places: dict[str, int] = {}
    sizes: list[int] = []
    for at, (number, words, _) in enumerate(lines[1:], 2):
        match words:
            case ["table", *rest] if ":" in rest:
                colon = rest.index(":")
                try:
                    scope = tuple(places[name] for name in rest[:colon])
                except KeyError as fault:
                    raise TextFault(number, f"the table names {fault}, which is not a variable") from None
                cells = rest[colon + 1 :]
                bad = no_number(cells)
                if bad is not None:
                    raise TextFault(number, f"{bad} is not a number")
                costs = tuple(map(int, cells))
                wanted = prod(map(sizes.__getitem__, scope))
                if len(costs) != wanted:
                    raise TextFault(number, f"the table has {len(costs)} costs, but it needs {wanted}")
                problem.tables.append(Table(scope, costs))
            case ["goal", ("min" | "max") as goal]:
                problem.goal = goal
            case ["var", name, ":", *values] if values:
                places[name] = len(problem.variables)
                problem.variables.append(Variable(name, len(values), tuple(values)))
                sizes.append(len(values))
            case ["var", name, size] if is_number(size):
                places[name] = len(problem.variables)
                problem.variables.append(Variable(name, int(size)))
                sizes.append(int(size))
            case ["end"] if at == len(lines):
                problem.source = "\n".join(text.split("\n")[:number]) + "\n"
                return problem
            case ["end"]:
                raise TextFault(lines[at][0], "words follow after the line `end`")
            case _:
                raise TextFault(number, "a line must begin with `goal`, `var`, `table` or `end`")
    raise TextFault(text.count("\n") + 1, "the line `end` is missing")
