"""WCSP files, as toulbar2 reads them, both ways; and UAI files."""

from __future__ import annotations

import math
from fractions import Fraction
from itertools import product
from math import prod

from .evaluator import exact
from .problem import MOST_SCOPE, Problem, Trouble, is_number
from .source import Constraint, Relation, Source
from .wide import check_count


class Words:
    """The words of a text, handed out one by one."""

    def __init__(self, text: str, what: str):
        self.words = [(number, word) for number, line in enumerate(text.split("\n"), 1) for word in line.split()]
        self.at = 0
        self.what = what

    def next(self) -> str:
        if self.at == len(self.words):
            raise Trouble(f"the {self.what} file ends too early")
        self.at += 1
        return self.words[self.at - 1][1]

    def number(self) -> int:
        word = self.next()
        if not is_number(word):
            raise Trouble(f"line {self.words[self.at - 1][0]}: {word} is not a whole number from 0 up with 1 to 19 digits")
        return int(word)

    def real(self) -> float:
        word = self.next()
        try:
            return float(word)
        except ValueError:
            raise Trouble(f"line {self.words[self.at - 1][0]}: {word} is not a number") from None


def read_wcsp(text: str, title: str) -> Source:
    """Reads a WCSP: cost functions by tuples, with a top cost that forbids, as a cell and as a sum."""
    words = Words(text, "WCSP")
    words.next()
    count, _, functions, top = (words.number() for _ in range(4))
    sizes = [words.number() for _ in range(count)]
    constraints, relations = [], []
    constant = 0
    for number in range(1, functions + 1):
        arity = words.number()
        scope = tuple(words.number() for _ in range(arity))
        default = words.number()
        if len(set(scope)) < len(scope) or any(v >= count for v in scope):
            raise Trouble(f"function {number} names a variable that does not exist, or names a variable twice")
        told = {}
        for _ in range(words.number()):
            choice = tuple(words.number() for _ in scope)
            wrong = next((at for at, value in zip(scope, choice) if value >= sizes[at]), None)
            if wrong is not None:
                raise Trouble(f"function {number} names value {choice[scope.index(wrong)]} of variable {wrong}, which has no such value")
            told[choice] = words.number()
        costs = {choice: None if c >= top else Fraction(c) for choice, c in told.items()}
        other = None if default >= top else Fraction(default)
        if not scope:
            constant += told.get((), default)
        elif len(scope) > MOST_SCOPE:
            relations.append(Relation(f"function {number}", scope, costs, other))
        else:
            check_count(f"function {number}", [sizes[v] for v in scope])
            cells = product(*(range(sizes[v]) for v in scope))
            constraints.append(Constraint(f"function {number}", scope, [costs.get(choice, other) for choice in cells]))
    if constant and count:
        constraints.append(Constraint("constant", (0,), [Fraction(constant)] * sizes[0]))
    names, values = [f"v{i}" for i in range(count)], [list(range(s)) for s in sizes]
    return Source("min", names, values, constraints, title, top=Fraction(top), relations=relations)


def write_wcsp(problem: Problem, name: str = "problem") -> str:
    """A problem as a WCSP. A greatest sum is sought there as a least one of what each table falls short."""
    tables = []
    for table in problem.tables:
        greatest = max(table.costs)
        tables.append([greatest - c if problem.goal == "max" else c for c in table.costs])
    top = 1 + sum(max(costs) for costs in tables)
    sizes = [v.size for v in problem.variables]
    lines = [f"{name} {len(sizes)} {max(sizes)} {len(tables)} {top}", " ".join(map(str, sizes))]
    for table, costs in zip(problem.tables, tables):
        choices = list(product(*(range(sizes[v]) for v in table.scope)))
        told = [(choice, cost) for choice, cost in zip(choices, costs) if cost]
        lines.append(" ".join(map(str, (len(table.scope), *table.scope, 0, len(told)))))
        lines += [" ".join(map(str, (*choice, cost))) for choice, cost in told]
    return "\n".join(lines) + "\n"


def read_uai(text: str, title: str) -> Source:
    """Reads a UAI network: the most probable values, by the sums of minus the logarithms of all factors."""
    words = Words(text, "UAI")
    kind = words.next()
    if kind not in ("MARKOV", "BAYES"):
        raise Trouble(f"the file begins with {kind}, but it must begin with MARKOV or BAYES")
    sizes = [words.number() for _ in range(words.number())]
    scopes = [tuple(words.number() for _ in range(words.number())) for _ in range(words.number())]
    constraints, relations = [], []
    for number, scope in enumerate(scopes, 1):
        if len(set(scope)) < len(scope) or any(v >= len(sizes) for v in scope):
            raise Trouble(f"factor {number} names a variable that does not exist, or names a variable twice")
        if words.number() != prod(sizes[v] for v in scope):
            raise Trouble(f"factor {number} does not have one entry for each choice of values of its variables")
        costs: list[Fraction | None] = []
        for _ in range(prod(sizes[v] for v in scope)):
            factor = words.real()
            if factor < 0:
                raise Trouble(f"factor {number} has a negative entry")
            costs.append(exact(-math.log(factor), f"factor {number}") if factor > 0 else None)
        if len(scope) > MOST_SCOPE:
            choices = product(*(range(sizes[v]) for v in scope))
            relations.append(Relation(f"factor {number}", scope, dict(zip(choices, costs))))
        elif scope:
            constraints.append(Constraint(f"factor {number}", scope, costs))
    names, values = [f"v{i}" for i in range(len(sizes))], [list(range(s)) for s in sizes]
    return Source("min", names, values, constraints, title, relations=relations)
