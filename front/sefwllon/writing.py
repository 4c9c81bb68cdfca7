"""Problems written for other tools: pyDCOP's YAML files, and UAI networks."""

from __future__ import annotations

import json
import math
import re
from collections.abc import Sequence
from decimal import Decimal
from fractions import Fraction
from itertools import product

from .problem import is_name
from .translate import Translation

_MOST_LOGARITHM = 600
"""How far from 1 a factor may be, as a logarithm: beyond 700 a float is 0."""

Costs = Sequence["Fraction | int | None"]


def costs_of(told: Translation) -> list[tuple[tuple[int, ...], Costs]]:
    """The tables by the user's own costs, None where a choice is forbidden."""
    if told.source is None:
        return [(table.scope, table.costs) for table in told.problem.tables]
    return [(constraint.scope, constraint.costs) for constraint in told.source.constraints]


def write_pydcop(told: Translation, name: str) -> str:
    """A problem as a file of pyDCOP. A forbidden choice has an infinite cost."""
    names, words = [v.name for v in told.problem.variables], [words_of(told, place) for place in range(len(told.names))]
    domains: dict[tuple[str, ...], str] = {}
    for own in words:
        domains.setdefault(tuple(own), f"d{len(domains)}")
    lines = own_names(told, words)
    lines += [f"name: {quoted(name)}", f"objective: {told.problem.goal}", "domains:"]
    lines += [f"  {domain}: {{values: [{', '.join(own)}]}}" for own, domain in domains.items()]
    lines += ["variables:", *(f"  {quoted(variable)}: {{domain: {domains[tuple(own)]}}}" for variable, own in zip(names, words))]
    lines.append("constraints:" if told.problem.tables else "constraints: {}")
    for at, (scope, costs) in enumerate(costs_of(told)):
        scoped = ", ".join(quoted(names[place]) for place in scope)
        lines += [f"  c{at}:", "    type: extensional", f"    variables: [{scoped}]", "    values:"]
        choices: dict[str, list[str]] = {}
        for choice, cost in zip(product(*(words[place] for place in scope)), costs):
            choices.setdefault(written(cost, told.problem.goal), []).append(" ".join(word.strip('"') for word in choice))
        lines += [f"      {cost}: {quoted(' | '.join(made))}" for cost, made in choices.items()]
    lines.append(f"agents: [{', '.join(f'a{at}' for at in range(len(names)))}]")
    return "\n".join(lines) + "\n"


def own_names(told: Translation, words: list[list[str]]) -> list[str]:
    """Comments that say what is called otherwise than by its user."""
    lines = []
    for variable, own, values, given in zip(told.problem.variables, told.names, told.values, words):
        if variable.name != own:
            lines.append(f"variable {variable.name} is {own!r}")
        lines += [f"value {word} of {variable.name} is {value!r}" for word, value in zip(given, values) if word.strip('"') != str(value)]
    return ["# " + "".join(letter if letter.isprintable() else " " for letter in line) for line in lines]


def words_of(told: Translation, place: int) -> list[str]:
    """The values of a variable as YAML: whole numbers and simple words as they are, and others by the names that `dcop` has for them."""
    own, variable = told.values[place], told.problem.variables[place]
    simple = all(type(value) is int or (isinstance(value, str) and is_name(value)) for value in own)
    if simple and len(set(map(str, own))) == len(own):
        return [str(value) if isinstance(value, int) else quoted(str(value)) for value in own]
    return [quoted(variable.value_name(value)) for value in range(variable.size)]


def quoted(word: str) -> str:
    return json.dumps(word, ensure_ascii=True)


def written(cost: Fraction | int | None, goal: str) -> str:
    """A cost as a number of YAML: exactly where it is a decimal, and else as the nearest float."""
    if cost is None:
        return ".inf" if goal == "min" else "-.inf"
    cost = Fraction(cost)
    if cost.denominator == 1:
        return str(cost.numerator)
    decimal = Decimal(cost.numerator) / Decimal(cost.denominator)
    told = format(decimal if Fraction(decimal) == cost else Decimal(repr(float(cost))), "f")
    return told if re.search(r"\.", told) else f"{told}.0"


def uai_unit(told: Translation) -> Fraction:
    """How much of cost is a factor of e: 1, or so much that no factor is too near to 0 for a float."""
    spans = []
    for _, costs in costs_of(told):
        known = [cost for cost in costs if cost is not None]
        spans.append(Fraction(max(known)) - Fraction(min(known)) if known else Fraction(0))
    return max(Fraction(1), max(spans, default=Fraction(0)) / _MOST_LOGARITHM)


def write_uai(told: Translation) -> str:
    """A problem as a UAI network whose most probable values are the best ones. A forbidden choice has the factor 0."""
    unit, sign = uai_unit(told), 1 if told.problem.goal == "min" else -1
    tables = costs_of(told)
    lines = ["MARKOV", str(len(told.names)), " ".join(str(v.size) for v in told.problem.variables), str(len(tables))]
    lines += [" ".join(map(str, (len(scope), *scope))) for scope, _ in tables]
    for _, costs in tables:
        best = min((sign * cost for cost in set(costs) if cost is not None), default=0)
        factors = {cost: "0" if cost is None else repr(math.exp(-float((sign * cost - best) / unit))) for cost in set(costs)}
        lines += ["", str(len(costs)), " ".join(factors[cost] for cost in costs)]
    return "\n".join(lines) + "\n"
