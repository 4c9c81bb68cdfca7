"""FRODO's files: XCSP 2.1 with agents, and relations that are soft or say what may or must not be chosen."""

from __future__ import annotations

import re
from dataclasses import dataclass
from fractions import Fraction
from itertools import product
from math import prod
from xml.etree import ElementTree

from .evaluator import INFINITE, exact
from .problem import MOST_SCOPE, Trouble
from .source import FORBIDDEN, Constraint, Relation, Source
from .wide import check_count

_RANGE = re.compile(r"(-?\d+)\.\.(-?\d+)\Z")
_INFINITE = {"infinity": "inf", "+infinity": "inf", "-infinity": "-inf"}
_WIDEST_RANGE = 1_000_000


def read(text: str, title: str) -> Source:
    """Reads a file of FRODO. Whose variable is whose is passed over: here each variable is an agent of its own."""
    try:
        root = ElementTree.fromstring(text.strip())
    except ElementTree.ParseError as fault:
        raise Trouble(f"{title} is not XML: {fault}") from None
    if root.tag != "instance":
        raise Trouble(f"{title} begins with <{root.tag}>, but a file of FRODO (XCSP 2.1) begins with <instance>")
    return Reader(root, title).source()


def attribute(part: ElementTree.Element, name: str) -> str:
    """An attribute that has to be there."""
    told = part.get(name)
    if told is None:
        raise Trouble(f"<{part.tag}> {part.get('name', '')} has no attribute `{name}`".replace("  ", " "))
    return told.strip()


def whole(part: ElementTree.Element, name: str) -> int:
    word = attribute(part, name)
    if not re.fullmatch(r"\d{1,9}", word):
        raise Trouble(f"<{part.tag}> {part.get('name', '')}: `{name}` must be a whole number, not {word}")
    return int(word)


@dataclass
class Rows:
    """A relation: what some choices of values cost, by their words, and what all others do."""

    arity: int
    costs: dict[tuple[str, ...], Fraction | None]
    default: Fraction | None


class Reader:
    """One file that is being read."""

    def __init__(self, root: ElementTree.Element, title: str):
        self.root = root
        self.title = title
        presentation = root.find("presentation")
        greatest = presentation is not None and presentation.get("maximize", "false").strip().lower() == "true"
        self.goal = "max" if greatest else "min"
        self.names: list[str] = []
        self.values: list[list[object]] = []
        self.constraints: list[Constraint] = []
        self.relations: list[Relation] = []

    def parts(self, group: str, tag: str) -> list[ElementTree.Element]:
        return self.root.findall(f"{group}/{tag}")

    def source(self) -> Source:
        for known in ("predicates", "functions"):
            if self.root.find(known) is not None and len(self.root.findall(f"{known}/*")):
                raise Trouble(f"{self.title} has <{known}>: constraints by formulas are not read, only those by <relations>")
        domains = {attribute(it, "name"): values_of(it) for it in self.parts("domains", "domain")}
        owners = [self.variable(it, domains) for it in self.parts("variables", "variable")]
        rows = {attribute(it, "name"): self.rows(it) for it in self.parts("relations", "relation")}
        for part in self.parts("constraints", "constraint"):
            self.constraint(part, rows)
        top = self.whole_sums()
        several = len(set(owners)) < len(owners)
        notes = ["ignored: which agent has which variables; here each variable is an agent of its own"] if several else []
        return Source(self.goal, self.names, self.values, self.constraints, self.title, notes, top=top, relations=self.relations)

    def whole_sums(self) -> Fraction | None:
        """Adds what is paid at first, and gives the sum from which on all is forbidden, where there is one."""
        group = self.root.find("constraints")
        first, most = (None, None) if group is None else (group.get("initialCost"), group.get("maximalCost"))
        if first is not None and self.names and (cost := exact(first, "initialCost")):
            self.constraints.append(Constraint("initialCost", (0,), [cost] * len(self.values[0])))
        if most is not None and self.goal == "max":
            raise Trouble("<constraints> has a `maximalCost`, which is only allowed in a file that minimizes")
        return None if most is None else exact(_INFINITE.get(most, most), "maximalCost")

    def variable(self, part: ElementTree.Element, domains: dict[str, list[object]]) -> str:
        """Adds a variable, and gives whose it is."""
        name, domain = attribute(part, "name"), attribute(part, "domain")
        if part.get("type") == "random":
            raise Trouble(f"the variable {name} is random: only variables that agents choose can be solved")
        if domain not in domains:
            raise Trouble(f"the variable {name} has the domain {domain}, which the file does not declare")
        if name in self.names:
            raise Trouble(f"there are two variables with the name {name}")
        self.names.append(name)
        self.values.append(domains[domain])
        return part.get("agent", name)

    def rows(self, part: ElementTree.Element) -> Rows:
        """Reads a relation."""
        name, kind, arity = attribute(part, "name"), attribute(part, "semantics"), whole(part, "arity")
        free, never = Fraction(0), FORBIDDEN
        if kind not in ("soft", "supports", "conflicts"):
            raise Trouble(f"the relation {name} has the semantics {kind}, but it must be soft, supports or conflicts")
        cost, default = {"supports": (free, never), "conflicts": (never, free)}.get(kind, (free, free))
        if kind == "soft":
            default = self.price(part.get("defaultCost", "0"), name)
        costs: dict[tuple[str, ...], Fraction | None] = {}
        for row in filter(str.strip, (part.text or "").split("|")):
            before, colon, told = row.rpartition(":")
            if colon and kind == "soft":
                cost = self.price(before.strip(), name)
            words = tuple(told.split())
            if len(words) != arity:
                raise Trouble(f"the relation {name} is over {arity} variables, but `{row.strip()[:60]}` has {len(words)} values")
            costs[words] = cost
        return Rows(arity, costs, default)

    def price(self, word: str, name: str) -> Fraction | None:
        """A cost; None for one without bound, which forbids."""
        told = _INFINITE.get(word.strip().lower(), word)
        cost = exact(told, f"the relation {name}")
        if cost is None and (float(told) > 0) == (self.goal == "max"):
            raise Trouble(f"the relation {name}: {INFINITE[self.goal]}")
        return cost

    def constraint(self, part: ElementTree.Element, rows: dict[str, Rows]) -> None:
        name, scope, reference = attribute(part, "name"), attribute(part, "scope").split(), attribute(part, "reference")
        unknown = next((it for it in scope if it not in self.names), None)
        if unknown is not None or len(set(scope)) < len(scope):
            raise Trouble(f"the constraint {name} names {unknown}, which is not a variable" if unknown else f"the constraint {name} names a variable twice")
        if reference not in rows:
            raise Trouble(f"the constraint {name} refers to {reference}, which is not a relation of the file: other constraints, such as global ones, can't be read")
        found = rows[reference]
        if found.arity != len(scope):
            raise Trouble(f"the constraint {name} is over {len(scope)} variables, but its relation {reference} is over {found.arity}")
        places = tuple(self.names.index(it) for it in scope)
        at = [{str(value): place for place, value in enumerate(self.values[variable])} for variable in places]
        costs = {}
        for words, cost in found.costs.items():
            if all(word in known for word, known in zip(words, at)):
                costs[tuple(known[word] for word, known in zip(words, at))] = cost
        sizes = [len(known) for known in at]
        if len(places) > MOST_SCOPE:
            self.relations.append(Relation(name, places, costs, found.default))
        elif prod(sizes):
            check_count(f"the constraint {name}", sizes)
            told = [costs.get(choice, found.default) for choice in product(*map(range, sizes))]
            self.constraints.append(Constraint(name, places, told))


def values_of(part: ElementTree.Element) -> list[object]:
    """The values of a domain: numbers, words and ranges as 1..3."""
    values: list[object] = []
    for word in (part.text or "").split():
        ends = _RANGE.match(word)
        if ends and int(ends[2]) - int(ends[1]) > _WIDEST_RANGE:
            raise Trouble(f"the domain {part.get('name', '')} has the range {word}, which has too many values")
        values += range(int(ends[1]), int(ends[2]) + 1) if ends else [int(word) if re.fullmatch(r"-?\d{1,18}", word) else word]
    if not values:
        raise Trouble(f"the domain {part.get('name', '')} has no values")
    if len(set(map(str, values))) < len(values):
        raise Trouble(f"the domain {part.get('name', '')} has a value twice")
    return values
