"""pyDCOP's YAML files: variables, domains, constraints by formulas and by tables."""

from __future__ import annotations

import re
import shlex
from fractions import Fraction
from itertools import product
from math import prod

from .evaluator import INFINITE, Formula, Switch, exact
from .problem import MOST_SCOPE, Trouble
from .source import Constraint, Relation, Source
from .wide import check_count

_RANGE = re.compile(r"\s*(-?\d+)\s*\.\.\s*(-?\d+)\s*\Z")


_READ = ("name", "description", "objective", "domains", "variables", "external_variables", "constraints")
"""The parts of a file that say what the problem is, and its name."""
_READ_OF_VARIABLES = ("domain", "cost_function", "noise_level")
_READ_OF_CONSTRAINTS = ("type", "function", "variables", "values", "default", "description")


def read(text: str, title: str) -> Source:
    """Reads a pyDCOP file. What it says else, as of agents, routes and distribution, is passed over, and a note names it."""
    try:
        import yaml
    except ImportError:
        raise Trouble(
            "pyDCOP files are YAML, and Python's `yaml` is missing: install python3-yaml (Debian) or PyYAML (pip)"
        ) from None
    class Loader(yaml.SafeLoader):  # type: ignore[misc]
        """Reads `on`, `off`, `yes` and `no` as they are written."""

        def construct_yaml_bool(self, node: yaml.ScalarNode) -> object:
            value = super().construct_yaml_bool(node)
            return value if str(node.value).lower() in ("true", "false") else Switch(str(node.value))

    Loader.add_constructor("tag:yaml.org,2002:bool", Loader.construct_yaml_bool)
    try:
        data = yaml.load(text, Loader)
    except yaml.YAMLError as fault:
        raise Trouble(f"{title} is not YAML: {fault}") from None
    if not isinstance(data, dict) or "variables" not in data:
        raise Trouble(f"{title} has no `variables`, so it is not a pyDCOP file")
    return Reader(data, title).source()


INFINITY = Fraction(10_000)
"""A cost that pyDCOP counts as a violation, and not as a cost, where its option `--infinity` is not given."""


def named(spec: object, what: str) -> dict[str, object]:
    """A part of the file that has names, each with something behind it."""
    if spec is None:
        return {}
    if not isinstance(spec, dict):
        raise Trouble(f"{what}: lines `NAME: ..` were expected, not `{spec!r:.120}`")
    return {str(name): told for name, told in spec.items()}


class Reader:
    """One file that is being read."""

    def __init__(self, data: dict, title: str):
        self.data = data
        self.title = title
        self.goal = str(data.get("objective", "min"))
        if self.goal not in ("min", "max"):
            raise Trouble(f"{title}: the objective is {self.goal}, but it must be min or max")
        self.domains = {name: values_of(spec) for name, spec in named(data.get("domains"), "domains").items()}
        self.variables = {name: named(spec, name) for name, spec in named(data["variables"], "variables").items()}
        outside = named(data.get("external_variables"), "external_variables")
        self.outside = {name: named(spec, name).get("initial_value") for name, spec in outside.items()}
        self.names: list[str] = []
        self.values: list[list[object]] = []
        self.constraints: list[Constraint] = []
        self.relations: list[Relation] = []
        self.untold: list[str] = []
        """The constraints that neither tell each of their costs nor have a default."""

    def source(self) -> Source:
        for name, spec in self.variables.items():
            domain = str(spec.get("domain"))
            if domain not in self.domains:
                raise Trouble(f"{self.title}: the variable {name} has the domain {domain}, which the file does not declare")
            self.names.append(name)
            self.values.append(self.domains[domain])
        for name, spec in self.variables.items():
            if "cost_function" in spec:
                self.by_formula(f"cost of {name}", str(spec["cost_function"]))
        for name, spec in named(self.data.get("constraints"), "constraints").items():
            self.constraint(name, named(spec, name))
        return Source(self.goal, self.names, self.values, self.constraints, self.title, self.notes(), INFINITY, relations=self.relations)

    def notes(self) -> list[str]:
        noisy = [name for name, spec in self.variables.items() if spec.get("noise_level")]
        notes = []
        if self.passed_over():
            notes.append(f"ignored: {', '.join(self.passed_over())}")
        if noisy:
            notes.append(f"the noise of {', '.join(noisy)} is ignored: pyDCOP draws it anew for each run, and adds it to the cost")
        if self.untold:
            notes.append(f"{', '.join(self.untold)}: there is no `default`; choices of values without a cost count as 0 here")
        return notes

    def passed_over(self) -> list[str]:
        """What the file says besides, which has no part in what the problem is. Agents that have nothing but names say nothing."""
        told = [str(part) for part in self.data if str(part) not in _READ and not (part == "agents" and isinstance(self.data[part], list))]
        parts = ((self.variables, _READ_OF_VARIABLES), (named(self.data.get("constraints"), "constraints"), _READ_OF_CONSTRAINTS))
        for specs, known in parts:
            others: dict[str, list[str]] = {}
            for name, spec in specs.items():
                for word in named(spec, name):
                    if word not in known:
                        others.setdefault(word, []).append(name)
            told += [f"{word} of {', '.join(names[:3])}{f' and {len(names) - 3} others' if len(names) > 3 else ''}" for word, names in others.items()]
        return told

    def price(self, number: object, name: str) -> Fraction | None:
        """A cost; None for one without bound, which forbids."""
        cost = exact(number, name)
        if cost is None and (float(str(number)) > 0) == (self.goal == "max"):
            raise Trouble(f"{name}: {INFINITE[self.goal]}")
        return cost

    def constraint(self, name: str, spec: dict) -> None:
        kind = str(spec.get("type", "intention"))
        if kind in ("intention", "intentional"):
            if "source" in spec:
                raise Trouble(f"{name}: its formula is in the file {spec['source']}, which is not run: write the formula under `function`")
            if "function" not in spec:
                raise Trouble(f"{name} has no `function`")
            self.by_formula(name, str(spec["function"]))
        elif kind in ("extensional", "extension"):
            self.by_table(name, spec)
        else:
            raise Trouble(f"{name} has the type {kind}, but it must be intention or extensional")

    def by_formula(self, name: str, text: str) -> None:
        """A formula; one over many variables that is a sum is told part by part."""
        formula = Formula(text, name)
        wide = len([n for n in formula.names() if n not in self.outside]) > MOST_SCOPE
        for part in formula.terms() if wide else [formula]:
            self.by_part(name, part)

    def by_part(self, name: str, formula: Formula) -> None:
        given = {n: self.outside[n] for n in formula.names() if n in self.outside}
        scope = self.scope(name, [n for n in formula.names() if n not in self.outside])
        check_count(name, [len(self.values[v]) for v in scope])
        costs = []
        for choice in product(*(self.values[v] for v in scope)):
            names = given | {self.names[v]: value for v, value in zip(scope, choice)}
            costs.append(self.price(formula.value(names), name))
        self.add(name, scope, costs)

    def by_table(self, name: str, spec: dict) -> None:
        named_by = [] if spec.get("variables") is None else spec["variables"]
        alone = not isinstance(named_by, list)
        scope = self.scope(name, [str(n).strip() for n in ([named_by] if alone else named_by)])
        default = self.price(spec["default"], name) if "default" in spec else Fraction(0)
        if not isinstance(spec.get("values") or {}, dict):
            raise Trouble(f"{name}: its values must be lines `COST: VALUE VALUE | VALUE VALUE`")
        told = {}
        for cost, choices in (spec.get("values") or {}).items():
            for choice in str(choices).split("|"):
                told[self.choice(name, scope, words_of(name, choice, alone))] = self.price(cost, name)
        sizes = [len(self.values[v]) for v in scope]
        if "default" not in spec and len(told) < prod(sizes):
            self.untold.append(name)
        if len(scope) > MOST_SCOPE:
            self.relations.append(Relation(name, scope, told, default))
        else:
            self.add(name, scope, [told.get(choice, default) for choice in product(*map(range, sizes))])

    def choice(self, name: str, scope: tuple[int, ...], words: list[str]) -> tuple[int, ...]:
        """Which values are chosen; quotes that YAML itself left around one are no part of it."""
        if len(words) != len(scope):
            raise Trouble(f"{name}: `{' '.join(words)}` has {len(words)} values for {len(scope)} variables")
        places = []
        for variable, word in zip(scope, words):
            told = [str(value) for value in self.values[variable]]
            bare = word if word in told else word.strip("'\"")
            if bare not in told:
                told = [str(value.meant if isinstance(value, Switch) else value) for value in self.values[variable]]
            if bare not in told:
                raise Trouble(f"{name}: {word} is not a value of {self.names[variable]}")
            places.append(told.index(bare))
        return tuple(places)

    def scope(self, name: str, names: list[str]) -> tuple[int, ...]:
        unknown = [n for n in names if n not in self.names]
        if unknown:
            raise Trouble(f"{name} names {unknown[0]}, which is not a variable")
        return tuple(self.names.index(n) for n in names)

    def add(self, name: str, scope: tuple[int, ...], costs: list[Fraction | None]) -> None:
        """Keeps a constraint; one that names no variable, as of external ones alone, costs the same for each first value."""
        if len(scope) > MOST_SCOPE:
            choices = product(*(range(len(self.values[v])) for v in scope))
            self.relations.append(Relation(name, scope, dict(zip(choices, costs))))
        elif scope:
            self.constraints.append(Constraint(name, scope, costs))
        elif costs[0] != 0:
            self.constraints.append(Constraint(name, (0,), costs * len(self.values[0])))


def words_of(name: str, choice: str, alone: bool) -> list[str]:
    """The values that a choice names: words, in quotes where they have blanks; of one variable alone all of it."""
    if alone:
        return [choice.strip()]
    try:
        return shlex.split(choice)
    except ValueError as fault:
        raise Trouble(f"{name}: `{choice.strip()}`: {fault}") from None


def values_of(spec: object) -> list[object]:
    """The values of a domain: a list, or a range as `0 .. 9`."""
    values = spec.get("values") if isinstance(spec, dict) else spec
    if isinstance(values, str):
        values = [values]
    if isinstance(values, list) and len(values) == 1 and isinstance(values[0], str) and _RANGE.match(values[0]):
        low, high = map(int, _RANGE.match(values[0]).groups())  # type: ignore[union-attr]
        return list(range(low, high + 1))
    if not isinstance(values, list) or not values:
        raise Trouble(f"a domain has no values: {spec!r}")
    return values
