"""What the assignments of a pyDCOP file cost, told without the front: every one is tried, by what pyDCOP's documents say that a
file means, and formulas are run by Python itself. It is for the files of the tests, which are trusted."""

from __future__ import annotations

import itertools
import shlex
from collections.abc import Callable, Iterator

import yaml

Choice = dict[str, object]
INFINITY = 10_000
"""pyDCOP's option `--infinity`, where it is not given: a constraint that costs this is counted as violated."""


class File:
    """One file: its variables with their values, and what each constraint and each variable costs at a choice of values."""

    def __init__(self, text: str):
        data = yaml.safe_load(text)
        self.sign = {"min": 1, "max": -1}[data["objective"]]
        domains = {name: values(spec["values"]) for name, spec in data["domains"].items()}
        self.variables = {name: domains[spec["domain"]] for name, spec in data["variables"].items()}
        outside = {name: spec["initial_value"] for name, spec in data.get("external_variables", {}).items()}
        self.costs: list[Callable[[Choice], float]] = []
        for spec in data["variables"].values():
            if "cost_function" in spec:
                self.costs.append(formula(str(spec["cost_function"]), outside))
        for spec in data["constraints"].values():
            self.costs.append(formula(str(spec["function"]), outside) if spec["type"] == "intention" else table(spec))

    def choices(self) -> Iterator[Choice]:
        for chosen in itertools.product(*self.variables.values()):
            yield dict(zip(self.variables, chosen))

    def total(self, choice: Choice) -> float:
        return sum(cost(choice) for cost in self.costs)

    def best(self) -> float:
        return self.sign * min(self.sign * self.total(choice) for choice in self.choices())

    def printed(self, choice: Choice) -> tuple[float, int]:
        """The cost and the violations that pyDCOP prints of an assignment."""
        told = [cost(choice) for cost in self.costs]
        return sum(cost for cost in told if cost != INFINITY), told.count(INFINITY)


def values(told: list[object]) -> list[object]:
    if len(told) == 1 and ".." in str(told[0]):
        low, high = str(told[0]).split("..")
        return list(range(int(low), int(high) + 1))
    return told


def formula(text: str, outside: Choice) -> Callable[[Choice], float]:
    if "return" not in text:
        return lambda choice: eval(text, {}, outside | choice)
    lines = "".join(f"    {line}\n" for line in text.split("\n"))

    def run(choice: Choice) -> float:
        names = outside | choice
        made: dict[str, Callable[..., float]] = {}
        exec(f"def told({', '.join(names)}):\n{lines}", made)
        return made["told"](**names)

    return run


def table(spec: dict) -> Callable[[Choice], float]:
    alone = isinstance(spec["variables"], str)
    names = [spec["variables"]] if alone else spec["variables"]
    costs = {}
    for cost, told in spec["values"].items():
        for words in str(told).split("|"):
            costs[(words.strip(),) if alone else tuple(shlex.split(words))] = float(cost)
    return lambda choice: costs.get(tuple(str(choice[name]) for name in names), float(spec.get("default", "nan")))
