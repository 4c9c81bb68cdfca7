"""Reports, trees and logs, as `dcop` prints them."""

from __future__ import annotations

from dataclasses import dataclass, field

from .problem import Problem, Trouble


@dataclass
class Report:
    """A report of `solve`."""

    status: str
    method: str
    error: int
    deliveries: int
    cost: int
    lower: int
    upper: int
    values: list[int]
    certificate: str | None = None
    nodes: int = 0
    rests: str | None = None
    """What the front said that it rests on, where it wrote the report."""
    besides: tuple[str, ...] = ()
    """What it was made with besides the file, in words as `keep`."""

    @property
    def exact(self) -> bool:
        return self.lower == self.upper == self.cost

    def bound(self, goal: str) -> int:
        """What no assignment is better than, as the report says."""
        return self.lower if goal == "min" else self.upper


@dataclass
class Node:
    """A line of a tree: a variable, its parent, its separator."""

    name: str
    parent: str | None
    separator: list[str] = field(default_factory=list)


def parted(text: str) -> tuple[str, str | None]:
    """What a report says before its certificate, which may be long, and the certificate's kind."""
    told, found, rest = text.partition("\ncertificate ")
    return told, rest.split(maxsplit=1)[0] if found and rest.split(maxsplit=1) else None


def printed(text: str) -> str:
    """What a report says that was printed: all of it, or what stands before the report of `dcop` that it rests on."""
    before, found, _ = text.partition("\nend\n")
    return before + found


def certified(text: str) -> str | None:
    """The report of `dcop` with a certificate: all of the text, or what stands behind what was printed."""
    rest = text.partition("\nend\n")[2]
    told = rest if rest.strip() else text
    return told if parted(told)[1] else None


def made_with(text: str) -> tuple[str, ...]:
    """What a report says that it was made with besides the file."""
    found = (line.split()[1:] for line in parted(printed(text))[0].splitlines() if line.split()[:1] == ["with"])
    return tuple(next(found, ()))


def written(problem: Problem, report: Report) -> str:
    """A report as the front writes it, where there is none of `dcop` that says the same."""
    lines = [f"status {report.status}", f"method {report.method}"]
    lines += ["goal max"] if problem.goal == "max" else []
    lines.append(f"rests {report.rests}")
    lines += [f"with {' '.join(report.besides)}"] if report.besides else []
    lines.append(f"error {report.error}")
    lines.append(f"nodes {report.nodes}" if report.method in ("search", "smaller") else f"deliveries {report.deliveries}")
    lines += [f"cost {report.cost}", f"lower {report.lower}", f"upper {report.upper}"]
    lines += [f"value {v.name} {v.value_name(value)}" for v, value in zip(problem.variables, report.values)]
    return "\n".join([*lines, "end"]) + "\n"


def read_report(text: str, problem: Problem) -> Report:
    """Reads a report of this problem."""
    numbers: dict[str, str] = {}
    values: list[int] = []
    rests = None
    told, certificate = parted(text)
    for line in told.splitlines():
        words = line.split()
        if not words:
            continue
        if words[0] == "value" and len(words) == 3:
            variable = problem.variables[len(values)] if len(values) < len(problem.variables) else None
            value = variable.value_of(words[2]) if variable and variable.name == words[1] else None
            if value is None:
                raise Trouble(f"the report says `{line}`, which does not fit this problem: is the report about another problem?")
            values.append(value)
        elif words[0] == "rests":
            rests = " ".join(words[1:])
        elif len(words) == 2:
            numbers.setdefault(words[0], words[1])
    try:
        numbers.setdefault("nodes" if "deliveries" in numbers else "deliveries", "0")
        count = {name: int(numbers[name]) for name in ("error", "deliveries", "nodes", "cost", "lower", "upper")}
        status, method = numbers["status"], numbers["method"]
    except (KeyError, ValueError):
        raise Trouble("that is not a report of `dcop solve`") from None
    if len(values) != len(problem.variables):
        raise Trouble(f"the report has {len(values)} values for {len(problem.variables)} variables")
    return Report(status, method, values=values, certificate=certificate, rests=rests, besides=made_with(told), **count)


def fitted(problem: Problem, report: str) -> Problem:
    """The problem with its variables in the order in which a report has them, where these are the same variables.

    `solve` may have solved the problem in another order; whatever the order is, each assignment costs the same."""
    names = [words[1] for words in map(str.split, parted(printed(report))[0].splitlines()) if words[:1] == ["value"] and len(words) == 3]
    own = [v.name for v in problem.variables]
    return problem.reordered(names) if names != own and sorted(names) == sorted(own) else problem


def read_tree(text: str) -> list[Node]:
    """Reads the answer of `dcop tree`."""
    nodes = []
    for line in text.splitlines():
        words = line.split()
        if words[:1] == ["node"]:
            parent = None if words[3] == "-" else words[3]
            nodes.append(Node(words[1], parent, words[5:]))
    if not nodes:
        raise Trouble("that is not an answer of `dcop tree`")
    return nodes
