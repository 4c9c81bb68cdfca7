"""Parts of a problem that share no table are solved apart, and their answers are put together.

The sum of the parts' bounds bounds the whole. Where each part has a certificate of tables, the tables of all parts, with the roots of the others
below that of the first, are one of the whole, which `dcop check` is asked about.
"""

from __future__ import annotations

import argparse
import time
from dataclasses import replace

from .asking import deadline, solved
from .best import Best
from .problem import Problem, Table, Trouble
from .programs import Programs
from .report import fitted, read_report
from .smaller import components
from .solving import accepts
from .translate import Translation

_LEAST_SHARE = 0.3
"""Which part of what is left of the time a part may take at least, where others follow."""


def parts_of(problem: Problem) -> list[list[int]]:
    """The variables in groups that share no table, small ones in one group; the smallest group first."""
    return components(len(problem.variables), [table.scope for table in problem.tables])


def solved_apart(programs: Programs, told: Translation, options: argparse.Namespace) -> Best:
    """Solves a problem, its parts apart where there are several."""
    groups = parts_of(told.problem)
    if len(groups) == 1 or told.problem.goal != "min":
        return solved(programs, told, options)
    until = deadline(options)
    answers: list[Best] = []
    for at, group in enumerate(groups):
        now = time.monotonic()
        end = until if until is None or at == len(groups) - 1 else now + max(0.0, until - now) * share(groups[at:])
        if any(answer.stopped == "interrupted" for answer in answers):
            end = now
        own = argparse.Namespace(**{**vars(options), "time": None if end is None else end - options.began})
        answers.append(solved(programs, part(told, group), own))
    return joined(programs, told, groups, answers)


def share(groups: list[list[int]]) -> float:
    """Which part of what is left of the time the first of these groups may take."""
    return max(_LEAST_SHARE, len(groups[0]) / sum(map(len, groups)))


def part(told: Translation, group: list[int]) -> Translation:
    """The part of a problem over these variables."""
    place = {variable: at for at, variable in enumerate(group)}
    tables: list[Table] = []
    hard: dict[int, frozenset[int]] = {}
    for at, table in enumerate(told.problem.tables):
        if table.scope[0] in place:
            if at in told.hard:
                hard[len(tables)] = told.hard[at]
            tables.append(Table(tuple(place[v] for v in table.scope), table.costs))
    return replace(
        told,
        problem=Problem(told.problem.goal, [told.problem.variables[v] for v in group], tables),
        names=[told.names[v] for v in group],
        values=[told.values[v] for v in group],
        shift=told.shift * 0,
        hard=hard,
        hard_names=dict.fromkeys(hard, ""),
        source=None,
    )


def joined(programs: Programs, told: Translation, groups: list[list[int]], answers: list[Best]) -> Best:
    """The answer of the whole."""
    best = Best(method="+".join(dict.fromkeys(answer.method for answer in answers)), quick=programs.quick, began=answers[0].began)
    best.messages, best.nodes = sum(answer.messages for answer in answers), sum(answer.nodes for answer in answers)
    best.searched = any(answer.searched for answer in answers)
    best.quick_search = programs.quick_search or (programs.quick and not all(answer.searched for answer in answers))
    best.stopped = next((answer.stopped for answer in answers if answer.stopped), None)
    best.notes = [f"solved in {len(groups)} parts that share nothing", *dict.fromkeys(note for answer in answers for note in answer.notes)]
    best.seconds = time.monotonic() - best.began
    if any(answer.values is None for answer in answers):
        return best
    values = [0] * len(told.problem.variables)
    for group, answer in zip(groups, answers):
        for variable, value in zip(group, answer.values or []):
            values[variable] = value
    cost = told.problem.cost(values)
    if cost != sum(answer.cost or 0 for answer in answers):
        raise Trouble("the costs of the parts do not add up to that of the whole: don't trust these programs")
    best.lower = sum(answer.lower or 0 for answer in answers)
    best.smaller = any(answer.smaller for answer in answers)
    best.checked = sum(answer.checked or 0 for answer in answers)
    best.proved = None if all(answer.proved is None for answer in answers) else best.lower
    best.solved = all(answer.solved for answer in answers)
    best.take_better(values, cost, told.problem.goal)
    best.certified = merged(programs, told.problem, best, answers)
    best.certified_values = values if best.certified else None
    return best


def merged(programs: Programs, problem: Problem, best: Best, answers: list[Best]) -> str | None:
    """The report of the whole, where each part has a certificate of tables of its answer, and `dcop check` says yes to them together.

    `dcop` ties the first variable of each part to that of the whole, so the root of a part comes below that one, and its table is over
    it, with the part's cost in each cell. Of DPOP each variable but one sends a message and gets one."""
    if best.checked != best.cost or any(answer.certified is None or answer.certified_values != answer.values for answer in answers):
        return None
    parted = [answer.certified.partition("\ncertificate tables\n") for answer in answers if answer.certified]
    if any(not found for _, found, _ in parted):
        return None
    values = [line for told, _, _ in parted for line in told.split("\n") if line.startswith("value ")]
    first = values[0].split(" ")[1]
    sizes = {variable.name: variable.size for variable in problem.variables}
    lines = [line for _, _, its in parted for line in its.split("\n") if line.startswith("util ")]
    at_root = [tied(line, first, sizes[first], best.cost or 0) for line in lines]
    head = ["status solved", "method dpop", "error 0", f"deliveries {2 * (len(values) - 1)}", *(f"{what} {best.cost}" for what in ("cost", "lower", "upper"))]
    report = "\n".join([*head, *values, "certificate tables", *at_root, "end"]) + "\n"
    whole = fitted(problem, report)
    answer = programs.run(["check"], whole.text() + report)
    return report if accepts(answer, read_report(report, whole)) else None


def tied(line: str, first: str, size: int, cost: int) -> str:
    """A line of a part's certificate in that of the whole, whose first variable is this one."""
    _, name, parent, *_, last = line.split(" ")
    if parent != "-":
        return line
    return f"util {name} - : : {cost}" if name == first else f"util {name} {first} : {first} : {' '.join([last] * size)}"
