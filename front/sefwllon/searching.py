"""What `dcop_search` answers."""

from __future__ import annotations

from dataclasses import dataclass

from .best import is_better
from .problem import Problem, Trouble
from .programs import Answer, Crashed, Wrong, crash

CELLS = (None, 1_048_576, 65_536)
"""How many cells its bounds may have: as many as it takes by itself, and fewer where there is not enough memory."""
STATUS = {"solved": 0, "spent": 1, "none": 10}
"""What it says, each with the exit status that goes with it."""
NO_MEMORY = 7


@dataclass(frozen=True)
class Found:
    """An answer: whether the search has ended, how many nodes it visited, a bound of the best sum, and an assignment, where one
    was found."""

    ended: bool
    nodes: int
    bound: int
    cost: int | None = None
    values: list[int] | None = None


def read_found(answer: Answer, problem: Problem, better: int | None, error: int) -> Found:
    """Reads an answer. What is none of `dcop_search` is told, with what it is."""
    if crash(answer):
        raise Crashed(crash(answer))
    if answer.status == NO_MEMORY:
        raise Crashed("dcop_search did not have enough memory")
    numbers: dict[str, str] = {}
    named: dict[str, str] = {}
    for line in answer.text.splitlines():
        match line.split():
            case ["value", name, word]:
                named[name] = word
            case [name, word]:
                numbers.setdefault(name, word)
    try:
        status, bound = numbers["status"], int(numbers["lower" if problem.goal == "min" else "upper"])
        nodes, cost = int(numbers["nodes"]), int(numbers["cost"]) if "cost" in numbers else None
        if STATUS[status] != answer.status or numbers["method"] != "search" or (status == "solved" and cost is None):
            raise ValueError
        values = None if cost is None else [value_of(problem, place, named) for place in range(len(problem.variables))]
    except (KeyError, ValueError):
        raise Wrong(answer, "that is not an answer of dcop_search") from None
    found = Found(status != "spent", nodes, bound, cost, values)
    check_bound(found, answer, problem.goal, better, error)
    return found


def value_of(problem: Problem, place: int, named: dict[str, str]) -> int:
    variable = problem.variables[place]
    value = variable.value_of(named[variable.name])
    if value is None:
        raise ValueError
    return value


def check_bound(found: Found, answer: Answer, goal: str, better: int | None, error: int) -> None:
    """Whether an answer that says that the search has ended says so by its bound."""
    reached = found.cost if found.cost is not None else better
    if found.ended and (reached is None or abs(reached - found.bound) > error):
        if reached is None or is_better(found.bound, reached, goal):
            raise Trouble(f"{answer.who} says that it has ended, but its bound is {found.bound}: don't trust this program")
