"""The trials of random_search.sh, which says what they are."""

from __future__ import annotations

import itertools
import random
import sys
import tempfile
import time
from collections import Counter
from dataclasses import dataclass

from sefwllon.problem import Problem, Table, Variable, parse
from trial import Answer, small_problem, values_of, wcsp_text

STATUS_OF = {0: "solved", 1: "spent", 10: "none"}


# So many trials in a row are of one problem, whose best sum is asked for once.
OF_ONE = 8


@dataclass(frozen=True)
class Drawn:
    """A problem, the text that tells it, and its best sum."""

    text: bytes
    wcsp: bool
    problem: Problem
    best: int

    def whole(self) -> int:
        return sum(max(table.costs) for table in self.problem.tables)


@dataclass(frozen=True)
class Asked(Drawn):
    """A trial: a problem, and the options."""

    error: int
    budget: int | None
    cells: int | None
    better: int | None

    def words(self) -> list[str]:
        options = {"--error": self.error or None, "--budget": self.budget, "--cells": self.cells, "--better": self.better}
        words = [word for name, number in options.items() if number is not None for word in (name, str(number))]
        return words + (["--format", "wcsp"] if self.wcsp else [])


def crowded(rng: random.Random) -> bytes:
    """A problem whose joined tables are larger than a few cells allow."""
    size, most, count = rng.choice(((4, 5, 7), (4, 100, 7), (3, 9, 9)))
    pairs = [pair for pair in itertools.combinations(range(count), 2) if rng.random() < 0.8]
    scopes = pairs + [tuple(rng.sample(range(count), rng.randint(1, 3))) for _ in range(rng.randint(0, 4))]
    tables = [Table(scope, tuple(rng.choices(range(most + 1), k=size ** len(scope)))) for scope in scopes]
    return Problem(rng.choice(("min", "max")), [Variable(f"v{i}", size) for i in range(count)], tables).text().encode()


def drawn(rng: random.Random, dcop: str) -> Drawn:
    """A problem. Its best sum is asked of method plain."""
    wcsp = rng.random() < 0.1
    text = wcsp_text(rng) if wcsp else crowded(rng) if rng.random() < 0.3 else small_problem(rng, 7)
    form = ["--format", "wcsp"] if wcsp else []
    best = Answer(dcop, ["solve", "--method", "plain", *form], text).number("cost")
    assert best is not None, text
    told = Answer(dcop, ["upgrade", *form], text).out if wcsp else text
    return Drawn(text, wcsp, parse(told.decode("latin-1")), best)


def asked_of(rng: random.Random, drawn: Drawn) -> Asked:
    """A trial of a problem."""
    best = drawn.best
    around = rng.choice([max(0, best + step) for step in (-7, -3, -1, 0, 0, 1, 1, 3, 7, 40)])
    return Asked(
        drawn.text, drawn.wcsp, drawn.problem, best,
        error=rng.choice((0, 0, 0, 1, 2, 3, 4, 5, 1000)),
        budget=rng.choice((None, 1, 2, 4, 8, 16, rng.randint(1, 100), rng.randint(1, 1000))),
        cells=rng.choice((None, 1024, 1024, rng.randint(1024, 10_000))),
        better=rng.choice((None, None, around, around, rng.choice((0, best // 2, 2 * best, 2**62)))),
    )


def kept_words(asked: Asked, status: str, found: bool) -> list[str]:
    """The first words of an answer's lines, in their order."""
    least = asked.problem.goal == "min"
    words = ["status", "method", *([] if least else ["goal"]), "error", "nodes"]
    words += ["cost", "lower", "upper"] if found else ["lower" if least else "upper"]
    return words + ["value"] * (len(asked.problem.variables) if found else 0) + ["end"]


def fault_of(asked: Asked, answer: Answer) -> str | None:
    """What is wrong with an answer."""
    status, problem = STATUS_OF.get(answer.status), asked.problem
    if answer.err or status is None or not answer.out.startswith(b"status %s\nmethod search\n" % status.encode()):
        return "its status is wrong, or something is on standard error"
    found = answer.number("cost") is not None
    if [line[0] for line in answer.lines] != kept_words(asked, status, found) or answer.number("error") != asked.error:
        return "its lines are not those that are due"
    return fault_of_values(asked, answer, found) or fault_of_bounds(asked, answer) or fault_of_status(asked, answer, status, found)


def fault_of_values(asked: Asked, answer: Answer, found: bool) -> str | None:
    """What is wrong with the assignment and its cost."""
    if not found:
        return None if asked.better is not None else "no assignment is printed"
    values, cost = values_of(asked.problem, answer.lines), answer.number("cost")
    if values is None or asked.problem.cost(values) != cost:
        return "the printed values do not cost what is printed"
    least = asked.problem.goal == "min"
    if asked.better is not None and not (cost < asked.better if least else cost > asked.better):
        return "the printed cost is no better than what was asked"
    return None if answer.number("upper" if least else "lower") == cost else "the bound on the cost's side is not the cost"


def fault_of_bounds(asked: Asked, answer: Answer) -> str | None:
    """What is wrong with the bounds."""
    lower, upper = answer.number("lower"), answer.number("upper")
    lower, upper = 0 if lower is None else lower, asked.whole() if upper is None else upper
    return None if 0 <= lower <= asked.best <= upper <= asked.whole() else "the best sum is not between the bounds, or a bound is too far"


def fault_of_status(asked: Asked, answer: Answer, status: str, found: bool) -> str | None:
    """What is wrong with the status, beside the bounds and the nodes."""
    lower, upper, nodes = (answer.number(word) for word in ("lower", "upper", "nodes"))
    budget = 100_000_000 if asked.budget is None else asked.budget
    if nodes > max(budget, len(asked.problem.variables)):
        return "too many nodes are visited"
    if status == "spent":
        return None if nodes >= budget else "spent, and the budget is not reached"
    if status == "solved":
        return None if found and upper - lower <= asked.error else "solved, and the cost misses the other bound by more than the error"
    if found or asked.better is None:
        return "none, and an assignment is printed, or nothing better was sought"
    missed = asked.better - lower if asked.problem.goal == "min" else upper - asked.better
    return None if missed <= asked.error else "none, and the bound does not say so"


def main() -> None:
    search, dcop, (seed, count, first) = *sys.argv[1:3], map(int, sys.argv[3:6])
    began, told = time.monotonic(), Counter()
    for number in range(first, first + count):
        if number == first or number % OF_ONE == 0:
            problem = drawn(random.Random(f"{seed} problem {number // OF_ONE}"), dcop)
        asked = asked_of(random.Random(f"{seed} {number}"), problem)
        answer = Answer(search, asked.words(), asked.text)
        fault = fault_of(asked, answer)
        if fault:
            with tempfile.NamedTemporaryFile(prefix="random-", suffix=".input", delete=False) as it:
                it.write(asked.text)
            words = " ".join(asked.words())
            sys.exit(f"trial {number} of seed {seed}: {fault}\n  dcop_search {words} < {it.name}\n  best {asked.best}, status {answer.status}, {answer.out[:400]!r}")
        told[STATUS_OF[answer.status]] += 1
        if (number + 1 - first) % 10_000 == 0:
            print(f"  {number + 1 - first:,} trials, {time.monotonic() - began:.0f} s", flush=True)
    ends = ", ".join(f"{status}: {told[status]:,}" for status in STATUS_OF.values())
    print(f"{count:,} trials of seed {seed} in {time.monotonic() - began:.0f} s, none of which was wrong; by status {ends}")


main()
