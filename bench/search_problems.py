"""The problems of search.sh, made from numbers, as problem text and as WCSP.

usage: search_problems.py FOLDER [NAME ..]
Writes NAME.dcop and NAME.wcsp into the folder for each of these problems, and without names for the thirteen of search.sh.
The front has to be on the path of modules. The WCSP of a problem whose greatest sum is sought has what each table falls short
of its greatest cell, so its optimum is what the greatest sum falls short of the sum of the greatest cells.
"""

from __future__ import annotations

import sys
from collections.abc import Callable
from dataclasses import dataclass
from itertools import combinations
from pathlib import Path
from random import Random

from sefwllon.problem import Problem, Table, Variable
from sefwllon.wcsp import write_wcsp


@dataclass(frozen=True)
class Made:
    """A problem: its name, what it is, its family, and how it is made."""

    name: str
    what: str
    family: str
    make: Callable[[], Problem]


def variables(count: int, size: int) -> list[Variable]:
    return [Variable(f"v{i}", size) for i in range(count)]


def random_pairs(goal: str, count: int, size: int, part: int, number: int) -> Problem:
    """So many in a hundred of all pairs share a table with costs from 0 to 99. These are the problems of anytime.sh."""
    draw = Random(number)
    pairs = [pair for pair in combinations(range(count), 2) if draw.randrange(100) < part]
    tables = [Table(pair, tuple(draw.randrange(100) for _ in range(size * size))) for pair in pairs]
    return Problem(goal, variables(count, size), tables)


def grid(side: int, size: int, number: int) -> Problem:
    """Costs from 0 to 9 on each variable and on each pair of neighbours."""
    draw = Random(f"grid {number}")
    alone = [(v,) for v in range(side * side)]
    across = [(v, v + 1) for v in range(side * side) if v % side < side - 1]
    down = [(v, v + side) for v in range(side * (side - 1))]
    tables = [Table(scope, tuple(draw.randrange(10) for _ in range(size ** len(scope)))) for scope in alone + across + down]
    return Problem("min", variables(side * side, size), tables)


def colouring(count: int, degree: int, number: int) -> Problem:
    """Three colours, so many neighbours on average; costs 5 to 9 for equal colours and 0 to 2 for others."""
    draw = Random(f"colouring {number}")
    pairs = sorted(draw.sample(list(combinations(range(count), 2)), count * degree // 2))
    tables = [Table(pair, tuple(draw.randint(5, 9) if a == b else draw.randint(0, 2) for a in range(3) for b in range(3))) for pair in pairs]
    return Problem("min", variables(count, 3), tables)


def timetable(number: int, meetings: int = 40, slots: int = 20, people: int = 25) -> Problem:
    """Meetings of 2 to 5 people: 100 for each clash, and for each person who is away; wishes from 0 to 5 for each slot."""
    draw = Random(f"timetable {number}")
    away = [{slot for slot in range(slots) if draw.randrange(10) == 0} for _ in range(people)]
    who = [set(draw.sample(range(people), draw.randint(2, 5))) for _ in range(meetings)]
    wishes = [[draw.randint(0, 5) + 100 * sum(slot in away[person] for person in who[v]) for slot in range(slots)] for v in range(meetings)]
    tables = [Table((v,), tuple(costs)) for v, costs in enumerate(wishes)]
    clash = tuple(100 if one == other else 0 for one in range(slots) for other in range(slots))
    tables += [Table(pair, clash) for pair in combinations(range(meetings), 2) if who[pair[0]] & who[pair[1]]]
    return Problem("min", variables(meetings, slots), tables)


def _grid(side: int, size: int, number: int) -> Made:
    return Made(f"grid{side}-{number}", f"grid {side} x {side}, size {size}", "grid", lambda: grid(side, size, number))


def _colouring(count: int, degree: int, number: int) -> Made:
    what = f"colouring of {count}, {degree} neighbours"
    return Made(f"colour{count}-{degree}-{number}", what, "colouring", lambda: colouring(count, degree, number))


PAIRS = [
    Made("pairs15", "all pairs of 15, size 6", "pairs", lambda: random_pairs("min", 15, 6, 100, 1)),
    Made("pairs20", "60 in 100 pairs of 20, size 8", "pairs", lambda: random_pairs("min", 20, 8, 60, 2)),
    Made("pairs25", "40 in 100 pairs of 25, size 10, greatest", "pairs", lambda: random_pairs("max", 25, 10, 40, 3)),
]
GRIDS = [_grid(12, 4, 1), _grid(12, 4, 2), _grid(20, 3, 1), _grid(20, 3, 2), _grid(30, 2, 1)]
COLOURINGS = [_colouring(80, 3, 1), _colouring(100, 3, 1), _colouring(200, 3, 1), _colouring(100, 4, 1)]
TIMETABLE = Made("timetable", "timetable of 40 in 20 slots", "timetable", lambda: timetable(1))
PROBLEMS = [*PAIRS, *GRIDS, *COLOURINGS, TIMETABLE]
# Those that are small enough for tests.
TESTED = [_grid(12, 4, 3), _grid(20, 3, 7), PAIRS[0], _colouring(200, 3, 6)]


def write(made: Made, folder: Path) -> None:
    problem = made.make()
    (folder / f"{made.name}.dcop").write_text(problem.text())
    (folder / f"{made.name}.wcsp").write_text(write_wcsp(problem, made.name))


def main() -> None:
    folder, names = Path(sys.argv[1]), sys.argv[2:]
    known = {made.name: made for made in PROBLEMS + TESTED}
    for name in names or [made.name for made in PROBLEMS]:
        write(known[name], folder)


if __name__ == "__main__":
    main()
