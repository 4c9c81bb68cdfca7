"""Problems made from numbers, of the kinds that papers on DCOP compare methods by. The same numbers make the same problem."""

from __future__ import annotations

import argparse
from collections.abc import Callable, Iterable
from dataclasses import dataclass
from itertools import combinations, product
from random import Random
from typing import Any

from ..arguments import natural
from ..problem import Problem, Table, Trouble, Variable
from .needs import needed

Given = argparse.Namespace
"""The numbers of a kind, by their names."""


@dataclass(frozen=True)
class Number:
    """A number that a kind takes: its name, what is meant where it is not named, and what it says."""

    name: str
    usual: Any
    says: str
    read: Callable[[str], Any] = natural


@dataclass(frozen=True)
class Kind:
    """A kind of problems: its name, what it is, its numbers, and how one is made."""

    name: str
    says: str
    numbers: tuple[Number, ...]
    make: Callable[[Given, Random], Problem]


def part(word: str) -> float:
    """A part from 0 to 1."""
    try:
        if 0 <= float(word) <= 1:
            return float(word)
    except ValueError:
        pass
    raise argparse.ArgumentTypeError(f"{word} is not a number from 0 to 1, such as 0.4")


def costs(word: str) -> tuple[int, int]:
    """The least and the greatest cost, as 0..100."""
    least, dots, most = word.partition("..")
    if not (dots and least.isdigit() and most.isdigit() and int(least) <= int(most) <= 10**15):
        raise argparse.ArgumentTypeError(f"{word} is not a range of costs such as 0..100")
    return int(least), int(most)


def graph(name: str, *words: Any, **more: Any) -> Any:
    """A graph by networkx."""
    library = needed("networkx", "generate")
    try:
        return getattr(library, name)(*words, **more)
    except library.NetworkXError as fault:
        raise Trouble(f"no graph has these numbers: {fault}") from None


def pairs_of(made: Any) -> list[tuple[int, int]]:
    """The edges of a graph, each with its lower end first, in order."""
    return sorted((min(pair), max(pair)) for pair in made.edges())


def variables(count: int, size: int) -> list[Variable]:
    return [Variable(f"v{at}", size) for at in range(count)]


def drawn(pairs: Iterable[tuple[int, int]], count: int, given: Given, draw: Random) -> Problem:
    """A problem with a table of drawn costs on each pair."""
    least, most = given.costs
    cells = range(given.size**2)
    tables = [Table(pair, tuple(draw.randint(least, most) for _ in cells)) for pair in pairs]
    return Problem("min", variables(count, given.size), tables)


def colouring(given: Given, draw: Random) -> Problem:
    """Equal colours of neighbours cost something, and others nothing."""
    links = given.links * given.variables
    most = given.variables * (given.variables - 1) // 2
    made = graph("gnm_random_graph", given.variables, min(links, most), seed=draw.getrandbits(32))
    least, greatest = given.costs
    tables = [
        Table(pair, tuple(draw.randint(least, greatest) if a == b else 0 for a, b in product(range(given.colours), repeat=2)))
        for pair in pairs_of(made)
    ]
    return Problem("min", variables(given.variables, given.colours), tables)


def grid(given: Given, draw: Random) -> Problem:
    """Costs on each pair of neighbours of a grid."""
    made = graph("grid_2d_graph", given.rows, given.columns, periodic=given.torus)
    place = {(row, column): row * given.columns + column for row in range(given.rows) for column in range(given.columns)}
    pairs = sorted({(min(ends), max(ends)) for ends in ((place[a], place[b]) for a, b in made.edges()) if ends[0] != ends[1]})
    return drawn(pairs, given.rows * given.columns, given, draw)


def random_pairs(given: Given, draw: Random) -> Problem:
    """A part of all pairs shares a table, and of its cells a part costs something."""
    most = given.variables * (given.variables - 1) // 2
    made = graph("gnm_random_graph", given.variables, round(given.density * most), seed=draw.getrandbits(32))
    cells, (least, greatest) = given.size**2, given.costs
    tables = []
    for pair in pairs_of(made):
        bad = set(draw.sample(range(cells), round(given.tightness * cells)))
        tables.append(Table(pair, tuple(draw.randint(least, greatest) if at in bad else 0 for at in range(cells))))
    return Problem("min", variables(given.variables, given.size), tables)


def scale_free(given: Given, draw: Random) -> Problem:
    """Costs on each pair of neighbours of a graph in which a few have many neighbours."""
    made = graph("barabasi_albert_graph", given.variables, given.links, seed=draw.getrandbits(32))
    return drawn(pairs_of(made), given.variables, given, draw)


def meetings(given: Given, draw: Random) -> Problem:
    """Meetings take slots, or none; two that share somebody are not in one slot."""
    if not 1 <= given.attend <= given.people:
        raise Trouble("--attend must be from 1 to the number of --people")
    who = [set(draw.sample(range(given.people), given.attend)) for _ in range(given.meetings)]
    pairs = [pair for pair in combinations(range(given.meetings), 2) if who[pair[0]] & who[pair[1]]]
    return slotted("m", given.meetings, pairs, given, draw)


def sensors(given: Given, draw: Random) -> Problem:
    """Targets stand between two sensors of a grid, which both see one target in a slot; each target takes a slot, or none."""
    made = graph("grid_2d_graph", given.rows, given.columns)
    between = sorted(tuple(sorted(edge)) for edge in made.edges())
    if not 1 <= given.targets <= len(between):
        raise Trouble(f"--targets must be from 1 to {len(between)}, the number of pairs of neighbouring sensors in this grid")
    places = sorted(draw.sample(between, given.targets))
    pairs = [pair for pair in combinations(range(given.targets), 2) if set(places[pair[0]]) & set(places[pair[1]])]
    return slotted("t", given.targets, pairs, given, draw)


def slotted(letter: str, count: int, pairs: list[tuple[int, int]], given: Given, draw: Random) -> Problem:
    """Variables that take slots: a drawn cost for each, one for none, and one for each two of a pair in one slot."""
    names = (*(f"s{slot}" for slot in range(given.slots)), "none")
    least, most = given.costs
    alone = [Table((at,), (*(draw.randint(least, most) for _ in range(given.slots)), given.left)) for at in range(count)]
    clash = tuple(given.clash if a == b < given.slots else 0 for a, b in product(range(given.slots + 1), repeat=2))
    return Problem("min", [Variable(f"{letter}{at}", len(names), names) for at in range(count)], alone + [Table(pair, clash) for pair in pairs])


def drill(given: Given, draw: Random, seed: int = 0) -> Problem:
    """The problem of `dcop drill` with these numbers."""
    words = stream(seed)
    tables = []
    for at in range(1, given.variables):
        for _ in range(min(at, given.degree)):
            partner = next(words) % at
            tables.append(Table((partner, at), tuple(next(words) % (given.top + 1) for _ in range(given.size**2))))
    return Problem("min", variables(given.variables, given.size), tables)


def stream(state: int) -> Iterable[int]:
    """The words of SplitMix64."""
    mask = 2**64 - 1
    while True:
        state = (state + 0x9E3779B97F4A7C15) & mask
        word = ((state ^ (state >> 30)) * 0xBF58476D1CE4E5B9) & mask
        word = ((word ^ (word >> 27)) * 0x94D049BB133111EB) & mask
        yield word ^ (word >> 31)


VARIABLES = Number("variables", 20, "how many variables")
SIZE = Number("size", 4, "how many values each has")
COSTS = Number("costs", (0, 100), "the least and the greatest cost of a cell", costs)
ROWS, COLUMNS = Number("rows", 5, "rows of the grid"), Number("columns", 5, "columns of the grid")
SLOTS = (
    Number("slots", 8, "how many slots there are"),
    Number("costs", (0, 100), "the least and the greatest cost of a slot", costs),
    Number("left", 100, "what it costs to take no slot"),
    Number("clash", 1_000_000, "what it costs that two which share somebody, or a sensor, are in one slot"),
)
KINDS = {
    kind.name: kind
    for kind in (
        Kind(
            "colouring",
            "neighbours of equal colours cost something",
            (
                VARIABLES,
                Number("colours", 3, "how many colours there are"),
                Number("links", 2, "so many times as many links as variables"),
                Number("costs", (1, 1), "the least and the greatest cost of equal colours", costs),
            ),
            colouring,
        ),
        Kind("grid", "costs between neighbours on a grid", (ROWS, COLUMNS, Number("torus", False, "its edges meet"), SIZE, COSTS), grid),
        Kind(
            "random",
            "a part of all pairs shares a table",
            (
                VARIABLES,
                SIZE,
                Number("density", 0.3, "which part of all pairs", part),
                Number("tightness", 1.0, "which part of a table's cells costs something", part),
                COSTS,
            ),
            random_pairs,
        ),
        Kind(
            "scale-free",
            "a few variables have many neighbours",
            (VARIABLES, SIZE, Number("links", 2, "how many links each new variable has to earlier ones"), COSTS),
            scale_free,
        ),
        Kind(
            "meetings",
            "meetings take slots, and share people",
            (
                Number("meetings", 12, "how many meetings"),
                Number("people", 10, "how many people"),
                Number("attend", 3, "how many of them come to a meeting"),
                *SLOTS,
            ),
            meetings,
        ),
        Kind(
            "sensors",
            "targets between the sensors of a grid take slots",
            (ROWS, COLUMNS, Number("targets", 12, "how many targets"), *SLOTS),
            sensors,
        ),
        Kind(
            "drill",
            "the problem of `dcop drill`",
            (
                VARIABLES,
                SIZE,
                Number("degree", 2, "how many tables tie a variable to earlier ones, at most"),
                Number("top", 100, "the greatest cost of a cell"),
            ),
            drill,
        ),
    )
}
"""The kinds of problems, by their names."""


def words_of(kind: Kind, given: Given) -> str:
    """The words that make a problem, without its number."""
    told = []
    for number in kind.numbers:
        value = getattr(given, number.name)
        if value is True:
            told.append(f"--{number.name}")
        elif value is not False:
            told.append(f"--{number.name} {'..'.join(map(str, value)) if isinstance(value, tuple) else value}")
    return " ".join([kind.name, *told])


def made(kind: Kind, given: Given, seed: int, at: int) -> Problem:
    """The problem with this number of those that a seed gives, with a comment that says how it was made."""
    words = words_of(kind, given)
    if kind.name == "drill":
        problem = drill(given, Random(0), seed + at)
    else:
        problem = kind.make(given, Random(f"{words} {seed} {at}"))
    problem.comments = [f"sefwllon generate {words} --seed {seed}", f"problem {at}"]
    problem.check_limits()
    return problem
