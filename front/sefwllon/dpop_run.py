"""A run of DPOP, told from its certificate: tables go up the agents' tree, and values come down."""

from __future__ import annotations

from collections.abc import Iterator
from dataclasses import dataclass


@dataclass(frozen=True)
class Util:
    """The table that an agent sends to its parent, or, of the root, what is left there: over which variables, and its cells, the last
    variable's value moving fastest."""

    name: str
    parent: str | None
    scope: list[str]
    cells: list[int]


@dataclass(frozen=True)
class Step:
    """A step of a run: an agent sends its parent its table; the root has all tables and chooses; an agent tells a child the values above
    that child, which chooses."""

    number: int
    kind: str
    """table, chosen or values."""
    sender: str
    receiver: str | None
    util: Util
    """The table that is sent; that of the agent which chooses, where values come."""


def utils(report: str) -> list[Util]:
    """The tables of a report's certificate, in the order of its lines."""
    found = []
    for line in report.splitlines():
        words = line.split()
        if words[:1] == ["util"]:
            first = words.index(":")
            second = words.index(":", first + 1)
            parent = None if words[2] == "-" else words[2]
            found.append(Util(words[1], parent, words[first + 1 : second], [int(word) for word in words[second + 1 :]]))
    return found


def preorder(tables: list[Util]) -> list[Util]:
    """Each agent's table before those of the agents below it."""
    children: dict[str | None, list[Util]] = {}
    for table in tables:
        children.setdefault(table.parent, []).append(table)
    found: list[Util] = []
    open_ones = list(reversed(children.get(None, [])))
    while open_ones:
        table = open_ones.pop()
        found.append(table)
        open_ones += reversed(children.get(table.name, []))
    return found


def steps(tables: list[Util]) -> Iterator[Step]:
    """The steps of a run, counted from 1."""
    root, *below = preorder(tables)
    told = [("table", table.name, table.parent, table) for table in reversed(below)]
    told.append(("chosen", root.name, None, root))
    told += [("values", table.parent or "", table.name, table) for table in below]
    for number, (kind, sender, receiver, table) in enumerate(told, 1):
        yield Step(number, kind, sender, receiver, table)
