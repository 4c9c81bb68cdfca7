"""What the agents of a run say to each other, in the figures that papers report."""

from __future__ import annotations

from collections.abc import Iterable
from math import prod

from ..problem import Problem
from ..report import Node, Report
from ..tracing import KINDS, Channels, Event

COLUMNS = (
    "messages",
    "value_messages",
    "cost_messages",
    "threshold_messages",
    "terminate_messages",
    "util_messages",
    "bytes",
    "longest_chain",
    "greatest_util",
    "sum_util",
)
"""The figures: messages in all and by kind, their bytes, the longest chain of messages of which each follows from the one before, and
the cells of the greatest UTIL message and of all."""

HEAD, COUNT, VARIABLE, VALUE, CELL, FLAG = 9, 4, 4, 2, 8, 1
"""Bytes of a message: its stamp and kind, a count, a variable, a value, a cell or another amount, whether there is an upper bound."""


def message_figures(problem: Problem, report: Report, tree: list[Node] | None = None, events: Iterable[Event] | None = None) -> dict[str, int]:
    """The figures of a run that can be told: those that can't are left out. Those of DPOP follow from the agents' tree: a table
    over the separator goes up from each agent but the root, and the values of the separator come down. Those of ADOPT follow from
    the events of its run, from the start on."""
    if report.method == "adopt":
        return {"messages": report.deliveries, **({} if events is None else figures_of_adopt(events))}
    if report.method != "dpop" or tree is None:
        return {"messages": report.deliveries} if report.method == "cut" else {}
    sizes = {variable.name: variable.size for variable in problem.variables}
    below = [node for node in tree if node.parent is not None]
    cells = [prod(sizes[name] for name in node.separator) for node in below]
    names = sum(len(node.separator) for node in below)
    up = len(below) * (HEAD + 2 * COUNT) + names * VARIABLE + sum(cells) * CELL
    down = len(below) * (HEAD + COUNT) + names * (VARIABLE + VALUE)
    return {
        "messages": report.deliveries,
        "value_messages": len(below),
        "util_messages": len(below),
        "bytes": up + down,
        "longest_chain": 2 * height(tree),
        "greatest_util": max(cells, default=0),
        "sum_util": sum(cells),
    }


def height(tree: list[Node]) -> int:
    """How many steps the deepest agent stands below the root. Each node stands before those below it."""
    depth: dict[str, int] = {}
    for node in tree:
        depth[node.name] = 0 if node.parent is None else depth[node.parent] + 1
    return max(depth.values(), default=0)


def figures_of_adopt(events: Iterable[Event]) -> dict[str, int]:
    """The messages that agents took, by kind, their bytes, and the longest chain: each message in it was sent in the event in which
    the one before it was taken."""
    counts = dict.fromkeys(KINDS, 0)
    size, channels, chain, longest = 0, Channels(), {0: 0}, 0
    for event in events:
        length = max((chain[origin] + 1 for origin in channels.take(event)), default=0)
        chain[event.number] = length
        longest = max(longest, length)
        for line in event.lines:
            if line.startswith("took "):
                words = line.split()
                counts[words[2]] += 1
                size += size_of(words[2], words[3:])
    return {**{f"{kind}_messages": count for kind, count in counts.items()}, "bytes": size, "longest_chain": longest}


def size_of(kind: str, words: list[str]) -> int:
    """The bytes of a message of ADOPT, by what it says."""
    if kind == "value":
        return HEAD + VALUE
    amounts = {"cost": 2, "threshold": 1, "terminate": 0}[kind]
    pairs = (len(words) - amounts) // 2
    size = HEAD + COUNT + pairs * (VARIABLE + VALUE)
    if kind == "cost":
        return size + CELL + FLAG + (0 if words[1] == "-" else CELL)
    return size + amounts * CELL
