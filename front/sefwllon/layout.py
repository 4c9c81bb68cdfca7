"""Where the ovals of a picture stand, by Graphviz, where it is there."""

from __future__ import annotations

import shutil
import subprocess
from collections.abc import Iterable
from contextlib import suppress
from dataclasses import dataclass, field

SECONDS = 10
"""How long Graphviz may take."""
MOST_EDGES = 5_000
"""With more lines a picture is not given to Graphviz, which would take long."""
MANY = 150
"""From so many ovals on a graph is laid out by the faster of two ways."""
INCH = 72
HIGH, WITH_WORD = 44, 92
"""How high an oval is, and how high with the word below it."""

Spot = tuple[float, float]


@dataclass
class Layout:
    """The middle of each oval, by its number, and the ways of some lines: four spots or more, as cubic curves have them."""

    spots: dict[int, Spot] = field(default_factory=dict)
    ways: dict[tuple[int, int], list[Spot]] = field(default_factory=dict)
    width: float = 0
    height: float = 0


def graph(count: int, half: float, edges: Iterable[tuple[int, int]]) -> Layout | None:
    """A graph of so many ovals, so that no two of them overlap."""
    way = "neato" if count < MANY else "sfdp"
    lines = [f"node [shape=box fixedsize=true width={2 * half / INCH:.3f} height={WITH_WORD / INCH:.3f}]", *(f"{at}" for at in range(count))]
    return laid_out("graph", way, ["overlap=false", "sep=0.1", *lines], [(a, b, "") for a, b in edges], "--")


def tree(count: int, half: float, edges: Iterable[tuple[int, int]], others: Iterable[tuple[int, int]]) -> Layout | None:
    """A tree by its edges from above to below, and other lines, which find their way round the ovals."""
    lines = ["edge [arrowhead=none]", f"node [shape=ellipse fixedsize=true width={2 * half / INCH:.3f} height={HIGH / INCH:.3f}]", *(f"{at}" for at in range(count))]
    told = [*((a, b, "weight=8") for a, b in edges), *((a, b, "constraint=false") for a, b in others)]
    return laid_out("digraph", "dot", ["ranksep=0.8", "nodesep=0.3", *lines], told, "->")


def laid_out(kind: str, way: str, lines: list[str], edges: list[tuple[int, int, str]], arrow: str) -> Layout | None:
    """What Graphviz makes of a graph; None where it is not there, fails or takes too long."""
    program = shutil.which("dot")
    if program is None or len(edges) > MOST_EDGES:
        return None
    text = "\n".join([f"{kind} {{", *lines, *(f"{a} {arrow} {b} [{more}]" for a, b, more in edges), "}"])
    with suppress(OSError, subprocess.SubprocessError, ValueError, IndexError):
        told = subprocess.run([program, f"-K{way}", "-Tplain"], input=text, capture_output=True, text=True, timeout=SECONDS, check=True)
        return read(told.stdout)
    return None


def read(text: str) -> Layout:
    """Reads a layout in Graphviz's plain form, whose y goes up."""
    layout = Layout()
    for line in text.splitlines():
        match line.split():
            case ["graph", _, width, height]:
                layout.width, layout.height = float(width) * INCH, float(height) * INCH
            case ["node", name, x, y, *_]:
                layout.spots[int(name)] = spot(layout, x, y)
            case ["edge", tail, head, count, *rest]:
                numbers = rest[: 2 * int(count)]
                layout.ways[int(tail), int(head)] = [spot(layout, x, y) for x, y in zip(numbers[::2], numbers[1::2])]
    return layout


def spot(layout: Layout, x: str, y: str) -> Spot:
    return float(x) * INCH, layout.height - float(y) * INCH
