"""Pictures of a sweep by matplotlib, as SVG and PNG. The same rows make the same pictures."""

from __future__ import annotations

import re
from collections.abc import Sequence
from itertools import combinations
from pathlib import Path
from statistics import mean
from typing import Any

from ..problem import Trouble
from .needs import needed
from .seen import Seen, methods_of

LEAST_SECONDS = 1e-4
"""A shorter time is drawn as this one."""
POINTS = 60
"""At how many times the gap is drawn."""
MARKERS = "os^Dv<>pP*X"
MOST_PAIRS = 10
"""How many pairs of methods are drawn against each other, at most."""


def pyplot() -> Any:
    """matplotlib, without a display, and with nothing in a picture that is new each time."""
    library = needed("matplotlib", "plot")
    library.use("Agg")
    library.rcParams.update({"svg.hashsalt": "sefwllon", "figure.figsize": (6.4, 4.4), "figure.dpi": 100, "font.size": 10, "axes.grid": True})
    return needed("matplotlib.pyplot", "plot")


def plots(rows: Sequence[Seen], folder: Path) -> list[str]:
    """Draws all pictures that there are rows for. Gives their names."""
    plt = pyplot()
    drawn = [cactus(plt, rows, folder), gap_over_time(plt, rows, folder), messages_over_size(plt, rows, folder)]
    drawn += [against(plt, rows, *pair, folder) for pair in list(combinations(methods_of(rows), 2))[:MOST_PAIRS]]
    return [name for name in drawn if name]


def kept(plt: Any, figure: Any, axes: Any, folder: Path, name: str, legend: bool = True) -> str:
    """Writes a picture as SVG and as PNG."""
    if legend:
        axes.legend(fontsize=8)
    figure.tight_layout()
    try:
        figure.savefig(folder / f"{name}.svg", metadata={"Date": None})
        figure.savefig(folder / f"{name}.png", metadata={"Software": None})
    except OSError as fault:
        raise Trouble(f"{folder / name} can't be written: {fault.strerror}") from None
    finally:
        plt.close(figure)
    return name


def seconds_of(row: Seen) -> float:
    return max(LEAST_SECONDS, row.numbers.get("seconds", 0.0))


def marked(rows: Sequence[Seen]) -> list[tuple[str, str, list[Seen]]]:
    """Each method with its marker and its rows."""
    methods = methods_of(rows)
    return [(method, MARKERS[at % len(MARKERS)], [row for row in rows if row.method == method]) for at, method in enumerate(methods)]


def cactus(plt: Any, rows: Sequence[Seen], folder: Path) -> str:
    """How many runs were solved within which time."""
    if not any(row.solved for row in rows):
        return ""
    figure, axes = plt.subplots()
    for method, marker, own in marked(rows):
        taken = sorted(seconds_of(row) for row in own if row.solved)
        axes.plot(range(1, len(taken) + 1), taken, marker=marker, markersize=3, label=f"{method} ({len(taken)} of {len(own)})")
    axes.set(yscale="log", xlabel="problems solved", ylabel="processor time of each, s")
    return kept(plt, figure, axes, folder, "cactus")


def gap_over_time(plt: Any, rows: Sequence[Seen], folder: Path) -> str:
    """The mean gap over time."""
    times = sorted(at for row in rows for at, _ in row.moments)
    if not times:
        return ""
    least, most = max(LEAST_SECONDS, times[0]), max(2 * LEAST_SECONDS, times[-1], *(seconds_of(row) for row in rows))
    grid = [least * (most / least) ** (at / POINTS) for at in range(POINTS + 1)]
    figure, axes = plt.subplots()
    for method, _, own in marked(rows):
        axes.plot(grid, [100 * mean(row.gap(at) for row in own) for at in grid], drawstyle="steps-post", label=method)
    axes.set(xscale="log", xlabel="processor time, s", ylabel="mean gap between cost and bound, %", ylim=(-2, 102))
    return kept(plt, figure, axes, folder, "gap")


def messages_over_size(plt: Any, rows: Sequence[Seen], folder: Path) -> str:
    """How many messages the agents took, over the number of variables."""
    told = [row for row in rows if row.solved and row.numbers.get("messages") and "variables" in row.numbers]
    if not told:
        return ""
    figure, axes = plt.subplots()
    for method, marker, own in marked(told):
        sizes = sorted({row.numbers["variables"] for row in own})
        means = [mean(row.numbers["messages"] for row in own if row.numbers["variables"] == size) for size in sizes]
        (line,) = axes.plot(sizes, means, marker=marker, markersize=4, label=f"{method}, mean of solved")
        axes.plot([row.numbers["variables"] for row in own], [row.numbers["messages"] for row in own], ".", color=line.get_color(), alpha=0.4)
    axes.set(yscale="log", xlabel="variables", ylabel="messages")
    return kept(plt, figure, axes, folder, "messages")


def against(plt: Any, rows: Sequence[Seen], one: str, other: str, folder: Path) -> str:
    """The time of one method over that of another, for each problem; what was not solved stands at the edge."""
    first = {row.checksum: row for row in rows if row.method == one}
    second = {row.checksum: row for row in rows if row.method == other}
    both = [(first[it], second[it]) for it in first if it in second and (first[it].solved or second[it].solved)]
    if not both:
        return ""
    edge = 2 * max(max(row.numbers.get("time", 0.0) for row in rows), *(seconds_of(row) for pair in both for row in pair))
    figure, axes = plt.subplots()
    places = [[seconds_of(row) if row.solved else edge for row in pair] for pair in both]
    least = min(min(place) for place in places) / 2
    axes.plot([least, edge], [least, edge], color="grey", linewidth=0.8)
    axes.plot([x for x, _ in places], [y for _, y in places], "o", markersize=4, alpha=0.6)
    for line in (axes.axvline, axes.axhline):
        line(edge, color="grey", linestyle=":", linewidth=0.8)
    axes.set(xscale="log", yscale="log", xlabel=f"{one}, processor time, s", ylabel=f"{other}, processor time, s")
    axes.set_title("dotted: not solved", fontsize=8)
    return kept(plt, figure, axes, folder, f"against-{plain(one)}-{plain(other)}", legend=False)


def plain(method: str) -> str:
    """A method's words as a part of a file's name."""
    return re.sub(r"[^A-Za-z0-9]+", "-", method)
