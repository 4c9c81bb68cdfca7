"""The tables of a sweep, as CSV and as LaTeX."""

from __future__ import annotations

from collections.abc import Callable, Sequence
from pathlib import Path
from statistics import mean, median

from ..output import write
from .rows import line_of
from .seen import Seen, methods_of

Cells = list[str]


def figures(rows: Sequence[Seen]) -> Cells:
    """What is told of some rows: how many, how many solved, and means and medians as far as there are numbers."""
    solved = [row for row in rows if row.solved]
    return [
        str(len(rows)),
        str(len(solved)),
        of(median, [row.numbers["seconds"] for row in solved if "seconds" in row.numbers], "{:.3f}"),
        of(mean, [row.numbers["seconds"] for row in solved if "seconds" in row.numbers], "{:.3f}"),
        of(median, [row.numbers["megabytes"] for row in rows if "megabytes" in row.numbers], "{:.1f}"),
        of(mean, [100 * row.gap() for row in rows], "{:.1f}"),
        of(mean, [row.numbers["messages"] for row in solved if "messages" in row.numbers], "{:.0f}"),
        of(max, [row.numbers["greatest_util"] for row in solved if "greatest_util" in row.numbers], "{:.0f}"),
    ]


HEADS = ["runs", "solved", "median s", "mean s", "median MB", "mean gap %", "mean messages", "greatest UTIL"]
"""What `figures` tells: times, messages and tables are of the solved runs."""


def of(what: Callable[[list[float]], float], numbers: list[float], form: str) -> str:
    return form.format(what(numbers)) if numbers else ""


def tables(rows: Sequence[Seen], folder: Path) -> list[str]:
    """Writes a table by method, and one by size and method. Gives their names."""
    methods = methods_of(rows)
    by_method = [[method, *figures([row for row in rows if row.method == method])] for method in methods]
    sizes = sorted({row.numbers["variables"] for row in rows if "variables" in row.numbers})
    by_size = []
    for size in sizes:
        for method in methods:
            own = [row for row in rows if row.method == method and row.numbers.get("variables") == size]
            if own:
                by_size.append([f"{size:.0f}", method, *figures(own)])
    written(folder, "methods", ["method", *HEADS], by_method)
    written(folder, "sizes", ["variables", "method", *HEADS], by_size)
    return ["methods", "sizes"]


def written(folder: Path, name: str, heads: Cells, lines: list[Cells]) -> None:
    """Writes a table as CSV and as LaTeX."""
    write(str(folder / f"{name}.csv"), "".join(line_of(line) for line in [heads, *lines]))
    write(str(folder / f"{name}.tex"), latex(heads, lines))


def latex(heads: Cells, lines: list[Cells]) -> str:
    """A table of LaTeX, without packages: names stand at the left, numbers at the right."""
    names = [at for at, head in enumerate(heads) if head == "method"]
    columns = "".join("l" if at in names else "r" for at in range(len(heads)))
    told = [" & ".join(escaped(cell) for cell in line) + r" \\" for line in lines]
    first = " & ".join(escaped(head) for head in heads) + r" \\"
    return "\n".join([rf"\begin{{tabular}}{{{columns}}}", r"\hline", first, r"\hline", *told, r"\hline", r"\end{tabular}"]) + "\n"


def escaped(cell: str) -> str:
    """A cell, with what means something to LaTeX marked."""
    return "".join(f"\\{letter}" if letter in "%&_#$" else letter for letter in cell)
