"""The page docs/reference/measurements.md, from `docs/data/benchmarks.toml`: so a new measurement changes data alone."""

from __future__ import annotations

import tomllib
from typing import Any

from .markdown import MADE, PAGES, cell
from .programs import TOP

PAGE = PAGES / "measurements.md"
DATA = TOP / "docs" / "data" / "benchmarks.toml"
OPENING = """Each row is a script of `bench/`. The comment at the head of a script says what it does. The machine has four processors (Intel Xeon,
2.50 GHz) and Debian 12. Goals were set before measuring.

If a row compares speeds, 1.25 times means faster than the other program. If it compares times, 1.25 times means slower.

| "How" | Meaning |
|---|---|
| proved | the program with its proofs |
| unproved | the same code, built by `./build --quick` |
| neither of these | the script called the crates directly |
| alone | nothing else ran |
| light | the load was at most 2.5 |
| busy | much work of our own (provers) ran too |
| shared | work of other users took processor time |
| none of these four | there was little other work, or it was not recorded |
| old | an earlier version of the code was measured |
"""
HEAD = "| What it measures | Result | Goal | How | Why it misses | Script |\n|---|---|---|---|---|---|"


def page() -> str:
    """The text of the page: a table for each part."""
    told = ["# Measurements\n", MADE, OPENING]
    for part in tomllib.loads(DATA.read_text())["part"]:
        told += [f"## {part['title']}\n", HEAD, *(row_of(row) for row in part["row"]), ""]
    return "\n".join(told)


def row_of(row: dict[str, Any]) -> str:
    """A row; the goal says whether it is met."""
    goal = f"{row['goal']}: {'met' if row['met'] else 'not met'}" if "goal" in row else ""
    cells = [row["what"], row["result"], goal, row["how"], row.get("bound", ""), f"`{row['script']}`"]
    return f"| {' | '.join(cell(it) for it in cells)} |"
