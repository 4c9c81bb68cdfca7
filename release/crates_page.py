"""The page of crates: what each is for, what it uses, how many use it, and what its proof takes.

The layers and the libraries come from `crates.txt`, what a crate is for is the first sentence of its comment, and the seconds are those of
`docs/data/times.toml`, which `bench/gate.py` prints.
"""

from __future__ import annotations

import tomllib
from typing import Any

from . import words
from .markdown import MADE, PAGES, Layers, cell, first_sentence
from .programs import TOP, below

PAGE = PAGES / "crates.md"
TIMES = TOP / "docs" / "data" / "times.toml"
HEAD = "| Crate | What it is for | Uses | Used by | Proof, s | Tests, s | All again, min |\n|---|---|---|---|---|---|---|"


def page() -> str:
    """The text of the page."""
    uses = own_libraries()
    above = {crate: {it for it in uses if crate in reached(it, uses)} for crate in uses}
    measured = tomllib.loads(TIMES.read_text())
    seconds, layers = measured["seconds"], Layers()
    aims: dict[str, list[str]] = {}
    for crate in uses:
        aims.setdefault(layers.short(layers.names[crate]), []).append(aim_of(crate))
    listed = words.table({layer: "\n".join(said) for layer, said in aims.items()})
    told = ["# Crates\n", MADE, opening(measured["run"], len(uses)), *listed[:-1]]
    for crate in uses:
        if heading := layers.heading(crate):
            told += ["", *heading, HEAD]
        again = sum(spent(seconds, it) for it in {crate, *above[crate]}) / 60
        times = f"{shown(seconds, crate, 'proof')} | {shown(seconds, crate, 'tests')} | {again:.0f}"
        told.append(f"| {crate} | {cell(aim_of(crate))} | {', '.join(direct(crate, uses))} | {len(above[crate])} | {times} |")
    return "\n".join(told) + "\n"


def opening(run: dict[str, Any], count: int) -> str:
    """What the page begins with."""
    return (
        f"The {count} crates, the lowest layer first. A crate uses only crates that come earlier on this page. \"Uses\" leaves out a crate "
        "that another crate named there uses. \"Used by\" counts the crates that use it, directly or through others.\n\n"
        "\"Proof\" is the processor time, in seconds, for proving a crate and building its library or program. \"Tests\" is that for its tests. "
        "\"All again\" is the processor time, in minutes, for a crate and all that use it: what a change of the crate can take. A dash means that "
        "there are no tests, or that the crate was not measured.\n\n"
        "The trusted edge is code that calls code outside of the proofs. These calls must be trusted; what sockets carry need not be.\n\n"
        f"{run['says']}\n"
    )


def own_libraries() -> dict[str, list[str]]:
    """Each crate, with the crates of the repository that it uses."""
    known = below()
    return {crate: [it for it in uses if it in known] for crate, uses in known.items()}


def reached(crate: str, uses: dict[str, list[str]]) -> set[str]:
    """All crates that a crate uses, also through others."""
    found, left = set[str](), list(uses[crate])
    while left:
        it = left.pop()
        if it not in found:
            found.add(it)
            left += uses[it]
    return found


def direct(crate: str, uses: dict[str, list[str]]) -> list[str]:
    """What a crate uses, without what others of these use."""
    own = uses[crate]
    lower = {it for other in own for it in reached(other, uses)}
    return [it for it in own if it not in lower]


def aim_of(crate: str) -> str:
    """What a crate is for."""
    folder = TOP / "crates" / crate / "src"
    source = next(path for path in (folder / "lib.rt", folder / "main.rt") if path.is_file())
    comment = [line.removeprefix("//!").strip() for line in source.read_text().splitlines() if line.startswith("//!")]
    return first_sentence(comment)


def spent(seconds: dict[str, dict[str, int]], crate: str) -> int:
    """The seconds of a crate's proof and tests."""
    measured = seconds.get(crate, {})
    return measured.get("proof", 0) + measured.get("tests", 0)


def shown(seconds: dict[str, dict[str, int]], crate: str, part: str) -> str:
    return str(seconds.get(crate, {}).get(part, "–"))
