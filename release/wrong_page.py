"""The page of wrong bodies: each edit that the gate tries, with the clause that refuses it, and the names of those that `wrong/try` tries.

What an edit is about is said by `docs/data/wrong-bodies.toml`, since an edit itself has no comment.
"""

from __future__ import annotations

import re
import tomllib

from .markdown import MADE, PAGES, Layers, cell
from .programs import TOP, below

PAGE = PAGES / "wrong-bodies.md"
NAMED = TOP / "docs" / "data" / "wrong-bodies.toml"
OPENING = """A wrong body is an altered piece of code. The checker refuses each of these, since its proof fails. The table names the function that is
refused, and mostly the clause. An edit is the change that makes a wrong body. It is in `crates/CRATE/must-fail`, where the gate tries it, or in
`wrong/CRATE`, where `wrong/try` does ([Wrong bodies](../../CONTRIBUTING.md#wrong-bodies)).
"""


def named() -> dict[str, dict[str, str]]:
    """Each edit of the gate, as CRATE/NAME: what it is about, and what refuses it."""
    found: dict[str, dict[str, str]] = tomllib.loads(NAMED.read_text())
    return found


def page() -> str:
    """The text of the page."""
    told = ["# Wrong bodies\n", MADE, OPENING, *by_the_gate(), "", *set_apart()]
    return "\n".join(told) + "\n"


def by_the_gate() -> list[str]:
    order = list(below())
    rows = sorted(named().items(), key=lambda it: (order.index(it[0].split("/")[0]), it[0]))
    told = ["## Those that the gate tries\n", "| Wrong body | Edit | Refused by |", "|---|---|---|"]
    for key, said in rows:
        crate, name = key.split("/")
        edit = f"[{key}](../../crates/{crate}/must-fail/{name}.edit)"
        told.append(f"| {cell(said['body'])} | {edit} | {cell(linked(crate, said['refused']))} |")
    return told


def linked(crate: str, refused: str) -> str:
    """What refuses an edit, where a function of the crate leads to its line."""
    places = {}
    for path in sorted((TOP / "crates" / crate / "src").glob("**/*.rt")):
        for number, line in enumerate(path.read_text().splitlines(), 1):
            if found := re.match(r"\s*(?:pub(?:\(\w+\))? )?(?:const |unsafe )?fn (\w+)", line):
                places.setdefault(found[1], f"../../{path.relative_to(TOP).as_posix()}#L{number}")
    return re.sub(r"`(\w+)`", lambda it: f"[`{it[1]}`]({places[it[1]]})" if it[1] in places else it[0], refused)


def set_apart() -> list[str]:
    layers = Layers()
    by_layer: dict[str, list[str]] = {}
    for crate in below():
        for edit in sorted((TOP / "wrong" / crate).glob("*.edit")):
            by_layer.setdefault(layers.names[crate], []).append(f"{crate}/{edit.stem}")
    count = sum(len(edits) for edits in by_layer.values())
    rows = [f"| {layer} | {', '.join(edits)} |" for layer, edits in by_layer.items()]
    return [f"## The {count} that `wrong/try` tries\n", "| Layer | Edits |", "|---|---|", *rows]
