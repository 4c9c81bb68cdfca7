"""The pages of definitions and of public calls: for each of the two a page for each crate, and one that leads to them.

The page of a crate has a definition if a clause of a public call cites it, or if one that such a clause cites rests on it; others only help
proofs. What a clause cites leads to the page of its crate.
"""

from __future__ import annotations

import re
from collections.abc import Callable
from dataclasses import dataclass
from pathlib import Path

from . import words
from .markdown import MADE, PAGES, Layers, cell
from .programs import TOP
from .sources import Call, Sources

NAVIGATION = TOP / "mkdocs.yml"


@dataclass(frozen=True)
class Kind:
    """Definitions or calls: the folder of their pages, their title, what the first page says, and what it has of a crate, which may be nothing."""

    folder: str
    title: str
    opening: str
    section: Callable[[str, Sources], list[str]]

    @property
    def index(self) -> Path:
        return PAGES / f"{self.folder}.md"

    def page(self, crate: str) -> Path:
        return PAGES / self.folder / f"{crate}.md"


def definitions_of(crate: str, sources: Sources) -> list[str]:
    own = [it for it in sources.definitions.values() if it.crate == crate]
    shown = [it for it in own if it.key in sources.cited]
    if not shown:
        return []
    told = ["| Definition | In words | File |", "|---|---|---|"]
    told += [f"| `{it.key.name}` | {cell(it.sentence)} | {link(it.path, it.line)} |" for it in shown if it.sentence]
    told.append("")
    parts = [it.key.name for it in shown if not it.sentence]
    if parts:
        told.append(f"Cited too, each with the sentence of the definition above it in its file: {', '.join(f'`{name}`' for name in parts)}.\n")
    rest = [it.key.name for it in own if it.key not in sources.cited]
    if rest:
        told.append(f"Cited by no clause of a public call: {', '.join(f'`{name}`' for name in rest)}.\n")
    return told


def calls_of(crate: str, sources: Sources) -> list[str]:
    own = [call for call in sources.calls if call.crate == crate and any(kind == "ensures" for kind, _, _ in call.clauses)]
    if not own:
        return []
    rows = [f"| `{call.name}` | {cell(call.sentence)} | {clauses_cell(call, sources)} | {link(call.path, call.line)} |" for call in own]
    return ["| Call | What it does | Clauses | File |", "|---|---|---|---|", *rows, ""]


def clauses_cell(call: Call, sources: Sources) -> str:
    told = []
    for kind, name, keys in call.clauses:
        if kind == "ensures":
            cited = sorted((key.name, sources.definitions[key].crate) for key in keys if key in sources.definitions)
            told.append(f"`{name or 'ensures'}`" + (f" ({', '.join(f'[`{it}`][{crate}]' for it, crate in cited)})" if cited else ""))
    return ", ".join(told)


def link(path: Path, line: int) -> str:
    return f"[{path.name}:{line}](../../../{path.relative_to(TOP).as_posix()}#L{line})"


DEFINITIONS = Kind(
    "definitions",
    "Definitions",
    "A clause is what is proved of a public call. The pages below have each definition that a clause cites, and each that such a definition rests on, with "
    "its sentence, file and line; other definitions are only named, below the table of their crate. The sentence is short; if it differs from the file, the "
    "file decides. Numbers are natural numbers without an upper limit, and each list type of the code is a plain list.",
    definitions_of,
)
CALLS = Kind(
    "calls",
    "Public calls",
    "The pages below have each public call with the first sentence of its comment, and the names of its clauses (what is "
    "[proved](../assurance/reading.md) of it), each with the definitions that it cites. A clause without a name is shown as `ensures`.",
    calls_of,
)


def pages(sources: Sources) -> dict[Path, str]:
    """The text of each page, and of the navigation of the site, which has them."""
    layers, navigation = Layers(), NAVIGATION.read_text()
    made: dict[Path, str] = {}
    for kind in (DEFINITIONS, CALLS):
        sections = {crate: told for crate in sources.crates if (told := kind.section(crate, sources))}
        by_layer: dict[str, list[str]] = {}
        for crate in sections:
            by_layer.setdefault(layers.names[crate], []).append(crate)
        index = [f"# {kind.title}\n", MADE, f"{kind.opening}\n", "Each crate has a page. The lowest layer of crates comes first:\n"]
        entries = [f"- All {kind.title.lower()}: {inside(kind.index)}"]
        for layer, crates in by_layer.items():
            index.append(f"- {layer}: {', '.join(f'[{crate}]({kind.folder}/{crate}.md)' for crate in crates)}")
            entries += [f"- {layer}:", *(f"    - {crate}: {inside(kind.page(crate))}" for crate in crates)]
        made |= {kind.page(crate): crate_page(kind, crate, layers, section) for crate, section in sections.items()}
        made[kind.index] = "\n".join(index) + "\n"
        navigation = with_entries(navigation, kind.title, entries)
    return made | {NAVIGATION: navigation}


def crate_page(kind: Kind, crate: str, layers: Layers, section: list[str]) -> str:
    """The page of a crate, which begins with the words that occur on it, and ends with where the crates are described that it refers to."""
    layer = layers.names[crate]
    back = f"[All {kind.title.lower()}](../{kind.folder}.md) says how to read this page."
    told = [f"# {kind.title} of {crate}\n", MADE, f"A crate of the layer \"{layer}\". {back}\n"]
    told += words.table({layers.short(layer): "\n".join(section)})
    told += section
    cited = sorted(set(re.findall(r"`\]\[(\w+)\]", "\n".join(section))))
    told += [f"[{it}]: ../{DEFINITIONS.folder}/{it}.md" for it in cited]
    return "\n".join(told).rstrip("\n") + "\n"


def inside(page: Path) -> str:
    return page.relative_to(TOP).as_posix()


def with_entries(navigation: str, title: str, entries: list[str]) -> str:
    """The navigation with these entries under a title, in place of those that it has."""
    told = "".join(f"          {entry}\n" for entry in entries)
    return re.sub(rf"^(      - {title}:\n)(?: {{10}}.*\n)*", lambda found: f"{found[1]}{told}", navigation, flags=re.MULTILINE)
