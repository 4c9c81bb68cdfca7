"""The words that made pages explain, from `docs/data/words.toml`: a page lists those that occur in its sentences, each by the layer that uses it."""

from __future__ import annotations

import re
import tomllib
from dataclasses import dataclass

from .markdown import cell
from .programs import TOP

DATA = TOP / "docs" / "data" / "words.toml"
HEAD = "| Word | Means |\n|---|---|"
NAMED = re.compile(r"`[^`]*`|\[[^\]]*\](?:\([^)]*\)|\[\w+\])")
"""Names and links of a page, in which no words are looked for."""


@dataclass(frozen=True)
class Word:
    """A word, what it means, its forms, and the layers that use it so; none if all do."""

    word: str
    means: str
    forms: list[str]
    layers: list[str]

    def occurs(self, layer: str, text: str) -> bool:
        """Whether a form of the word is in this text of a layer, small or with a capital letter."""
        forms = "|".join(f"[{it[0].upper()}{it[0]}]{re.escape(it[1:])}" for it in self.forms)
        told = NAMED.sub("", text)
        return (not self.layers or layer in self.layers) and re.search(rf"(?<![\w-])(?:{forms})(?![\w-])", told) is not None


def words() -> list[Word]:
    rows = tomllib.loads(DATA.read_text())["word"]
    return [Word(it["word"], it["means"], it.get("forms", [it["word"], f"{it['word']}s"]), it.get("layers", [])) for it in rows]


def table(texts: dict[str, str]) -> list[str]:
    """The table of the words that occur in these texts of layers, if there are any."""
    found = [it for it in words() if any(it.occurs(layer, text) for layer, text in texts.items())]
    rows = [f"| {it.word} | {cell(it.means)} |" for it in sorted(found, key=lambda it: it.word)]
    return ["Words on this page:\n", HEAD, *rows, ""] if rows else []
