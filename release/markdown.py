"""What the pages that are made from the sources share: their first line, cells of tables, and the layers of crates."""

from __future__ import annotations

import re
from pathlib import Path

from .programs import TOP

PAGES = TOP / "docs" / "reference"
"""Where the made pages are."""
DOC_LINK = re.compile(r"\[(`[^`]+`)\](?:\([\w:]+\))?")
"""A link of a doc comment to another item, which leads nowhere on a page."""
MADE = "<!-- Made by release/reference.py: change the sources and run it again. -->\n"


class Layers:
    """The layers of crates, as the comments of crates.txt name them, for pages that list crates from below."""

    def __init__(self) -> None:
        self.names: dict[str, str] = {}
        self.said: dict[str, str] = {}
        self.last = ""
        layer = ""
        for line in (TOP / "crates.txt").read_text().splitlines():
            if line.startswith("# "):
                heading = line.removeprefix("# ")
                layer = re.split("[:;,]", heading)[0]
                told = heading.removeprefix(f"{layer}: ")
                self.said[layer] = f"{told[0].lower()}{told[1:]}"
            elif ":" in line:
                self.names[line.split(":")[0].split()[0]] = layer

    def heading(self, crate: str) -> list[str]:
        """The heading of a layer, with what the layer is, before the first crate of it that a page has."""
        layer = self.names[crate]
        first = layer != self.last
        self.last = layer
        said = f"{self.said[layer][0].upper()}{self.said[layer][1:]}"
        return [f"## {layer}\n", *([f"{said}.\n"] if said != layer else [])] if first else []

    def short(self, layer: str) -> str:
        """The name of a layer for files: its first words, without those that say only that it is a program."""
        return re.sub(r"^the (program )?| of .*", "", layer.lower()).replace(" ", "-")


def first_sentence(comment: list[str]) -> str:
    """The first sentence of a doc comment, up to its first empty line at most, without its links."""
    told = " ".join(comment).split("  ")[0] if comment else ""
    if "" in comment:
        told = " ".join(comment[: comment.index("")])
    ended = re.match(r".*?[.:!?](?=\s+[A-Z`\[]|$)", told)
    return DOC_LINK.sub(r"\1", ended[0] if ended else told).rstrip(":")


def cell(text: str) -> str:
    return text.replace("|", "\\|")
