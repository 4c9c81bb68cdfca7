"""The few forms of Markdown that the pages of docs/formats have, and how they are printed as plain text."""

from __future__ import annotations

import re
import textwrap
from dataclasses import dataclass
from typing import TypeAlias

WIDTH = 79
"""How wide a page is printed."""
POINT = re.compile(r"(?:-|(?P<number>\d+\.)) ")
"""What a point of a list begins with."""


@dataclass(frozen=True)
class Heading:
    """A title, of level 1 where it is the highest."""

    level: int
    text: str


@dataclass(frozen=True)
class Paragraph:
    text: str


@dataclass(frozen=True)
class Item:
    """A point of a list, with the number that stands before it, if one does."""

    text: str
    number: str = ""


@dataclass(frozen=True)
class Code:
    """Lines that stand as they are."""

    lines: tuple[str, ...]


@dataclass(frozen=True)
class Table:
    """A table: what its columns are called, and its rows."""

    head: tuple[str, ...]
    rows: tuple[tuple[str, ...], ...]

    def label(self, row: tuple[str, ...]) -> str:
        """The first cell of a row, with the name of its column where it is a number."""
        return f"{self.head[0]} {row[0]}" if row[0].isdigit() else row[0]

    def told(self, row: tuple[str, ...]) -> str:
        """What stands behind the first cell of a row, in sentences, each with the name of its column where there are several."""
        behind = [(name, cell) for name, cell in zip(self.head[1:], row[1:], strict=True) if cell]
        if len(self.head) <= 2:
            return " ".join(cell for _, cell in behind)
        return ". ".join(f"{name}: {cell.rstrip('.')}" if name else cell.rstrip(".") for name, cell in behind) + ("." if behind else "")


Block: TypeAlias = Heading | Paragraph | Item | Code | Table


def blocks(text: str) -> list[Block]:
    """The blocks of a Markdown text, in order."""
    found: list[Block] = []
    lines = text.splitlines()
    at = 0
    while at < len(lines):
        line = lines[at]
        if line.startswith("```"):
            end = lines.index("```", at + 1)
            found.append(Code(tuple(lines[at + 1 : end])))
            at = end + 1
        elif line.startswith("#"):
            found.append(Heading(len(line) - len(line.lstrip("#")), line.lstrip("# ")))
            at += 1
        elif not line.strip():
            at += 1
        else:
            end = next((it for it in range(at + 1, len(lines)) if not goes_on(line, lines[it])), len(lines))
            found.append(of_lines(lines[at:end]))
            at = end
    return found


def goes_on(first: str, line: str) -> bool:
    """Whether a line belongs to the block that began with the first one."""
    if not line.strip() or line.startswith(("```", "#")) or POINT.match(line):
        return False
    return line.startswith("|") == first.startswith("|")


def of_lines(lines: list[str]) -> Block:
    """The table, the point or the paragraph of these lines."""
    if lines[0].startswith("|"):
        head, _, *rows = [tuple(cell.strip() for cell in re.split(r"(?<!\\)\|", line.strip()[1:-1])) for line in lines]
        return Table(head, tuple(rows))
    joined = " ".join(line.strip() for line in lines)
    point = POINT.match(joined)
    return Item(joined[point.end() :], point["number"] or "") if point else Paragraph(joined)


def as_text(found: list[Block]) -> str:
    """Blocks as plain text."""
    told: list[str] = []
    for block in found:
        if isinstance(block, Heading):
            told.append(block.text if block.level == 1 else f"  {block.text}")
        elif isinstance(block, Paragraph):
            told.append(wrapped(block.text, 7))
        elif isinstance(block, Item):
            told.append(wrapped(block.text, 7, f"{block.number or '-'} "))
        elif isinstance(block, Code):
            told.append("\n".join(f"           {line}".rstrip() for line in block.lines))
        else:
            told += [f"       {block.label(row)}\n{wrapped(block.told(row), 14)}" if row[0] else wrapped(block.told(row), 14) for row in block.rows]
    return "\n\n".join(told) + "\n"


def wrapped(text: str, indent: int, first: str = "") -> str:
    """A paragraph, so far from the left, with this before its first word, and without the stars of bold words."""
    margin = " " * indent
    return textwrap.fill(
        text.replace("**", ""), WIDTH, initial_indent=margin + first, subsequent_indent=margin + " " * len(first), break_long_words=False, break_on_hyphens=False
    )
