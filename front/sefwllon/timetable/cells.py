"""A CSV as spreadsheets write it: its rows of cells, each with its line.

The cells stand between commas, semicolons or tabs, whichever the lines of a file have behind their first word. The line ends are those of any
system. A cell that holds a separator stands in quotes, and a quote within it is doubled; a quote anywhere else is a fault, and so is
one that is not closed on its line, which would make the next lines part of a name.
"""

from __future__ import annotations

import csv
import re
from collections import Counter
from collections.abc import Collection
from dataclasses import dataclass

from ..problem import Trouble

MARKS = {",": "commas", ";": "semicolons", "\t": "tabs"}
"""What may stand between cells, and how that is told."""
_FIRST = re.compile(r'\s*(?:"([^"]*)"|([^",;\t]*))\s*([,;\t])')
_MOST_SHOWN = 30
_LONGEST = 120


@dataclass(frozen=True)
class Row:
    """A line that has cells: its number, the cells, and the line itself."""

    number: int
    cells: list[str]
    text: str


class Faults(Trouble):
    """All that is wrong with a file, each with its line."""

    def __init__(self, found: dict[int, list[str]], lines: list[str]):
        self.found = found
        told = [told_at(number, why, lines) for number, whys in sorted(found.items()) for why in dict.fromkeys(whys)]
        more = len(told) - _MOST_SHOWN
        super().__init__("\n".join([*told[:_MOST_SHOWN], *([f"and {more} more"] if more > 0 else [])]))


def told_at(number: int, why: str, lines: list[str]) -> str:
    """A fault with its line, as it stands in the file; line 0 is the file as a whole."""
    if not number:
        return why
    line = lines[number - 1].strip() if number <= len(lines) else ""
    return f"line {number}: {why} (`{line[:_LONGEST]}`)"


def lines_of(text: str) -> list[str]:
    """The lines of a text, whatever system wrote it."""
    return text.lstrip("\ufeff").replace("\r\n", "\n").replace("\r", "\n").split("\n")


def word_of(cell: str) -> str:
    """The first cell of a line as a word: `Same day` is `sameday`."""
    return re.sub(r"[\s_-]", "", cell).lower()


def mark_of(lines: list[str], words: Collection[str]) -> str:
    """What stands between the cells of most lines that begin with one of these words."""
    told = re.fullmatch(r"sep=([,;\t])", lines[0].strip(" ").lower())
    if told:
        return told[1]
    marks: Counter[str] = Counter()
    for line in lines:
        first = _FIRST.match(line)
        if first and word_of(first[1] or first[2] or "") in words:
            marks[first[3]] += 1
    return max(MARKS, key=lambda mark: marks[mark])


def rows_of(lines: list[str], words: Collection[str], faults: dict[int, list[str]]) -> tuple[list[Row], str]:
    """The lines that have cells, and what stands between these; what is wrong with a line goes to the faults."""
    mark, rows = mark_of(lines, words), []
    for number, line in enumerate(lines, 1):
        if line.lstrip(" \"").startswith("#") or not line.strip() or (number == 1 and line.lower().startswith("sep=")):
            continue
        try:
            cells = cells_of(line, mark, words)
        except Trouble as trouble:
            faults.setdefault(number, []).append(str(trouble))
            continue
        if cells:
            rows.append(Row(number, cells, line))
    return rows, mark


def cells_of(line: str, mark: str, words: Collection[str]) -> list[str]:
    """The cells of a line, without empty ones at its end."""
    first = _FIRST.match(line)
    if first and first[3] != mark and word_of(first[1] or first[2] or "") in words:
        raise Trouble(f"its cells are separated by {MARKS[first[3]]}, but those of the other lines by {MARKS[mark]}: use the same in all lines")
    check_quotes(line, mark)
    cells = [" ".join(cell.split()) for cell in next(csv.reader([line], delimiter=mark, strict=True, skipinitialspace=True))]
    while cells and not cells[-1]:
        cells.pop()
    return cells


def check_quotes(line: str, mark: str) -> None:
    """Raises where a quote is not closed, or stands where none can."""
    at, size = 0, len(line)
    while at <= size:
        while at < size and line[at] == " ":
            at += 1
        if at < size and line[at] == '"':
            at = closed(line, at + 1)
            while at < size and line[at] == " ":
                at += 1
            if at < size and line[at] != mark:
                raise Trouble(f"`{line[at:][:20].strip()}` follows a closing quote: a quote inside a name is written twice, as \"\"")
        else:
            end = line.find(mark, at)
            cell = line[at : size if end < 0 else end]
            if '"' in cell:
                raise Trouble(f"there is a quote inside the cell `{cell.strip()[:40]}`: leave it out, or put the cell in quotes and write the quote inside twice, as \"\"")
            at += len(cell)
        at += 1


def closed(line: str, at: int) -> int:
    """The place behind the quote that closes the one before this place."""
    while True:
        end = line.find('"', at)
        if end < 0:
            raise Trouble("a quote is opened and not closed on its line, so the next lines would be part of the name: close the quote, or leave it out")
        if line[end + 1 : end + 2] != '"':
            return end + 1
        at = end + 2
