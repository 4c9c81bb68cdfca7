"""The rows of a sweep, read for pictures and tables."""

from __future__ import annotations

from collections.abc import Sequence
from dataclasses import dataclass

from ..problem import Trouble
from .rows import read_rows

NUMBERS = ("variables", "seconds", "megabytes", "messages", "greatest_util", "time")


@dataclass(frozen=True)
class Seen:
    """A row: what was run, whether it was solved, and its numbers, as far as it has them."""

    file: str
    checksum: str
    method: str
    status: str
    numbers: dict[str, float]
    moments: tuple[tuple[float, float], ...]
    """After how many seconds which gap was known, as a part of the cost."""

    @property
    def solved(self) -> bool:
        return self.status == "solved"

    def gap(self, seconds: float = float("inf")) -> float:
        """The gap that was known then, as a part of the cost; all of it if none was known."""
        known = [gap for at, gap in self.moments if at <= seconds]
        return known[-1] if known else 1.0


def seen(names: Sequence[str]) -> list[Seen]:
    """The rows of files of results."""
    found = []
    for name in names:
        for line, row in enumerate(read_rows(name), 2):
            found.append(one(f"{name}, line {line}", row))
    if not found:
        raise Trouble(f"{', '.join(names)}: there are no rows yet: run `sefwllon sweep` first")
    return found


def one(place: str, row: dict[str, str]) -> Seen:
    numbers = {name: number(place, name, row[name]) for name in NUMBERS if row[name]}
    moments = []
    for told in filter(None, row["bounds"].split("; ")):
        words = told.split()
        if len(words) != 3:
            raise Trouble(f"{place}: bounds has `{told}`, but it must be a time, a cost and a bound")
        at = number(place, "bounds", words[0])
        moments.append((at, 1.0 if "-" in words else part(*(number(place, "bounds", word) for word in words[1:]))))
    return Seen(row["file"], row["checksum"], row["method"], row["status"], numbers, tuple(moments))


def number(place: str, name: str, word: str) -> float:
    try:
        return float(word)
    except ValueError:
        raise Trouble(f"{place}: {name} is `{word}`, which is not a number") from None


def part(cost: float, bound: float) -> float:
    """How far a cost is from a bound, as a part of the greater of both, at most all of it."""
    greatest = max(abs(cost), abs(bound))
    return min(1.0, abs(cost - bound) / greatest) if greatest else 0.0


def methods_of(rows: Sequence[Seen]) -> list[str]:
    """The methods, by name: in which order rows stand follows from which run ended first."""
    return sorted({row.method for row in rows})
