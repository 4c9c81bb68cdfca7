"""The file of results: a line for each run, appended as it comes, and what is in it already."""

from __future__ import annotations

import csv
import fcntl
import io
import os
from collections import Counter
from collections.abc import Iterable, Mapping
from contextlib import suppress
from types import TracebackType

from ..problem import Trouble
from .figures import COLUMNS as FIGURES

COLUMNS = (
    "file",
    "checksum",
    "method",
    "time",
    "variables",
    "goal",
    "status",
    "cost",
    "lower",
    "upper",
    "gap",
    "seconds",
    "elapsed",
    "megabytes",
    "exit",
    "nodes",
    *FIGURES,
    "bounds",
    "why",
    "host",
    "versions",
)
"""The columns of a file of results."""

KEY = ("checksum", "method", "time", "versions")
"""What a run is known by: if it is done already, it is not done again."""

Key = tuple[str, ...]


def line_of(cells: Iterable[object]) -> str:
    """A line of CSV. Cells have no line ends, so that each row is one line."""
    out = io.StringIO()
    csv.writer(out, lineterminator="\n").writerow(["" if it is None else " ".join(str(it).split("\n")) for it in cells])
    return out.getvalue().replace("\r", " ")


def key_of(row: Mapping[str, object]) -> Key:
    return tuple(str(row[name]) for name in KEY)


def read_rows(name: str) -> list[dict[str, str]]:
    """The rows of a file of results. A last line without its end was cut short, and is passed over."""
    try:
        with open(name, encoding="utf-8", newline="") as file:
            text = file.read()
    except OSError as fault:
        raise Trouble(f"{name} can't be read: {fault.strerror}") from None
    except UnicodeDecodeError:
        raise Trouble(f"{name} is not a file of results of `sefwllon sweep`: it is not UTF-8 text") from None
    return parsed(name, text[: text.rfind("\n") + 1])


def parsed(name: str, text: str) -> list[dict[str, str]]:
    """The rows of a text, or a sentence that says in which line it is no file of results."""
    lines = text.split("\n")[:-1]
    if not lines or lines[0] + "\n" != line_of(COLUMNS):
        raise Trouble(f"{name}, line 1: that is not a file of results of `sefwllon sweep`, whose first line begins with {line_of(COLUMNS[:4]).strip()}")
    rows = []
    for number, line in enumerate(lines[1:], 2):
        cells = next(csv.reader([line]), [])
        if len(cells) != len(COLUMNS):
            raise Trouble(f"{name}, line {number}: a row has {len(COLUMNS)} cells, but this one has {len(cells)}")
        rows.append(dict(zip(COLUMNS, cells)))
    return rows


class Results:
    """A file of results that rows are appended to. One sweep at a time has it."""

    def __init__(self, name: str):
        self.name = name
        self.count = 0
        """How many rows were appended."""
        try:
            self.file = os.open(name, os.O_RDWR | os.O_CREAT | os.O_APPEND, 0o666)
        except OSError as fault:
            raise Trouble(f"{name} can't be written: {fault.strerror}") from None
        try:
            self.done = self.begin()
        except BaseException:
            os.close(self.file)
            raise

    def __enter__(self) -> Results:
        return self

    def __exit__(self, kind: type[BaseException] | None, fault: BaseException | None, trace: TracebackType | None) -> None:
        os.close(self.file)

    def begin(self) -> Counter[Key]:
        """Takes the file for this sweep alone, and tells how often each run is in it."""
        try:
            fcntl.flock(self.file, fcntl.LOCK_EX | fcntl.LOCK_NB)
        except OSError:
            raise Trouble(f"another sweep writes to {self.name}: wait until it ends, or name another file") from None
        size = os.fstat(self.file).st_size
        if size == 0:
            self.put(line_of(COLUMNS))
            return Counter()
        rows = read_rows(self.name)
        os.truncate(self.file, whole_bytes(self.file, size))
        return Counter(key_of(row) for row in rows)

    def append(self, row: Mapping[str, object]) -> None:
        """Appends a row, whole or not at all."""
        self.put(line_of(row.get(name) for name in COLUMNS))
        self.count += 1

    def put(self, line: str) -> None:
        data, before = line.encode("utf-8", "backslashreplace"), os.fstat(self.file).st_size
        try:
            written = os.write(self.file, data)
            if written < len(data):
                os.write(self.file, data[written:])
        except OSError as fault:
            with suppress(OSError):
                os.truncate(self.file, before)
            raise Trouble(f"{self.name} can't be written: {fault.strerror}. The rows in it are complete") from None


def whole_bytes(file: int, size: int) -> int:
    """How many bytes of a file are whole lines."""
    at = size
    while at > 0:
        begin = max(0, at - 65536)
        found = os.pread(file, at - begin, begin).rfind(b"\n")
        if found >= 0:
            return begin + found + 1
        at = begin
    return 0
