"""Files that a command reads and writes: texts, and problems of every kind."""

from __future__ import annotations

import sys
from importlib import import_module
from pathlib import Path

from .problem import MOST_BYTES, TextFault, Trouble, parse
from .programs import Programs
from .solving import refusal
from .source import Source
from .translate import Translation, plain, translate

READERS = {
    "pydcop": ("pydcop", "read"),
    "meetings": ("timetable", "read_source"),
    "wcsp": ("wcsp", "read_wcsp"),
    "uai": ("wcsp", "read_uai"),
    "frodo": ("frodo", "read"),
}
"""What reads a file of another tool, by its kind: a module, which is imported once it is needed, and a function of it."""

KINDS = {".yaml": "pydcop", ".yml": "pydcop", ".csv": "meetings", ".wcsp": "wcsp", ".uai": "uai", ".xml": "frodo", ".xcsp": "frodo"}
"""Which kind a file is of, by how its name ends."""


def read_text(name: str) -> str:
    try:
        data = sys.stdin.buffer.read() if name == "-" else Path(name).read_bytes()
    except OSError as fault:
        raise Trouble(f"{name} can't be read: {fault.strerror}") from None
    if len(data) > MOST_BYTES:
        raise Trouble(f"{name} is longer than 2^28 bytes, which is the limit")
    if data[:2] in (b"\xff\xfe", b"\xfe\xff"):
        raise Trouble(f"{name} is UTF-16 text: save it as UTF-8")
    try:
        return data.decode("utf-8")
    except UnicodeDecodeError as fault:
        if Path(name).suffix.lower() in KINDS:
            line = data[: fault.start].count(b"\n") + 1
            raise Trouble(f"{name} is not UTF-8 text from line {line} on: save it as UTF-8") from None
        return data.decode("utf-8", "replace")


def read(kind: str, text: str, title: str) -> Source:
    """The problem of another tool's file, as its user wrote it."""
    module, function = READERS[kind]
    source: Source = getattr(import_module(f".{module}", __package__), function)(text, title)
    return source


def load(name: str, text: str, programs: Programs | None = None) -> Translation:
    """The problem of a file, whatever its kind."""
    kind = KINDS.get(Path(name).suffix.lower())
    if kind:
        return translate(read(kind, text, Path(name).name))
    try:
        return plain(parse(text))
    except TextFault:
        if programs:
            refuse(programs, text)
        raise


def refuse(programs: Programs, text: str) -> None:
    """Lets dcop itself say what is wrong with a text."""
    answer = programs.run(["upgrade"], text)
    if answer.status not in (0, None):
        raise refusal(answer, "an answer of `dcop upgrade`", text)
