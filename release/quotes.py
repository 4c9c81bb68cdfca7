"""Texts of the sources that a page quotes: they stand between a comment that names them and the end of their block."""

from __future__ import annotations

import re
from textwrap import dedent

from .programs import TOP

QUOTED = re.compile(r"(<!-- Quoted by release/reference\.py from (\S+): (\w+)\. -->\n\n?```\n).*?(```\n)", re.DOTALL)
"""A quotation: the file, the name of a clause or of a definition in it, and its block."""


def page(text: str) -> str:
    """The page with each quotation as the sources have it; a name that its file does not have is an error."""
    return QUOTED.sub(lambda found: f"{found[1]}{quotation(found[2], found[3])}\n{found[4]}", text)


def quotation(path: str, name: str) -> str:
    """A clause of a call from its `ensures` to its last line, or a definition with the comment above it."""
    lines = (TOP / path).read_text().splitlines()
    return clause(lines, name) if path.endswith(".rt") else definition(lines, name)


def clause(lines: list[str], name: str) -> str:
    """The first clause with this name."""
    begin = next(number for number, line in enumerate(lines) if re.match(rf" *ensures {name} {{", line))
    depth, end = 0, begin
    while depth > 0 or end == begin:
        depth += lines[end].count("{") - lines[end].count("}")
        end += 1
    return dedent("\n".join(lines[begin:end]))


def definition(lines: list[str], name: str) -> str:
    """The definition with this name, up to the next empty line."""
    begin = next(number for number, line in enumerate(lines) if re.match(rf"(?:pub (?:record|data)|abbrev pub) {name}\b", line))
    end = next((number for number in range(begin, len(lines)) if not lines[number].strip()), len(lines))
    while begin > 0 and lines[begin - 1].startswith("--"):
        begin -= 1
    return "\n".join(lines[begin:end])
