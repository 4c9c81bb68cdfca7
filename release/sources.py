"""The definitions and the public calls of the repository, read from the sources.

A definition's sentence is the comment above it in `specs/`, a call's sentence the first one of its doc comment.
"""

from __future__ import annotations

import re
from collections.abc import Iterator
from dataclasses import dataclass, field
from functools import cached_property
from pathlib import Path

from .markdown import first_sentence
from .programs import TOP, below

DECLARED = re.compile(r"^ *(?:pub (?:record|data)|abbrev pub) ([^ :]+)")
USED = re.compile(r"\buse (Rattle\.\w+\.specs[\w.]*)\.\{([^}]*)\}")
NAME = re.compile(r"[^\W\d]\w*")
CLAUSE = re.compile(r"^\s*(requires|ensures)\s*(\w+)?\s*\{")
NUMBER = re.compile(r"^\s*(\w+) = (\d+)$", re.MULTILINE)


@dataclass(frozen=True)
class Key:
    """A definition: its module below `Rattle`, and its name."""

    module: str
    name: str


@dataclass
class Definition:
    """What is defined in a file of `specs/`."""

    key: Key
    crate: str
    path: Path
    line: int
    sentence: str
    cites: set[Key] = field(default_factory=set)


@dataclass
class Call:
    """A public function, with the clauses of its contract."""

    crate: str
    path: Path
    line: int
    name: str
    sentence: str
    clauses: list[tuple[str, str, set[Key]]] = field(default_factory=list)


class Sources:
    """All definitions and all public calls of the repository."""

    def __init__(self) -> None:
        self.crates = list(below())
        self.definitions = {it.key: it for crate in self.crates for it in definitions_of(crate)}
        self.calls = [call for crate in self.crates for call in calls_of(crate)]

    @cached_property
    def cited(self) -> set[Key]:
        """The definitions that a clause of a public call cites, and those on which these rest."""
        left = [key for call in self.calls for _, _, keys in call.clauses for key in keys]
        found: set[Key] = set()
        while left:
            key = left.pop()
            if key in self.definitions and key not in found:
                found.add(key)
                left += self.definitions[key].cites
        return found


def definitions_of(crate: str) -> Iterator[Definition]:
    for path in sorted((TOP / "crates" / crate / "specs").glob("**/*.antt")):
        if path.name != "Lib.antt":
            yield from definitions_in(crate, path)


def definitions_in(crate: str, path: Path) -> Iterator[Definition]:
    """The definitions of a file. One without a comment belongs to the one above it, as a further case or a part."""
    text = path.read_text()
    inside = ".".join(path.relative_to(TOP / "crates" / crate / "specs").with_suffix("").parts)
    module = f"Rattle.{crate}.specs.{inside}"
    names = imports(text)
    numbers = {name: f" ({int(number):,})" for name, number in NUMBER.findall(text)}
    lines = text.splitlines()
    found: list[Definition] = []
    comment: list[str] = []
    for number, line in enumerate(lines, 1):
        bare = line.strip()
        if bare.startswith("--"):
            comment.append(bare.removeprefix("--").strip())
            continue
        declared = DECLARED.match(line)
        if declared:
            found.append(Definition(Key(module, declared[1]), crate, path, number, " ".join(comment) + numbers.get(declared[1], "")))
            names[declared[1]] = found[-1].key
        if found and not bare.startswith(("use ", "module ")):
            found[-1].cites |= {names[name] for name in NAME.findall(line) if name in names} - {found[-1].key}
        comment = []
    yield from found


def imports(text: str) -> dict[str, Key]:
    """The names that a file takes from `specs/` of crates, each with what it means there."""
    found: dict[str, Key] = {}
    for module, inner in USED.findall(text):
        for name in inner.split(","):
            theirs, _, ours = name.strip().partition(" as ")
            found[(ours or theirs).strip()] = Key(module, theirs.strip())
    return found


def calls_of(crate: str) -> Iterator[Call]:
    for path in sorted((TOP / "crates" / crate / "src").glob("**/*.rt")):
        yield from calls_in(crate, path)


def calls_in(crate: str, path: Path) -> Iterator[Call]:
    """The public functions of a file, and those of its public traits, each with its clauses."""
    text = path.read_text()
    names = imports(text)
    lines = text.splitlines()
    comment: list[str] = []
    within, is_trait = "", False
    number = 0
    while number < len(lines):
        line = lines[number]
        bare = line.strip()
        number += 1
        if bare.startswith("///"):
            comment.append(bare.removeprefix("///").strip())
            continue
        if bare.startswith("#["):
            continue
        opened = re.match(r"(pub trait|impl)\b(?:<[^>]*>)?\s*(?:\w+(?:<[^>]*>)? for )?(\w+)", line)
        if opened:
            within, is_trait = opened[2], opened[1] == "pub trait"
        elif line.startswith("}"):
            within, is_trait = "", False
        named = re.match(r"\s*(?:pub )?(?:unsafe )?fn (\w+)", line)
        if named and (bare.startswith("pub ") or is_trait):
            place, clauses, number = number, [], after_head(lines, number - 1)
            while number < len(lines) and (opened_clause := CLAUSE.match(lines[number])):
                told, number = clause(lines, number)
                clauses.append((opened_clause[1], opened_clause[2] or "", {names[it] for it in NAME.findall(told) if it in names}))
            name = f"{within}::{named[1]}" if within else named[1]
            yield Call(crate, path, place, name, first_sentence(comment), clauses)
        comment = []


def after_head(lines: list[str], number: int) -> int:
    """The first line behind a function's head: a clause, or what follows where there is none."""
    while number < len(lines) and not CLAUSE.match(lines[number]):
        number += 1
        if lines[number - 1].rstrip().endswith(("{", "}", ";")):
            break
    return number


def clause(lines: list[str], number: int) -> tuple[str, int]:
    """A clause's text, and the line behind it."""
    depth, told = 0, []
    while number < len(lines):
        depth += lines[number].count("{") - lines[number].count("}")
        told.append(lines[number])
        number += 1
        if depth <= 0:
            break
    return "\n".join(told), number
