"""What is installed, and where: each file and link below the prefix, by its path there."""

from __future__ import annotations

import json
from collections.abc import Iterator
from dataclasses import dataclass
from pathlib import Path

from sefwllon.pages import PAGES, formats

from . import completion
from .programs import BUILT, PROGRAMS, TOP, UNPROVED, Trouble, built, version
from .roff import manual

HOME = "lib/sefwllon"
"""The folder that is laid out as the clone is, so that `sefwllon` finds there what it finds in a clone."""

DOCS = "share/doc/sefwllon"
DOCUMENTS = ("LICENSE", "NOTICE", "CHANGELOG.md", "README.md")
"""What is put beside the examples, with all of `docs`."""


@dataclass(frozen=True)
class Piece:
    """A file by its bytes, or a link by what it names."""

    data: bytes = b""
    link: str | None = None
    runs: bool = False
    """Whether it is a program."""


@dataclass(frozen=True)
class Places:
    """Where zsh and Python look for what is theirs, below the prefix."""

    zsh: str = "share/zsh/site-functions"
    python: str | None = None
    """The folder of Python's packages, if one is below the prefix."""


def tree(folder: Path, places: Places) -> dict[str, Piece]:
    """All that is installed, with the programs of this folder."""
    found = built(folder)
    lacking = [name for name in ("dcop", "dcop_order", "dcop_search") if name not in found]
    if lacking:
        are = "is" if len(lacking) == 1 else "are"
        raise Trouble(f"{', '.join(lacking)} {are} not in {folder}: `./build` makes the programs, and `./build --quick` makes them without proofs")
    told = dict(programs(found, folder))
    told.update(front(places))
    told.update(manuals(list(found)))
    told.update(completions(list(found), places))
    told.update(editors())
    told.update(documents())
    return dict(sorted(told.items()))


def programs(found: dict[str, Path], folder: Path) -> Iterator[tuple[str, Piece]]:
    """The programs, and by which names they are called."""
    for name, path in found.items():
        yield f"{HOME}/{BUILT.name}/{name}", Piece(path.read_bytes(), runs=True)
        yield f"bin/{name}", Piece(link=f"../{HOME}/{BUILT.name}/{name}")
    if (folder / UNPROVED).is_file():
        yield f"{HOME}/{BUILT.name}/{UNPROVED}", Piece((folder / UNPROVED).read_bytes())


def front(places: Places) -> Iterator[tuple[str, Piece]]:
    """`sefwllon` and its package."""
    yield "bin/sefwllon", Piece(link=f"../{HOME}/front/sefwllon.sh")
    for name in ("sefwllon.sh", "python.sh"):
        yield f"{HOME}/front/{name}", Piece((TOP / "front" / name).read_bytes(), runs=True)
    yield f"{HOME}/VERSION", Piece((TOP / "VERSION").read_bytes())
    yield from copies(TOP / "docs" / "formats", f"{HOME}/docs/formats")
    yield from copies(TOP / "front" / "sefwllon", f"{HOME}/front/sefwllon")
    if places.python:
        up = "/".join(".." for _ in places.python.split("/"))
        yield f"{places.python}/sefwllon", Piece(link=f"{up}/{HOME}/front/sefwllon")


def manuals(names: list[str]) -> Iterator[tuple[str, Piece]]:
    """The pages of the manual."""
    text = formats()
    for page in PAGES:
        if page.name in names:
            yield f"share/man/man{page.section}/{page.name}.{page.section}", Piece(manual(page, text, version()).encode())
    yield "share/man/man1/sefwllon.1", Piece((TOP / "front" / "sefwllon.1").read_bytes())


def completions(names: list[str], places: Places) -> Iterator[tuple[str, Piece]]:
    """What the shells complete."""
    for program in completion.programs([name for name in names if name != "dcop_serve"], formats()):
        yield f"share/bash-completion/completions/{program.name}", Piece(completion.bash(program).encode())
        yield f"{places.zsh}/_{program.name}", Piece(completion.zsh(program).encode())
        yield f"share/fish/vendor_completions.d/{program.name}.fish", Piece(completion.fish(program).encode())


def editors() -> Iterator[tuple[str, Piece]]:
    """How editors colour `.dcop` files."""
    yield from copies(TOP / "release" / "editor" / "vim", "share/vim/vimfiles")
    for path, piece in copies(TOP / "release" / "editor" / "vscode", "share/sefwllon/vscode"):
        if path.endswith("/package.json"):
            told = {**json.loads(piece.data), "version": version()}
            piece = Piece((json.dumps(told, indent=2) + "\n").encode())
        yield path, piece


def documents() -> Iterator[tuple[str, Piece]]:
    """Documents and examples, with the names that they have in the clone."""
    for name in DOCUMENTS:
        yield f"{DOCS}/{name}", Piece((TOP / name).read_bytes())
    yield f"{DOCS}/front/README.md", Piece((TOP / "front" / "README.md").read_bytes())
    for folder in ("docs", "examples", "front/examples"):
        yield from copies(TOP / folder, f"{DOCS}/{folder}")


def copies(folder: Path, to: str) -> Iterator[tuple[str, Piece]]:
    """The files of a folder, without what Python keeps of them."""
    for path in sorted(folder.rglob("*")):
        if path.is_file() and "__pycache__" not in path.parts:
            yield f"{to}/{path.relative_to(folder)}", Piece(path.read_bytes(), runs=bool(path.stat().st_mode & 0o100))
