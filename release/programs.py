"""The programs, the crates that they stand on, and where they are built."""

from __future__ import annotations

import re
from pathlib import Path

TOP = Path(__file__).resolve().parents[1]
"""The top of the repository."""

PROGRAMS = {
    "dcop": "solve_cli",
    "dcop_order": "dcop_order",
    "dcop_search": "dcop_search",
    "dcop_serve": "serve_cli",
    "dcop_trace": "dcop_trace",
}
"""Each program by its name, with its crate. One whose crate is not in `crates.txt` is left out."""

BUILT = TOP / "built"
"""Where the programs stand once they are built."""

UNPROVED = "UNPROVED"
"""The file beside programs that were compiled without proofs."""


class Trouble(Exception):
    """What keeps a command from its end, in a sentence."""


def below() -> dict[str, list[str]]:
    """Each crate of the repository, with the libraries that it uses."""
    found = {}
    for line in (TOP / "crates.txt").read_text().splitlines():
        name, colon, uses = line.partition("#")[0].partition(":")
        if colon:
            found[name.split()[0]] = uses.split()
    return found


def there() -> dict[str, str]:
    """The programs that this repository has, each with its crate."""
    known = below()
    return {name: crate for name, crate in PROGRAMS.items() if crate in known}


def stood_on(crates: list[str]) -> list[str]:
    """These crates, and all of the repository that they stand on, in the order of `crates.txt`."""
    known, found, left = below(), set[str](), list(crates)
    while left:
        crate = left.pop()
        if crate in known and crate not in found:
            found.add(crate)
            left += known[crate]
    return [crate for crate in known if crate in found]


def built(folder: Path) -> dict[str, Path]:
    """The built programs of a folder."""
    found = {name: folder / name for name in PROGRAMS}
    return {name: path for name, path in found.items() if path.is_file()}


def version() -> str:
    """What the file `VERSION` says."""
    told = (TOP / "VERSION").read_text().strip()
    if not re.fullmatch(r"\d+(\.\d+)*", told):
        raise Trouble(f"{TOP / 'VERSION'} has to have one line, a version of numbers and dots, and says {told!r}")
    return told
