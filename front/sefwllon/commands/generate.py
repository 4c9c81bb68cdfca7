"""`sefwllon generate`: problems from numbers, into a folder."""

from __future__ import annotations

import argparse
from pathlib import Path

from ..arguments import Commands, natural
from ..lab.generators import KINDS, Kind, made
from ..output import say, write
from ..problem import Trouble
from ..telling import SOLVED, TEXT


def add(commands: Commands) -> None:
    generate = commands.add_parser(
        "generate",
        help="make random problems, of the kinds that papers use to compare methods",
        description="Writes problems of a kind into a folder, as files of dcop. The same command writes the same files. The graphs are made "
        "by networkx (Debian's python3-networkx).",
    )
    kinds = generate.add_subparsers(title="kinds", required=True, metavar="KIND")
    for kind in KINDS.values():
        add_kind(kinds.add_parser(kind.name, help=kind.says, description=f"Makes problems in which {kind.says}."), kind)


def add_kind(command: argparse.ArgumentParser, kind: Kind) -> None:
    for number in kind.numbers:
        if number.usual is False:
            command.add_argument(f"--{number.name}", action="store_true", help=number.says)
            continue
        usual = "..".join(map(str, number.usual)) if isinstance(number.usual, tuple) else number.usual
        words = {"metavar": "A..B" if isinstance(number.usual, tuple) else "N"}
        command.add_argument(f"--{number.name}", type=number.read, default=number.usual, help=f"{number.says} ({usual})", **words)
    command.add_argument("--seed", type=natural, default=0, metavar="N", help="the number from which the problems are made (0)")
    command.add_argument("--count", type=natural, default=1, metavar="N", help="how many problems (1)")
    command.add_argument("-o", "--out", default=".", metavar="FOLDER", help="the folder for the files (the current one)")
    command.set_defaults(run=run, kind=kind)


def run(options: argparse.Namespace) -> int:
    kind, folder = options.kind, Path(options.out)
    try:
        folder.mkdir(parents=True, exist_ok=True)
    except OSError as fault:
        raise Trouble(f"the folder {folder} can't be made: {fault.strerror}") from None
    for at in range(options.count):
        put(folder / f"{kind.name}-{options.seed}-{at:04}.dcop", made(kind, options, options.seed, at).text())
    return SOLVED if say(f"{options.count} problem{'' if options.count == 1 else 's'} in {folder}\n") else TEXT


def put(path: Path, text: str) -> None:
    """Writes a problem; another one that stands there is kept."""
    try:
        if path.exists() and path.read_bytes() != text.encode():
            raise Trouble(f"{path} exists already and has another problem: name another folder by -o, or delete the file")
    except OSError as fault:
        raise Trouble(f"{path} can't be read: {fault.strerror}") from None
    write(str(path), text)
