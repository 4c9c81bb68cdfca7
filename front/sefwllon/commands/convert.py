"""`sefwllon from` and `sefwllon to`: files of other tools, read and written."""

from __future__ import annotations

import argparse
from pathlib import Path

from ..arguments import Commands
from ..files import READERS, load, read, read_text
from ..output import complain, say
from ..programs import Programs
from ..telling import SOLVED, TEXT
from ..translate import translate
from ..wcsp import write_wcsp
from ..writing import uai_unit, write_pydcop, write_uai


def add(commands: Commands) -> None:
    source = commands.add_parser("from", help="write another tool's file as a problem of dcop")
    source.add_argument("kind", choices=tuple(READERS))
    source.add_argument("file", metavar="FILE")
    source.set_defaults(run=run_from)

    to = commands.add_parser("to", help="write a problem for another tool")
    to.add_argument("kind", choices=("wcsp", "pydcop", "uai"))
    to.add_argument("file", metavar="FILE")
    to.set_defaults(run=run_to)


def run_from(options: argparse.Namespace) -> int:
    text = read_text(options.file)
    text = translate(read(options.kind, text, Path(options.file).name)).problem.text()
    return SOLVED if say(text) else TEXT


def run_to(options: argparse.Namespace) -> int:
    options.text = read_text(options.file)
    told = load(options.file, options.text, Programs())
    name = Path(options.file).stem
    if options.kind == "uai":
        text, unit = write_uai(told), uai_unit(told)
        if unit != 1:
            complain(f"note: costs are divided by {float(unit):g}: otherwise factors would be too close to 0")
    else:
        text = write_pydcop(told, name) if options.kind == "pydcop" else write_wcsp(told.problem, name)
    return SOLVED if say(text) else TEXT
