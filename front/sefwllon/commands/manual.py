"""`sefwllon dcop --help` and the like: the manual pages of the proved programs, which have no help of their own."""

from __future__ import annotations

import argparse

from ..arguments import Commands
from ..markdown import as_text
from ..output import say
from ..pages import PAGES, content, formats
from ..problem import Trouble
from ..telling import SOLVED, TEXT


def add(commands: Commands) -> None:
    for page in PAGES:
        if page.section == 1:
            command = commands.add_parser(page.name, add_help=False)
            command.add_argument("words", nargs=argparse.REMAINDER)
            command.add_argument("-h", "--help", action="store_true")
            command.set_defaults(run=run, page=page)


def run(options: argparse.Namespace) -> int:
    if options.words:
        name = options.page.name
        raise Trouble(f"`sefwllon {name}` only prints the manual page of the program {name}: to run the program, write `{name} {' '.join(options.words)}`")
    return SOLVED if say(as_text(content(options.page, formats()))) else TEXT
