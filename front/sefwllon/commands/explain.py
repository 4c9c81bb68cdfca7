"""`sefwllon explain`: why a file is refused."""

from __future__ import annotations

import argparse
from pathlib import Path

from ..arguments import Commands
from ..explain import explain
from ..files import KINDS, load, read_text
from ..output import say
from ..programs import Programs
from ..telling import SOLVED, TEXT


def add(commands: Commands) -> None:
    why = commands.add_parser("explain", help="say in sentences why a file is refused")
    why.add_argument("file", metavar="FILE")
    why.add_argument("answer", metavar="ANSWER", nargs="?", help="a file with what dcop printed; if it is left out, dcop is run")
    why.set_defaults(run=run)


def run(options: argparse.Namespace) -> int:
    options.text = read_text(options.file)
    kind, programs, words = KINDS.get(Path(options.file).suffix.lower()), Programs(), ["tree"]
    if kind == "wcsp" and (options.answer or programs.dcop):
        words += ["--format", "wcsp"]  # dcop reads such a file itself, and names the file's own lines
    elif kind:
        options.text = load(options.file, options.text).problem.text()
    answer = read_text(options.answer) if options.answer else programs.run(words, options.text).text
    if not answer.startswith(("refused", "status no")):
        return SOLVED if say("dcop takes this file.\n") else TEXT
    say(explain(answer, options.text) + "\n")
    return TEXT
