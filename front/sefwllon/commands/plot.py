"""`sefwllon plot`: pictures and tables of a sweep."""

from __future__ import annotations

import argparse
from pathlib import Path

from ..arguments import Commands
from ..output import say
from ..problem import Trouble
from ..telling import SOLVED, TEXT


def add(commands: Commands) -> None:
    plot = commands.add_parser(
        "plot",
        help="pictures and tables of a sweep's rows",
        description="Draws the rows of `sefwllon sweep` as SVG and PNG: how many problems were solved within which time, the gap over time, the "
        "messages over the size, one method against another. Writes tables by method and by size, as CSV and LaTeX. The pictures are "
        "made by matplotlib (Debian's python3-matplotlib).",
    )
    plot.add_argument("results", metavar="CSV", nargs="+", help="rows of sefwllon sweep")
    plot.add_argument("-o", "--out", default=".", metavar="FOLDER", help="the folder for the files (the current one)")
    plot.set_defaults(run=run)


def run(options: argparse.Namespace) -> int:
    from ..lab.plots import plots
    from ..lab.seen import seen
    from ..lab.tables import tables

    rows, folder = seen(options.results), Path(options.out)
    try:
        folder.mkdir(parents=True, exist_ok=True)
    except OSError as fault:
        raise Trouble(f"the folder {folder} can't be made: {fault.strerror}") from None
    names = [*plots(rows, folder), *tables(rows, folder)]
    return SOLVED if say(f"{len(rows)} rows in {folder}: {', '.join(names)}\n") else TEXT
