"""`sefwllon solve`: a problem is solved."""

from __future__ import annotations

import argparse
from fractions import Fraction

from ..arguments import Commands, add_solving, cells, distance
from ..asking import kept, loaded, solved
from ..files import read_text
from ..output import deliver, reading, test_outputs, undisturbed
from ..programs import Programs
from ..solving import METHODS
from ..telling import TEXT, as_json, as_text, status_of


def add(commands: Commands) -> None:
    solve = commands.add_parser("solve", help="solve a problem: .dcop, .wcsp, pyDCOP .yaml, meetings .csv, .uai, FRODO .xml")
    solve.add_argument("file", metavar="FILE")
    solve.add_argument("--error", type=distance, default=Fraction(0), metavar="E", help="by how much the cost may miss the best sum")
    solve.add_argument(
        "--method",
        choices=METHODS,
        default="auto",
        help="auto, the default, tries dpop, order (dpop in an order from dcop_order) and search (dcop_search with growing budgets, also on a "
        "smaller problem in which several values count as one), one after the other. cut (dpop with some variables fixed in turn) and "
        "adopt are tried only if they are named, or if dcop_search is missing",
    )
    solve.add_argument("--cells", type=cells, metavar="N", help="the most cells of a joined table (cut), or of all bounds (search)")
    solve.add_argument("--certificate", choices=("yes", "no"), default="yes", help="whether certificates are made and checked (yes)")
    solve.add_argument(
        "--cluster",
        metavar="ADDRESS",
        help="share the search among the workers of the Dask scheduler at this address, or, with `local`, among this machine's processors",
    )
    add_solving(solve)
    solve.set_defaults(run=run)


def run(options: argparse.Namespace) -> int:
    test_outputs([options.file], options.report)
    programs = Programs()
    with reading(None if options.time is None else options.began + options.time):
        options.text = read_text(options.file)
    told = loaded(options, programs)
    error = int(options.error * told.scale)
    more: dict[str, object] = {}
    if options.cluster:
        from ..lab.shared import shared_out

        best, more = shared_out(programs, told, options, error)
    else:
        best = solved(programs, told, options, error, options.method)
    with undisturbed():
        text = as_json(best, told, programs, more) if options.json else as_text(best, told)
        wanted = options.report and best.values is not None
        good = deliver(text, [(options.report, lambda: kept(best, told.problem))] if wanted else [])
    return status_of(best, told) if good else TEXT
