"""`sefwllon web`: the page, in a browser."""

from __future__ import annotations

import argparse
from contextlib import ExitStack
from pathlib import Path

from ..arguments import Commands
from ..files import read_text
from .serve import add_limits, limits


def add(commands: Commands) -> None:
    web = commands.add_parser(
        "web",
        help="a page in the browser: timetables, problems, runs",
        description="Opens a page in the browser, served at 127.0.0.1 for this user only: make timetables in tables, look at problems "
        "and at how agents solve them. Ctrl-C ends it.",
    )
    web.add_argument("file", metavar="FILE", nargs="?", help="what the page shows first: a .csv of meetings, or a problem")
    add_limits(web)
    web.add_argument("--no-browser", action="store_true", help="only print the link")
    web.set_defaults(run=run)


def run(options: argparse.Namespace) -> int:
    from ..web.serving import Service, open_page, serve

    first = None if options.file is None else {"name": Path(options.file).name, "text": read_text(options.file)}
    service = Service(options.port, limits(options), first)
    with ExitStack() as stack:

        def began() -> None:
            print(f"{service.link}\nctrl-C ends it", flush=True)
            if not options.no_browser:
                stack.enter_context(open_page(service.link))

        return serve(service, began)
