"""`sefwllon serve`: the service, until it is stopped."""

from __future__ import annotations

import argparse

from ..arguments import Commands, natural, seconds
from ..problem import Trouble


def add(commands: Commands) -> None:
    serve = commands.add_parser(
        "serve",
        help="answer over HTTP, on this machine alone, until it is stopped",
        description="Answers over HTTP at 127.0.0.1 until it is stopped by SIGTERM or ctrl-C. The first line that it prints is the "
        "link, which contains the token; the page `service` below the link lists all requests. SEFWLLON_TOKEN sets the token.",
    )
    add_limits(serve)
    serve.set_defaults(run=run)


def add_limits(command: argparse.ArgumentParser) -> None:
    """The words that the page and the service share."""
    command.add_argument("--port", type=port, default=0, metavar="N", help="the port, 1024 to 65535; the default is a free port")
    command.add_argument("--processes", type=natural, metavar="N", help="how many requests are worked on at a time (half the number of processors)")
    command.add_argument("--waiting", type=natural, default=64, metavar="N", help="how many requests may wait; further ones are refused (64)")
    command.add_argument("--most-time", type=seconds, default=600.0, metavar="10m", help="how long a request may take (10m)")
    command.add_argument("--most-bytes", type=natural, default=8 * 2**20, metavar="N", help="how many bytes a request may have (8388608)")


def port(word: str) -> int:
    if natural(word) not in range(1024, 65536):
        raise argparse.ArgumentTypeError(f"the port must be from 1024 to 65535, not {word}")
    return int(word)


def run(options: argparse.Namespace) -> int:
    from ..web.serving import Service, serve

    service = Service(options.port, limits(options))
    return serve(service, lambda: print(service.link, flush=True))


def limits(options: argparse.Namespace) -> Limits:  # type: ignore[name-defined]  # noqa: F821
    from ..web.jobs import Limits

    processes = options.processes if options.processes is not None else Limits.processes
    if not 1 <= processes <= 64:
        raise Trouble("--processes must be a number from 1 to 64")
    return Limits(
        processes=processes,
        waiting=options.waiting,
        seconds=options.most_time,
        usual_seconds=min(60.0, options.most_time),
        bytes=options.most_bytes,
    )
