"""The command `sefwllon`."""

from __future__ import annotations

import argparse
import sys
import time
from importlib import import_module

from . import BEGAN, __version__
from .explain import explain
from .output import OutOfTime, complain, ended_as_interrupted, say, silence
from .problem import Trouble
from .programs import crash
from .solving import Refused
from .telling import OPEN, TEXT

COMMANDS = (
    "solve",
    "check",
    "explain",
    "convert",
    "meetings",
    "why",
    "draw",
    "trace",
    "cost",
    "generate",
    "sweep",
    "plot",
    "web",
    "serve",
    "manual",
)
"""The modules of `commands`, in the order in which help names what they add."""
OTHERS = ("convert", "manual")
"""Those of them that add commands of other names than their own."""


def main(arguments: list[str] | None = None) -> int:
    """Runs the command, and gives its exit status."""
    began = BEGAN if arguments is None else time.monotonic()
    for stream in (sys.stdout, sys.stderr):
        if hasattr(stream, "reconfigure"):
            stream.reconfigure(errors="backslashreplace")
    try:
        words = sys.argv[1:] if arguments is None else arguments
        options = parser(*words[:1]).parse_args(words)
    except SystemExit:
        if say(""):
            raise
        return TEXT
    except OSError as fault:
        silence(sys.stdout)
        complain(f"standard output can't be written: {fault.strerror}")
        return TEXT
    options.began = began
    try:
        with ended_as_interrupted():
            return options.run(options)
    except Refused as refused:
        complain(crash(refused.answer) or explain(refused.answer.text, options.text))
        return TEXT
    except OutOfTime as trouble:
        complain(str(trouble))
        return OPEN
    except Trouble as trouble:
        complain(str(trouble))
        return TEXT
    except BrokenPipeError:
        return OPEN
    except (MemoryError, RecursionError):
        complain("the file is too large, or too deeply nested, for this machine's memory")
        return TEXT


def parser(command: str = "") -> argparse.ArgumentParser:
    """What reads the words of a command, or of all: where a command is named, its module alone is imported."""
    top = argparse.ArgumentParser(
        prog="sefwllon",
        description="Solves distributed constraint problems, and says what was verified.",
        epilog="`sefwllon PROGRAM --help` prints the manual page of a program: dcop, dcop_order, dcop_search, dcop_trace or dcop_serve.",
    )
    top.add_argument("--version", action="version", version=f"sefwllon {__version__}")
    commands = top.add_subparsers(title="commands", required=True, metavar="COMMAND")
    top.set_defaults(text="")
    for name in (command,) if command in COMMANDS and command not in OTHERS else COMMANDS:
        import_module(f".commands.{name}", __package__).add(commands)
    return top
