"""What the tests share: where things are, and a test that runs the command."""

from __future__ import annotations

import importlib.util
import io
import os
import sys
import tempfile
import time
import unittest
from collections.abc import Callable
from contextlib import redirect_stderr, redirect_stdout
from pathlib import Path
from unittest import mock

from sefwllon import programs
from sefwllon.cli import main

from . import fake_dcop, fake_search

HERE = Path(__file__).resolve().parent
FRONT = HERE.parent
EXAMPLES = FRONT / "examples"
PROBLEMS = FRONT.parent / "examples"

FAKE = str(HERE / "fake_dcop.py")
"""The stand-in for `dcop` and `dcop_order`."""
FAKE_SEARCH = str(HERE / "fake_search.py")
"""The stand-in for `dcop_search`."""
REAL = os.environ.get("SEFWLLON_DCOP")
ORDER = os.environ.get("SEFWLLON_ORDER")
SEARCH = os.environ.get("SEFWLLON_SEARCH")
TRACE = os.environ.get("SEFWLLON_TRACE")
SERVE = os.environ.get("SEFWLLON_SERVE")
"""The built programs, where they are there."""
PAIR = "dcop 1\nvar x 2\nvar y 2\ntable x y : 5 4 2 7\ntable x : 0 1\nend\n"
"""A problem whose best sum, 3 at x = 1 and y = 0, is not that of its tables' least costs."""
HAS_YAML = importlib.util.find_spec("yaml") is not None


SLOW = {"slow": "", "long": "cut", "lingers": "--tries", "fails": "--tries", "dies": ""}
"""By these words a stand-in takes long, or dies, where it is given the other word: it has to be a process of its own then."""
STAND_INS = {FAKE: (fake_dcop, "FAKE"), FAKE_SEARCH: (fake_search, "FAKE_SEARCH")}
as_a_process = programs.run


def at_once(name: str, command: list[str], text: str, until: float | None, tick: Callable[[], None] | None = None) -> programs.Answer:
    """Runs a program; a stand-in here, which takes no time."""
    module, variable = STAND_INS.get(command[0], (None, ""))
    words = os.environ.get(variable, "").split()
    if module is None or any(word in words and SLOW[word] in ["", *command] for word in SLOW):
        return as_a_process(name, command, text, until, tick)
    if until is not None and time.monotonic() >= until:
        return programs.Answer("", None, name, command[0])
    module.FAKE, out = words, io.StringIO()
    with mock.patch.multiple(sys, argv=command, stdin=io.StringIO(text), stdout=out):
        status = module.main()
    return programs.Answer(out.getvalue(), status, name, command[0])


class Case(unittest.TestCase):
    """A test that runs the command with the stand-ins."""

    def setUp(self) -> None:
        patched = mock.patch.object(programs, "run", at_once)
        patched.start()
        self.addCleanup(patched.stop)

    def front(
        self, *words: str, fake: str = "", program: str = FAKE, order: str | None = None, search: str = "", trace: str = "", **more: str
    ) -> tuple[int, str, str]:
        """Runs the command with these programs, without dcop_search and dcop_trace where they are not named."""
        kept = dict(os.environ)
        os.environ.update(SEFWLLON_DCOP=program, SEFWLLON_SEARCH=search, SEFWLLON_TRACE=trace, FAKE=fake, **more)
        if order is not None:
            os.environ["SEFWLLON_ORDER"] = order
        out, err = io.StringIO(), io.StringIO()
        try:
            with redirect_stdout(out), redirect_stderr(err):
                status = main(list(words))
        finally:
            os.environ.clear()
            os.environ.update(kept)
        return status, out.getvalue(), err.getvalue()

    def file(self, name: str, text: str) -> str:
        folder = tempfile.TemporaryDirectory()
        self.addCleanup(folder.cleanup)
        path = Path(folder.name) / name
        path.write_text(text)
        return str(path)
