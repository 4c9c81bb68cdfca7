"""Where the proved programs are, and how they are run."""

from __future__ import annotations

import os
import shutil
import subprocess
import threading
import time
from collections.abc import Callable
from contextlib import suppress
from dataclasses import dataclass
from pathlib import Path
from typing import IO

from .problem import Trouble

TICK = 0.25
"""How often, in seconds, it is said how far a program is."""

END_SECONDS = 2
"""How long a program has to end by itself when its time is over."""

BUILT = "built"
"""The folder of the clone in which `./build` leaves the programs."""

UNPROVED = "UNPROVED"
"""The file beside programs that were compiled without proofs."""

VERIFIED = "verified"
"""What an answer is called whose certificate `dcop check` accepted."""

VERIFIED_UNPROVED = "verified by a check that was compiled without proofs"
"""What it is called where that `dcop` was compiled without proofs."""

PLACES = {
    "dcop": ("SEFWLLON_DCOP", "solve_cli"),
    "dcop_order": ("SEFWLLON_ORDER", "dcop_order"),
    "dcop_search": ("SEFWLLON_SEARCH", "dcop_search"),
    "dcop_trace": ("SEFWLLON_TRACE", "dcop_trace"),
}
"""The programs: each with the variable that names it, and the crate that it is built in."""

WORDS = 2
"""The exit status of words that are refused."""

_CLONE = Path(__file__).resolve().parents[2]
"""The clone, or the folder that an installation lays out as one."""
_SHOWN = 80


@dataclass(frozen=True)
class Answer:
    """What a program printed, and its exit status; None where its time was over."""

    text: str
    status: int | None
    program: str = "dcop"
    """Which program it was, by its name."""
    path: str = ""

    @property
    def unserved(self) -> bool:
        """Whether the words are right and not served by this program."""
        return self.status == WORDS and self.text.startswith("refused words at 1 kind 10")

    @property
    def who(self) -> str:
        """The program, by what named it where the user did."""
        variable = PLACES[self.program][0]
        return f"{variable} names {self.path}, which" if os.environ.get(variable) == self.path else f"the program {self.path or self.program}"

    @property
    def said(self) -> str:
        """What it answered, in short."""
        line = next((it.strip() for it in self.text.splitlines() if it.strip()), "")
        shown = f"`{line[:_SHOWN]}`" if line.isprintable() and line else "with no text" if line else "nothing"
        return shown if self.status == 0 else f"{shown}, with exit status {self.status}"


class Wrong(Trouble):
    """A program is another one than is meant: what it answered is no answer of it."""

    def __init__(self, answer: Answer, why: str):
        super().__init__(f"{answer.who} answered {answer.said}: {why}")


class Crashed(Trouble):
    """A program was ended by a signal, or had not enough memory."""


def crash(answer: Answer) -> str | None:
    """That a program was ended by a signal, where it was."""
    if answer.status is None or answer.status >= 0:
        return None
    return f"{answer.program} was ended by the signal {-answer.status}: it crashed, or something else ended it"


class Programs:
    """The programs `dcop`, `dcop_order`, `dcop_search` and `dcop_trace`."""

    def __init__(self, dcop: str | None = None, order: str | None = None, search: str | None = None, trace: str | None = None):
        self.dcop = dcop or found("dcop")
        self.order = order or found("dcop_order")
        self.search = search or found("dcop_search")
        self.trace = trace or found("dcop_trace")

    @property
    def quick(self) -> bool:
        """Whether `dcop` was compiled without proofs."""
        return self.dcop is not None and is_unproved(self.dcop)

    @property
    def quick_search(self) -> bool:
        """Whether `dcop_search` was compiled without proofs."""
        return self.search is not None and is_unproved(self.search)

    @property
    def verified(self) -> str:
        return VERIFIED_UNPROVED if self.quick else VERIFIED

    def run(
        self, words: list[str], text: str, until: float | None = None, tick: Callable[[], None] | None = None
    ) -> Answer:
        """Runs `dcop` on a text, at most until this moment of `time.monotonic`."""
        if self.dcop is None:
            raise Trouble(unbuilt(_CLONE))
        return run("dcop", [self.dcop, *words], text, until, tick)

    def reorder(
        self, text: str, tries: int, until: float | None = None, tick: Callable[[], None] | None = None
    ) -> Answer | None:
        """Runs `dcop_order`, where it is built, at most until this moment."""
        return run("dcop_order", [self.order, "--tries", str(tries)], text, until, tick) if self.order else None

    def seek(
        self, words: list[str], text: str, until: float | None = None, tick: Callable[[], None] | None = None
    ) -> Answer:
        """Runs `dcop_search`, at most until this moment."""
        if not self.search:
            raise Trouble(missing("dcop_search"))
        return run("dcop_search", [self.search, *words], text, until, tick)

    def versions(self) -> dict[str, str | None]:
        """Which programs answer: that of this package by its number, each other one by what its file sums to."""
        from . import __version__

        paths = {"dcop": self.dcop, "dcop_order": self.order, "dcop_search": self.search}
        return {"sefwllon": __version__, **{name: sum_of(path) for name, path in paths.items()}}


def sum_of(path: str | None) -> str | None:
    """The SHA-256 of a program's file."""
    import hashlib

    try:
        with open(path or "", "rb") as file:
            return "sha256 " + hashlib.file_digest(file, "sha256").hexdigest()
    except OSError:
        return None


def is_unproved(program: str) -> bool:
    """Whether a program was compiled without proofs, by the file that stands beside it, where its links lead."""
    return (Path(os.path.realpath(shutil.which(program) or program)).parent / UNPROVED).is_file()


def unbuilt(clone: Path) -> str:
    """What to do where `dcop` is not built."""
    here = clone if (clone / "crates").is_dir() else Path("the clone of Sefwllon")
    return (
        f"the program dcop is not built: in {here} run `./build --quick`, which compiles the programs without proofs in minutes, "
        "or `./build`, which proves them first and takes hours of processor time; or name the built program by SEFWLLON_DCOP"
    )


def missing(name: str) -> str:
    """That one of the other programs is not there, and what to do."""
    return f"the program {name} is not built: run `./build` in the clone of Sefwllon, or name it by {PLACES[name][0]}"


def found(name: str) -> str | None:
    """A program by its variable, on the path, or in the clone that this file lies in: as `./build` leaves it there, or else as `./test` does.
    An empty variable means none."""
    variable, crate = PLACES[name]
    if variable in os.environ:
        named = os.environ[variable]
        if named and shutil.which(named) is None:
            raise Trouble(f"{variable} names {named}, which is not a program that can be run: name the built {name}, or unset the variable")
        return named or None
    on_path = shutil.which(name)
    if on_path:
        return on_path
    places = (_CLONE / BUILT / name, _CLONE / "crates" / crate / "out" / crate)
    return next((str(place) for place in places if place.is_file()), None)


def run(name: str, command: list[str], text: str, until: float | None, tick: Callable[[], None] | None = None) -> Answer:
    """Runs a program to its end, or until its time is over."""
    left = None if until is None else until - time.monotonic()
    if left is not None and left <= 0:
        return Answer("", None, name, command[0])
    try:
        process = subprocess.Popen(command, stdin=subprocess.PIPE, stdout=subprocess.PIPE, stderr=subprocess.DEVNULL)
    except OSError as fault:
        raise Trouble(f"{command[0]} can't be run: {fault.strerror}") from None
    try:
        printed = ended(process, text.encode(), until, tick)
    except BaseException:
        end(process)
        raise
    if printed is None:
        end(process)
        return Answer("", None, name, command[0])
    return Answer(printed.decode("utf-8", "replace"), process.returncode, name, command[0])


def end(process: subprocess.Popen[bytes]) -> None:
    """Ends a program. It is asked to end first, so that a script can end what it started."""
    process.terminate()
    try:
        process.communicate(timeout=END_SECONDS)
    except subprocess.TimeoutExpired:
        process.kill()
        process.communicate()


def ended(
    process: subprocess.Popen[bytes], given: bytes | None, until: float | None, tick: Callable[[], None] | None
) -> bytes | None:
    """What a program prints until it ends; None where its time is over first. It is given its text by a thread of its own: `communicate`
    gives no more of it once its time was over before all was taken."""
    stdin, process.stdin = process.stdin, None
    if stdin is not None:
        threading.Thread(target=give, args=(stdin, given or b""), daemon=True).start()
    while True:
        left = None if until is None else max(0.0, until - time.monotonic())
        if tick:
            left = TICK if left is None else min(left, TICK)
        try:
            return process.communicate(timeout=left)[0]
        except subprocess.TimeoutExpired:
            if until is not None and time.monotonic() >= until:
                return None
            if tick:
                tick()


def give(stdin: IO[bytes], text: bytes) -> None:
    """Gives a program its text, as far as it takes it."""
    with suppress(OSError), stdin:
        stdin.write(text)
