"""What is printed and written: first an answer is printed, then its files are written, so that nothing that was found is lost."""

from __future__ import annotations

import os
import signal
import sys
import threading
import time
from collections.abc import Callable, Iterator
from contextlib import contextmanager, suppress
from pathlib import Path
from types import FrameType

from .problem import Trouble


class OutOfTime(Trouble):
    """The time was over before the file was read."""

    def __init__(self) -> None:
        super().__init__("the time was over before the file was read: give it more --time")


def say(text: str, found: bool = False) -> bool:
    """Prints a text on standard output. Where that takes nothing, it is said why, and what was found by long work goes to
    standard error; where nobody reads it any more, it is gone. Gives whether it was printed."""
    try:
        if sys.stdout is None:
            raise OSError(0, "it is closed")
        sys.stdout.write(text)
        sys.stdout.flush()
        return True
    except BrokenPipeError:
        silence(sys.stdout)
    except OSError as fault:
        silence(sys.stdout)
        complain(f"standard output can't be written: {fault.strerror}" + (f". This is the answer:\n{text.rstrip()}" if found else ""))
    return False


def silence(stream: object) -> None:
    """What is still kept for a stream that takes nothing goes nowhere, so that Python's end says nothing of it."""
    with suppress(OSError, ValueError, AttributeError):
        nowhere = os.open(os.devnull, os.O_WRONLY)
        os.dup2(nowhere, stream.fileno())  # type: ignore[attr-defined]
        os.close(nowhere)


def complain(why: str) -> None:
    """Says on standard error what went wrong."""
    try:
        print(f"sefwllon: {why}", file=sys.stderr, flush=True)
    except OSError:
        silence(sys.stderr)


def deliver(text: str, files: list[tuple[str, Callable[[], str]]]) -> bool:
    """Prints an answer, and then makes and writes its files, each whatever came of the others. Gives whether all was printed and
    written."""
    good = say(text, found=True)
    for name, made in files:
        try:
            write(name, made())
        except Trouble as trouble:
            complain(f"{trouble}; the printed answer is complete without it")
            good = False
    return good


def write(name: str, text: str) -> None:
    """Writes a file whole, or leaves what stood there as it was."""
    path = Path(os.path.realpath(name))
    data = text.encode("utf-8", "backslashreplace")
    beside = path.with_name(f".{path.name[:200]}.{os.getpid()}.part")
    try:
        if path.exists() and not path.is_file():
            path.write_bytes(data)
            return
        try:
            beside.write_bytes(data)
        except PermissionError:
            path.write_bytes(data)
            return
        if path.exists():
            beside.chmod(path.stat().st_mode & 0o777)
        beside.replace(path)
    except OSError as fault:
        raise Trouble(f"{name} can't be written: {fault.strerror}") from None
    finally:
        with suppress(OSError):
            beside.unlink(missing_ok=True)


def test_outputs(read: list[str], *names: str | None) -> None:
    """Tests before a long run whether files can be written behind it, as far as that can be known."""
    taken, seen = [os.path.realpath(name) for name in read], set()
    for name in (name for name in names if name):
        path = os.path.realpath(name)
        if path in taken:
            raise Trouble(f"{name} is read, so it can't be written too: name another file for the output")
        if path in seen and (os.path.isfile(name) or not os.path.exists(name)):
            raise Trouble(f"{name} is named for two outputs: name another file for one of them")
        seen.add(path)
        why = unwritable(Path(name))
        if why:
            raise Trouble(f"{name} can't be written: {why}")


def unwritable(path: Path) -> str | None:
    """Why a file can't be written, where that is known before."""
    try:
        if path.is_dir():
            return "it is a folder"
        if path.exists():
            return None if os.access(path, os.W_OK) else "you may not change it"
        if not path.parent.is_dir():
            return f"there is no folder {path.parent}"
        return None if os.access(path.parent, os.W_OK) else f"you may not write in the folder {path.parent}"
    except OSError as fault:
        return fault.strerror


@contextmanager
def reading(until: float | None) -> Iterator[None]:
    """While a file is read and translated the time runs, and where it is over, that is told."""

    def over(number: int, frame: FrameType | None) -> None:
        raise OutOfTime

    if until is None or threading.current_thread() is not threading.main_thread() or not hasattr(signal, "setitimer"):
        yield
        return
    left = until - time.monotonic()
    if left <= 0:
        raise OutOfTime
    before = signal.signal(signal.SIGALRM, over)
    signal.setitimer(signal.ITIMER_REAL, left)
    try:
        yield
    finally:
        signal.setitimer(signal.ITIMER_REAL, 0)
        signal.signal(signal.SIGALRM, before)


@contextmanager
def undisturbed() -> Iterator[None]:
    """While an answer is told and kept, an interrupt waits for its end, and changes nothing then."""
    if threading.current_thread() is not threading.main_thread():
        yield
        return
    signals = (signal.SIGINT, signal.SIGTERM)
    before = [signal.signal(number, lambda *_: None) for number in signals]
    try:
        yield
    finally:
        for number, was in zip(signals, before):
            signal.signal(number, was)


@contextmanager
def ended_as_interrupted() -> Iterator[None]:
    """Who is told to end, as by `timeout`, ends as by an interrupt: with the best so far."""

    def interrupt(number: int, frame: FrameType | None) -> None:
        raise KeyboardInterrupt

    if threading.current_thread() is not threading.main_thread():
        yield
        return
    before = signal.signal(signal.SIGTERM, interrupt)
    try:
        yield
    finally:
        signal.signal(signal.SIGTERM, before)
