"""What the tests of many runs share: problems, rows, programs that wait or fail, and a Dask scheduler with its workers."""

from __future__ import annotations

import importlib.util
import itertools
import json
import os
import random
import signal
import subprocess
import sys
import tempfile
import time
from collections.abc import Callable
from pathlib import Path

from sefwllon.lab.rows import read_rows

from .case import FRONT

HAS = {name: importlib.util.find_spec(name) is not None for name in ("networkx", "matplotlib", "distributed")}
"""Which of the libraries are there."""
CHANGING = ("seconds", "elapsed", "megabytes", "host", "bounds")
"""What differs between two runs of the same method on the same file."""
SECONDS = 600
"""How long a test waits at most for something that takes a moment."""


def until(holds: Callable[[], bool], what: str) -> None:
    """Waits until something holds."""
    latest = time.monotonic() + SECONDS
    while not holds():
        if time.monotonic() > latest:
            raise AssertionError(f"{what} did not come within {SECONDS} s")
        time.sleep(0.02)


def steady(name: str) -> list[tuple[str, ...]]:
    """The rows of a file of results, in order, without what differs between two runs."""
    return sorted(tuple(value for column, value in row.items() if column not in CHANGING) for row in read_rows(name))


def script(folder: str, name: str, *lines: str) -> str:
    """A program of a few lines of shell."""
    path = Path(folder) / name
    path.write_text("\n".join(["#!/bin/sh", *lines]) + "\n")
    path.chmod(0o755)
    return str(path)


def held(folder: str, program: str) -> str:
    """A program that does what another one does, but waits while it is begun more often than the file `limit` of the folder says."""
    waits = f'while [ "$(wc -l < {folder}/begun)" -gt "$(cat {folder}/limit)" ]; do sleep 0.1; done'
    return script(folder, "held", f"echo >> {folder}/begun", waits, f'exec {program} "$@"')


def let_one_on(folder: str) -> None:
    """Lets a program go on that is held, if one waits: a run that was lost has begun its program in vain."""
    begun, limit = Path(folder, "begun"), Path(folder, "limit")
    if begun.read_text().count("\n") > int(limit.read_text()):
        limit.write_text(str(int(limit.read_text()) + 1))


def threes(count: int) -> str:
    """A problem of variables with three values, each two of which share a table."""
    draw, names = random.Random(count), [f"v{at}" for at in range(count)]
    lines = ["dcop 2", *(f"var {name} 3" for name in names)]
    lines += [f"table {a} {b} : {' '.join(str(draw.randrange(50)) for _ in range(9))}" for a, b in itertools.combinations(names, 2)]
    return "\n".join([*lines, "end"]) + "\n"


def begun(*words: str, **more: str) -> subprocess.Popen[str]:
    """The command as a process of its own, with a group of its own, as a shell begins it: it hears ctrl-C, also if the tests do not."""
    environment = dict(os.environ, PYTHONDONTWRITEBYTECODE="1", **more)
    heard = signal.signal(signal.SIGINT, signal.default_int_handler)
    try:
        return subprocess.Popen(
            [sys.executable, "-m", "sefwllon", *words],
            cwd=FRONT,
            env=environment,
            stdout=subprocess.PIPE,
            stderr=subprocess.PIPE,
            text=True,
            process_group=0,
        )
    finally:
        signal.signal(signal.SIGINT, heard)


class Engine:
    """A Dask scheduler and workers of one thread each, as processes at 127.0.0.1."""

    def __init__(self, count: int = 2):
        self.folder = tempfile.TemporaryDirectory()
        self.file = Path(self.folder.name) / "scheduler.json"
        self.scheduler = self.process("dask_scheduler", "--host", "127.0.0.1", "--port", "0", "--scheduler-file", str(self.file))
        until(self.file.exists, "the scheduler")
        self.workers = [self.worker() for _ in range(count)]

    def process(self, module: str, *words: str) -> subprocess.Popen[bytes]:
        command = [sys.executable, "-m", f"distributed.cli.{module}", *words, "--no-dashboard"]
        environment = dict(os.environ, DASK_DISTRIBUTED__WORKER__MEMORY__TERMINATE="0.0")
        with open(Path(self.folder.name) / "log", "ab") as out:
            return subprocess.Popen(command, cwd=self.folder.name, env=environment, stdout=out, stderr=out)

    def worker(self) -> subprocess.Popen[bytes]:
        words = ("--scheduler-file", str(self.file), "--host", "127.0.0.1", "--nthreads", "1", "--no-nanny")
        return self.process("dask_worker", *words, "--local-directory", self.folder.name)

    @property
    def address(self) -> str:
        return str(json.loads(self.file.read_text())["address"])

    def end(self) -> None:
        for process in [*self.workers, self.scheduler]:
            if process.poll() is None:
                process.send_signal(signal.SIGKILL)
            process.wait()
        self.folder.cleanup()
