"""Many runs: which are to be done, where they are done, and the rows that come of them."""

from __future__ import annotations

import hashlib
import os
import shutil
import sys
import time
from collections import Counter
from collections.abc import Callable, Iterator, Sequence
from contextlib import suppress
from dataclasses import dataclass, field
from pathlib import Path

from .. import __version__
from ..files import KINDS
from ..problem import MOST_BYTES, Trouble
from ..programs import Programs, missing, sum_of, unbuilt
from .methods import Method
from .pool import Done, Pool, Task
from .rows import Key, Results

NAMES = {".dcop", *KINDS} - {".csv"}
"""How the names of the files end that are taken from a folder. A CSV is taken only if it is named itself."""
WINDOW = 3
"""How many tasks for each place of a pool are handed out at a time."""
WAIT_SECONDS = 0.25
"""How often, in seconds, it is told how far a sweep is."""
LINE_SECONDS = 10.0
"""How often, in seconds, a line is told if nobody looks on at a terminal."""
BAR = 24


@dataclass(frozen=True)
class Plan:
    """What a sweep does: a run of each method on each file, each with so much time, by these programs."""

    files: Sequence[Path]
    methods: Sequence[Method]
    seconds: float
    sums: dict[str, str]
    """The checksum of each program."""

    def versions(self, method: Method) -> str:
        """The programs of a method, each with its checksum, shortened."""
        named = [f"{name} {self.sums[name][:16]}" for name in method.programs]
        return ", ".join([f"sefwllon {__version__}", *named])

    def __len__(self) -> int:
        return len(self.files) * len(self.methods)

    def jobs(self, done: Counter[Key]) -> Iterator[Task]:
        """The runs that are not done yet."""
        left, number = Counter(done), 0
        for path in self.files:
            content = read_content(path)
            checksum = hashlib.sha256(content).hexdigest()
            for method in self.methods:
                number += 1
                key = (checksum, method.words, str(self.seconds), self.versions(method))
                if left[key]:
                    left[key] -= 1
                    continue
                head = {"file": str(path), "name": path.name, "checksum": checksum, "content": content}
                yield Task(number, "run", {**head, "method": method.words, "time": self.seconds, "versions": key[3]})


def read_content(path: Path) -> bytes:
    try:
        content = path.read_bytes()
    except OSError as fault:
        raise Trouble(f"{path} can't be read: {fault.strerror}") from None
    if len(content) > MOST_BYTES:
        raise Trouble(f"{path} is longer than 2^28 bytes, which is the limit")
    return content


def files_of(words: Sequence[str]) -> list[Path]:
    """The files that are named, and those of folders, in the order of their names."""
    found: list[Path] = []
    for word in words:
        path = Path(word)
        if not path.exists():
            raise Trouble(f"there is no file or folder {word}")
        if not path.is_dir():
            found.append(path)
            continue
        inside = sorted((it for it in path.rglob("*") if it.suffix.lower() in NAMES and it.is_file()), key=lambda it: it.parts)
        if not inside:
            raise Trouble(f"the folder {word} has no problem: no file in it ends with {', '.join(sorted(NAMES))}")
        found += inside
    return found


def programs_of(methods: Sequence[Method], programs: Programs) -> tuple[dict[str, str], dict[str, str]]:
    """The paths of the programs that the methods run, and their checksums."""
    paths = {"dcop": programs.dcop, "dcop_order": programs.order, "dcop_search": programs.search, "dcop_trace": programs.trace}
    wanted = sorted({name for method in methods for name in method.programs})
    if programs.trace and any(method.has_log for method in methods):
        wanted.append("dcop_trace")
    for name in wanted:
        if not paths[name]:
            raise Trouble(unbuilt(Path(__file__).resolve().parents[3]) if name == "dcop" else missing(name))
    found = {name: shutil.which(str(paths[name])) or str(paths[name]) for name in wanted}
    return found, {name: (sum_of(path) or "sha256 unknown").removeprefix("sha256 ") for name, path in found.items()}


@dataclass
class Told:
    """How far a sweep is: a bar on a terminal, and else a line now and then."""

    total: int
    done: int = 0
    solved: int = 0
    fresh: int = 0
    """How many runs ended since this command began."""
    began: float = field(default_factory=time.monotonic)
    last: float = field(default_factory=time.monotonic)

    def take(self, status: object) -> None:
        self.done, self.fresh, self.solved = self.done + 1, self.fresh + 1, self.solved + (status == "solved")

    def show(self, size: int) -> None:
        """Says how far it is."""
        on, now = sys.stderr is not None and sys.stderr.isatty(), time.monotonic()
        if not on and now - self.last < LINE_SECONDS:
            return
        self.last = now
        line = f"{self.done}/{self.total} runs, {self.solved} solved, {now - self.began:.0f} s{self.rest(now)}"
        line += "" if size else "; waiting for a worker"
        if on:
            full = BAR * self.done // max(1, self.total)
            line = f"\r\x1b[K[{'#' * full}{'.' * (BAR - full)}] {line}"[: shutil.get_terminal_size().columns + 3]
        with suppress(OSError):
            print(line, end="" if on else "\n", file=sys.stderr, flush=True)

    def rest(self, now: float) -> str:
        """How long the rest may take, as the runs so far took."""
        left = (now - self.began) * (self.total - self.done) / self.fresh if self.fresh else 0
        return f", about {left:.0f} s left" if left >= 1 else ""

    def end(self) -> None:
        if sys.stderr is not None and sys.stderr.isatty():
            with suppress(OSError):
                print("\r\x1b[K", end="", file=sys.stderr, flush=True)


def sweep(plan: Plan, pool: Pool, results: Results, told: Told, look: Callable[[Done], None] = lambda done: None) -> list[str]:
    """Does the runs that are not done yet. Gives what could not be done, each in a sentence."""
    tasks, under_way, failed = plan.jobs(results.done), {}, []
    more = True
    while more or under_way:
        while more and len(under_way) < WINDOW * max(1, pool.size()):
            task = next(tasks, None)
            more = task is not None
            if task is not None:
                under_way[task.number] = f"{task.job['file']} by {task.job['method']}"
                pool.submit(task)
        done = pool.next(WAIT_SECONDS) if under_way else None
        if done is not None:
            what = under_way.pop(done.number)
            look(done)
            if done.result is None:
                failed.append(f"{what}: {done.fault}")
            else:
                results.append(done.result)
                told.take(done.result["status"])
        told.show(pool.size())
    return failed


