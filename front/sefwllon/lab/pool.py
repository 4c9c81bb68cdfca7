"""Where runs are done: on processes of this machine, or on a cluster, behind one small interface."""

from __future__ import annotations

import importlib
import math
import multiprocessing
import os
import select
import signal
import sys
import threading
import time
from collections import deque
from collections.abc import Iterator
from contextlib import contextmanager, suppress
from dataclasses import dataclass
from multiprocessing.connection import Connection
from typing import Any, Protocol

from ..problem import Trouble

Job = dict[str, Any]
"""What a task is given: plain values, so that it can go to another machine."""

WORK = {"run": "runs", "slice": "slice_runs"}
"""The kinds of tasks, each with the module of this package whose function `run` does it."""
END_SECONDS = 2.0
"""How long a process has to end by itself."""
TRIES = 2
"""How often a task is tried whose process was killed."""


@dataclass(frozen=True)
class Task:
    """Something to be done: its number, its kind, and what it is given."""

    number: int
    kind: str
    job: Job


@dataclass(frozen=True)
class Done:
    """A task that is over: its result, or why there is none; and where it was done."""

    number: int
    result: dict[str, Any] | None
    fault: str | None = None
    where: str = ""


class Pool(Protocol):
    """Takes tasks, and gives them back in the order in which they are over."""

    def size(self) -> int:
        """How many tasks are done at a time."""

    def submit(self, task: Task) -> None: ...

    def next(self, seconds: float) -> Done | None:
        """The next task that is over, if one is within so many seconds."""

    def close(self) -> None:
        """Ends what is under way."""


def work(kind: str, job: Job, programs: dict[str, str]) -> dict[str, Any]:
    """Does a task."""
    result: dict[str, Any] = importlib.import_module(f".{WORK[kind]}", __package__).run(job, programs)
    return result


@dataclass
class Member:
    """A process of the pool, and the task that it has."""

    process: multiprocessing.process.BaseProcess
    pipe: Connection
    task: Task | None = None


class Local:
    """Processes of this machine. One that is killed is begun anew, and its task is tried again."""

    def __init__(self, programs: dict[str, str], count: int | None = None):
        self.programs, self.count = programs, count or processors()
        self.waiting: deque[Task] = deque()
        self.over: deque[Done] = deque()
        self.tries: dict[int, int] = {}
        for module in WORK.values():
            importlib.import_module(f".{module}", __package__)
        self.members = [self.begin() for _ in range(self.count)]

    def size(self) -> int:
        return self.count

    def begin(self) -> Member:
        """A new process, forked, so that it has at once what is imported here. It does not hear ctrl-C: who waits for it ends it."""
        context = multiprocessing.get_context("fork")
        ours, theirs = context.Pipe()
        with deaf():
            process = context.Process(target=serve, args=(theirs, self.programs), daemon=True)
            process.start()
        theirs.close()
        return Member(process, ours)

    def submit(self, task: Task) -> None:
        self.waiting.append(task)
        self.hand_out()

    def hand_out(self) -> None:
        """Gives the tasks that wait to the processes that have none."""
        for at, member in enumerate(self.members):
            while member.task is None and self.waiting:
                task = self.waiting.popleft()
                try:
                    member.pipe.send(task)
                    member.task = task
                except OSError:
                    self.waiting.appendleft(task)
                    member = self.members[at] = self.begin()

    def next(self, seconds: float) -> Done | None:
        until = time.monotonic() + seconds
        while not self.over:
            busy = {member.pipe.fileno(): at for at, member in enumerate(self.members) if member.task is not None}
            pipes = select.poll()
            for pipe in busy:
                pipes.register(pipe, select.POLLIN)
            ready = pipes.poll(math.ceil(1000 * max(0.0, until - time.monotonic()))) if busy else []
            if not ready:
                return None
            for pipe, _ in ready:
                self.take(busy[pipe])
            self.hand_out()
        return self.over.popleft()

    def take(self, at: int) -> None:
        """Takes what a process says; if it is gone, its task is tried again."""
        member = self.members[at]
        task = member.task
        assert task is not None
        where = f"process {member.process.pid}"
        try:
            result, fault = member.pipe.recv()
            member.task = None
            self.over.append(Done(task.number, result, fault, where))
        except (EOFError, OSError):
            member.process.join(END_SECONDS)
            member.pipe.close()
            self.members[at] = self.begin()
            self.tries[task.number] = self.tries.get(task.number, 1) + 1
            if self.tries[task.number] <= TRIES:
                self.waiting.appendleft(task)
            else:
                self.over.append(Done(task.number, None, f"the process that did it was killed {TRIES} times", where))

    def close(self) -> None:
        for member in self.members:
            member.process.terminate()
        until = time.monotonic() + END_SECONDS
        for member in self.members:
            member.process.join(max(0.0, until - time.monotonic()))
            if member.process.is_alive():
                member.process.kill()
                member.process.join()
            member.pipe.close()


def processors() -> int:
    """How many processors this process may use."""
    return len(os.sched_getaffinity(0)) if hasattr(os, "sched_getaffinity") else os.cpu_count() or 1


@contextmanager
def deaf() -> Iterator[None]:
    """What is begun meanwhile does not hear ctrl-C, and that it is to end once it asks for that."""
    main = threading.current_thread() is threading.main_thread()
    heard = signal.signal(signal.SIGINT, signal.SIG_IGN) if main else None
    blocked = signal.pthread_sigmask(signal.SIG_BLOCK, {signal.SIGTERM})
    try:
        yield
    finally:
        signal.pthread_sigmask(signal.SIG_SETMASK, blocked)
        if main:
            signal.signal(signal.SIGINT, heard)


def serve(pipe: Connection, programs: dict[str, str]) -> None:
    """What a process of the pool does, until nobody asks any more. When it is told to end, it ends the program that it runs."""
    close_all_but(pipe.fileno())
    signal.signal(signal.SIGTERM, lambda *_: sys.exit(0))
    signal.pthread_sigmask(signal.SIG_UNBLOCK, {signal.SIGTERM})
    with suppress(EOFError, OSError):
        while True:
            pipe.send(answered(pipe.recv(), programs))


def close_all_but(kept: int) -> None:
    """Closes the files that the process was forked with, as a lock, or the pipes of others, which end when nobody has them open."""
    for file in map(int, os.listdir("/proc/self/fd")):
        if file > 2 and file != kept:
            with suppress(OSError):
                os.close(file)


def answered(task: Task, programs: dict[str, str]) -> tuple[dict[str, Any] | None, str | None]:
    """The result of a task, or why there is none."""
    try:
        return work(task.kind, task.job, programs), None
    except Trouble as trouble:
        return None, str(trouble)
    except MemoryError:
        return None, "there was not enough memory"
    except Exception as fault:
        return None, f"it failed: {type(fault).__name__}: {fault}"
