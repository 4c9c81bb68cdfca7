"""Runs a program once, and says what it printed and what it took."""

from __future__ import annotations

import math
import os
import resource
import select
import signal
import time
from contextlib import suppress
from dataclasses import dataclass
from functools import lru_cache

FIRST_TICK, LAST_TICK = 0.002, 0.1
"""How often, in seconds, it is looked how much memory a program has: often at first, and then less."""
PROCESSORS = os.cpu_count() or 1
"""Asked for once, as it takes a file of the system."""
UNHEARD = (signal.SIGPIPE, signal.SIGXFSZ)
"""The signals that Python passes over, and a program that it begins does not."""
SPARE_SECONDS = 2
"""How much processor time a program has at most beyond its time limit, if nobody is left to end it."""


@dataclass(frozen=True)
class Ran:
    """What a program printed, its exit status (negative for a signal, None if its time was over), and what it took."""

    text: str
    status: int | None
    seconds: float
    """Processor time."""
    elapsed: float
    """Time by the clock."""
    megabytes: float | None
    """The greatest resident size that was seen; None if it ended too soon to be seen."""


def measured(command: list[str], text: str, seconds: float = math.inf, clock: float = math.inf) -> Ran:
    """Runs a program on a text, for at most so many seconds of a processor, and so many by the clock."""
    began = time.monotonic()
    with open(os.memfd_create("given"), "wb") as given, open(os.memfd_create("printed"), "rb") as printed:
        given.write(text.encode())
        given.seek(0)
        pid = begun(command, given.fileno(), printed.fileno())
        try:
            bound_processor_time(pid, min(seconds, clock))
            in_time, seen = watched(pid, seconds, began + clock)
            if not in_time:
                os.kill(pid, signal.SIGKILL)
            _, status, used = os.wait4(pid, 0)
        except BaseException:
            with suppress(ProcessLookupError):
                os.kill(pid, signal.SIGKILL)
            with suppress(ChildProcessError):
                os.waitpid(pid, 0)
            raise
        printed.seek(0)
        told = printed.read().decode("utf-8", "replace") if in_time else ""
    taken = used.ru_utime + used.ru_stime
    code = os.waitstatus_to_exitcode(status) if in_time else None
    return Ran(told, code, taken, time.monotonic() - began, greatest(seen, used.ru_maxrss))


def begun(command: list[str], given: int, printed: int) -> int:
    """Begins a program that reads one file and prints to another, with the signals as a program has them at first. Gives its process."""
    files = [(os.POSIX_SPAWN_DUP2, given, 0), (os.POSIX_SPAWN_DUP2, printed, 1), (os.POSIX_SPAWN_OPEN, 2, os.devnull, os.O_WRONLY, 0)]
    return os.posix_spawnp(command[0], command, environment(os.getpid()), file_actions=files, setsigdef=UNHEARD)


@lru_cache(maxsize=1)
def environment(process: int) -> dict[bytes, bytes]:
    """The environment of this process, which its programs are given. It is copied once for each process, and not for each program."""
    return dict(os.environb)


def bound_processor_time(pid: int, most: float) -> None:
    """Bounds what a program may take, so that it ends even if the process that watches it is killed."""
    if most < math.inf:
        with suppress(OSError, ValueError):
            resource.prlimit(pid, resource.RLIMIT_CPU, (int(most) + SPARE_SECONDS, int(most) + SPARE_SECONDS + 1))


def watched(pid: int, seconds: float, until: float) -> tuple[bool, int]:
    """Waits for the end of a process: whether it ended before its time was over, and its greatest resident size in KiB. What it has
    taken is asked for once all processors together can have taken as much since it began."""
    seen, tick, began = 0, FIRST_TICK, time.monotonic()
    sure = began + seconds / PROCESSORS
    handle = os.pidfd_open(pid)
    try:
        poll = select.poll()
        poll.register(handle, select.POLLIN)
        while True:
            now = time.monotonic()
            left = min(until - now, seconds if now < sure else seconds - processor_time(pid))
            if left <= 0:
                return False, seen
            if poll.poll(max(1, int(1000 * min(tick, left)))):
                return True, seen
            seen, tick = max(seen, high_water(pid)), min(2 * tick, LAST_TICK)
    finally:
        os.close(handle)


def processor_time(pid: int) -> float:
    """The processor time of a running process so far, of all its threads; 0 if it can't be told."""
    with suppress(OSError, ValueError, IndexError):
        with open(f"/proc/{pid}/stat") as line:
            words = line.read().rpartition(")")[2].split()
        return (int(words[11]) + int(words[12])) / os.sysconf("SC_CLK_TCK")
    return 0.0


def high_water(pid: int) -> int:
    """The greatest resident size of a running process so far, in KiB; 0 if it can't be told."""
    with suppress(OSError, ValueError, IndexError):
        with open(f"/proc/{pid}/status", "rb", buffering=0) as status:
            return int(status.read(4096).partition(b"VmHWM:")[2].split(maxsplit=1)[0])
    return 0


def greatest(seen: int, told: int) -> float | None:
    """The greatest resident size in MB. What the system tells at the end counts only above what it also tells of the process that
    started the program, since a new process begins with the figure of that one."""
    floor = resource.getrusage(resource.RUSAGE_SELF).ru_maxrss
    most = told if told > floor else seen
    return round(most * 1024 / 1e6, 1) if most else None
