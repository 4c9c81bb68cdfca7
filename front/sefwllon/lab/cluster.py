"""The workers of a Dask scheduler."""

from __future__ import annotations

import contextlib
import importlib
import logging
import queue
import sys
import tempfile
import time
from pathlib import Path
from typing import Any
from uuid import uuid4

from ..output import complain
from ..problem import Trouble
from .needs import needed
from .parcel import packed
from .pool import Done, Task

CONNECT_SECONDS = 10
"""How long it is waited for a scheduler to answer."""
RESULT_SECONDS = 5
"""How long it is waited at a time for a result that is there, and that a worker keeps."""
SIZE_SECONDS = 1.0
"""How long the workers are taken to be those that the scheduler told when it was asked; it takes a message there and back."""
CLOSE_SECONDS = 3


class Gone(Trouble):
    """The scheduler does not answer any more."""

    def __init__(self, address: str) -> None:
        super().__init__(f"the scheduler at {address} no longer answers")


class Cluster:
    """A pool of the workers that a scheduler has, and of those that come later."""

    def __init__(self, address: str, programs: dict[str, str]):
        library = needed("distributed", "--cluster")
        hush()
        self.address, self.name = address, uuid4().hex[:12]
        self.threads, self.asked = 0, 0.0
        self.ready: queue.SimpleQueue[Any] = queue.SimpleQueue()
        self.tasks: dict[str, tuple[Task, Any]] = {}
        self.client = connected(library, address)
        self.folder = tempfile.TemporaryDirectory(prefix="sefwllon-")
        try:
            path, self.sums = packed(programs, Path(self.folder.name))
            self.client.upload_file(str(path))
        except OSError as fault:
            self.close()
            raise Trouble(f"the programs can't be sent to {address}: {fault}") from None
        except BaseException:
            self.close()
            raise
        sys.path.insert(0, str(path))
        self.do = importlib.import_module(f"{path.stem}.lab.parcel").do
        if not self.size():
            complain(f"the scheduler at {address} has no worker yet: start one with `dask-worker {address}`")

    def size(self) -> int:
        """How many threads the workers have together; 0 while there is none."""
        now = time.monotonic()
        if not self.threads or now >= self.asked + SIZE_SECONDS:
            workers = self.client.scheduler_info().get("workers", {}).values()
            self.threads, self.asked = sum(int(worker.get("nthreads", 1)) for worker in workers), now
        return self.threads

    def submit(self, task: Task) -> None:
        key = f"sefwllon-{self.name}-{task.number}-{uuid4().hex[:8]}"
        future = self.client.submit(self.do, task.kind, task.job, self.sums, key=key, pure=False)
        self.tasks[key] = (task, future)
        future.add_done_callback(self.ready.put)

    def next(self, seconds: float) -> Done | None:
        try:
            future = self.ready.get(timeout=max(0.001, seconds))
        except queue.Empty:
            if self.client.status != "running":
                raise Gone(self.address) from None
            return None
        if future.key not in self.tasks:
            return None
        return self.taken(future)

    def taken(self, future: Any) -> Done | None:
        """What a task that is over gave. A result whose worker is gone is made anew by Dask, and comes later."""
        task, _ = self.tasks[future.key]
        if future.status == "cancelled":
            raise Gone(self.address)
        try:
            told = future.result(timeout=RESULT_SECONDS)
        except TimeoutError:
            return self.later(future)
        except Exception as fault:
            if future.status == "lost":
                return self.later(future)
            if self.client.status != "running" or future.status == "cancelled":
                raise Gone(self.address) from None
            told = {"fault": failure(fault)}
        del self.tasks[future.key]
        future.release()
        return Done(task.number, told.get("result"), told.get("fault"), told.get("where", ""))

    def later(self, future: Any) -> Done | None:
        """Nothing yet: a result that is lost, and made anew, is asked for again, as long as the scheduler is there."""
        if self.client.status != "running":
            raise Gone(self.address) from None
        self.ready.put(future)
        return None

    def close(self) -> None:
        """Lets go of what is under way. Programs that run on workers end by themselves, at their time limit at the latest."""
        with contextlib.suppress(Exception):
            if self.client.status == "running":
                self.client.cancel([future for _, future in self.tasks.values()], force=True)
        self.tasks.clear()
        with contextlib.suppress(Exception):
            self.client.close(timeout=CLOSE_SECONDS)
        sys.path[:] = [path for path in sys.path if not path.startswith(self.folder.name)]
        self.folder.cleanup()


def failure(fault: Exception) -> str:
    """Why Dask gave a task up, in a sentence."""
    if type(fault).__name__ == "KilledWorker":
        return "each worker that tried it died"
    return f"it failed on a worker: {type(fault).__name__}: {fault}"


def connected(library: Any, address: str) -> Any:
    """A client of the scheduler at an address."""
    try:
        return library.Client(address, timeout=CONNECT_SECONDS, set_as_default=False, name="sefwllon")
    except (OSError, ValueError, TimeoutError) as fault:
        why = "" if isinstance(fault, OSError) else f" ({fault})"
        raise Trouble(
            f"no Dask scheduler answers at {address}{why}: start one with `dask-scheduler`, or name the address that it prints"
        ) from None


def hush() -> None:
    """What Dask says of its own workings is not for standard error: what matters is told in sentences."""
    logging.disable(logging.CRITICAL)
