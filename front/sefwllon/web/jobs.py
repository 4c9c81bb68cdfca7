"""Jobs: what is asked of the programs, each in a process of its own, so many at a time."""

from __future__ import annotations

import contextlib
import hashlib
import json
import os
import secrets
import signal
import subprocess
import sys
import tempfile
import threading
import time
from collections import OrderedDict
from dataclasses import dataclass, field
from pathlib import Path
from typing import Any

from ..problem import Trouble

Request = dict[str, Any]
Told = dict[str, Any]

PACKAGES = Path(__file__).resolve().parents[2]
"""The folder that has this package: a worker finds it there."""
END_SECONDS = 0.3
"""How long a worker has to end by itself when it is told to."""
JOIN_SECONDS = 3.0
"""How long is waited for what a thread still does behind that."""
GRACE_SECONDS = 60.0
"""How much longer than its time a job may take, for what is done before and behind the search."""
OVER = ("done", "refused", "failed", "cancelled")
"""The states in which a job stays."""
LAST = 16
"""How many jobs that are over are not let go of, however long their answers are."""
MOST_BOUNDS = 1_000
"""How many bounds of a job are kept while it runs."""


@dataclass(frozen=True)
class Limits:
    """What the service takes at most."""

    processes: int = max(1, (os.cpu_count() or 2) // 2)
    waiting: int = 64
    seconds: float = 600.0
    usual_seconds: float = 60.0
    bytes: int = 8 * 2**20
    kept_answers: int = 256
    kept_bytes: int = 64 * 2**20
    jobs: int = 1_000
    """How many jobs that are over can still be asked for, as far as they have not more bytes together than are kept."""


@dataclass
class Job:
    """Something that was asked, and how far it is."""

    id: str
    kind: str
    request: Request
    owner: str
    state: str = "waiting"
    version: int = 0
    came: float = field(default_factory=time.monotonic)
    began: float | None = None
    ended: float | None = None
    said: str = ""
    bounds: list[Told] = field(default_factory=list)
    answer: Told | None = None
    why: str | None = None
    kept: bool = False
    """Whether the answer was known from before."""
    process: subprocess.Popen[bytes] | None = None
    stopping: bool = False
    size: int = 0
    """How many bytes it takes, about: what was asked, and the answer."""

    @property
    def over(self) -> bool:
        return self.state in OVER

    def told(self, whole: bool = True) -> Told:
        """The job as the service tells it."""
        told: Told = {"job": self.id, "kind": self.kind, "state": self.state, "said": self.said, "seconds": round(self.seconds, 2)}
        told["bounds"] = list(self.bounds) if whole else self.bounds[-1:]
        if self.over:
            told |= {"kept": self.kept, "why": self.why}
            if whole:
                told["answer"] = self.answer
        return told

    @property
    def seconds(self) -> float:
        """For how long it has been running."""
        return 0.0 if self.began is None else (self.ended or time.monotonic()) - self.began


class Full(Trouble):
    """So many jobs wait that no other is taken."""


class Unknown(Trouble):
    """What is asked for is not there."""


class Kept:
    """Answers by the content of what was asked, those that were used last."""

    def __init__(self, limits: Limits):
        self.limits = limits
        self.answers: OrderedDict[str, tuple[Told, int]] = OrderedDict()
        self.bytes = 0

    def get(self, key: str) -> Told | None:
        if key not in self.answers:
            return None
        self.answers.move_to_end(key)
        return self.answers[key][0]

    def put(self, key: str, answer: Told, size: int) -> None:
        if size > self.limits.kept_bytes // 4:
            return
        self.bytes += size - self.answers.pop(key, ({}, 0))[1]
        self.answers[key] = (answer, size)
        while len(self.answers) > self.limits.kept_answers or self.bytes > self.limits.kept_bytes:
            self.bytes -= self.answers.popitem(last=False)[1][1]


def key_of(kind: str, request: Request) -> str:
    return hashlib.sha256(json.dumps([kind, request], sort_keys=True, ensure_ascii=False).encode("utf-8", "replace")).hexdigest()


class Pool:
    """Runs jobs, so many at a time: first for whom the fewest run."""

    def __init__(self, limits: Limits):
        self.limits = limits
        self.jobs: OrderedDict[str, Job] = OrderedDict()
        self.kept = Kept(limits)
        self.changed = threading.Condition()
        self.version = 0
        self.closed = False
        self.threads = [threading.Thread(target=self.serve, daemon=True, name=f"pool-{at}") for at in range(limits.processes)]
        for thread in self.threads:
            thread.start()

    def submit(self, kind: str, request: Request, owner: str = "") -> Job:
        """A job that waits, or that is over at once where its answer is kept."""
        job = Job(secrets.token_urlsafe(9), kind, request, owner)
        job.size = sum(len(told) for told in request.values() if isinstance(told, str))
        with self.changed:
            answer = self.kept.get(key_of(kind, request))
            if answer is not None:
                job.kept, job.state, job.answer = True, "done", answer
                job.began = job.ended = time.monotonic()
            elif self.count("waiting") >= self.limits.waiting:
                raise Full(f"{self.limits.waiting} requests already wait: try again later")
            self.jobs[job.id] = job
            self.forget()
            self.touch(job)
        return job

    def forget(self) -> None:
        """Lets go of the jobs that have been over the longest, where they are too many or too long."""
        over = [job for job in self.jobs.values() if job.over]
        left = sum(job.size for job in over)
        for at, job in enumerate(over[:-LAST]):
            if len(over) - at > self.limits.jobs or left > self.limits.kept_bytes:
                left -= job.size
                del self.jobs[job.id]

    def count(self, state: str) -> int:
        return sum(job.state == state for job in self.jobs.values())

    def get(self, name: str) -> Job:
        try:
            return self.jobs[name]
        except KeyError:
            raise Unknown("there is no such job, or it was over long ago") from None

    def touch(self, job: Job) -> None:
        """Says that something about a job has changed; the lock is held."""
        self.version += 1
        job.version = self.version
        self.changed.notify_all()

    def wait(self, job: Job, seconds: float) -> None:
        """Waits until a job is over, at most so long."""
        with self.changed:
            self.changed.wait_for(lambda: job.over or self.closed, timeout=seconds)

    def news(self, owner: str, since: int, seconds: float) -> tuple[int, list[Told]]:
        """What has changed of somebody's jobs, once something has or the time is over."""

        def mine() -> list[Job]:
            return [job for job in self.jobs.values() if job.owner == owner and job.version > since]

        with self.changed:
            self.changed.wait_for(lambda: bool(mine()) or self.closed, timeout=seconds)
            found = mine()
            return max([since, *(job.version for job in found)]), [job.told(whole=False) for job in found]

    def stop(self, name: str) -> Job:
        """Stops a job, which keeps the best that it has found."""
        job = self.get(name)
        with self.changed:
            if job.state == "waiting":
                return self.cancel(name)
            if job.process is not None and not job.over:
                job.stopping = True
                with contextlib.suppress(ProcessLookupError):
                    job.process.send_signal(signal.SIGINT)
        return job

    def cancel(self, name: str) -> Job:
        """Ends a job; what it has found is lost."""
        job = self.get(name)
        with self.changed:
            if not job.over:
                job.state, job.ended = "cancelled", time.monotonic()
                job.why = "it was cancelled"
                self.touch(job)
        if job.process is not None:
            end(job.process)
        return job

    def cancel_of(self, owner: str) -> None:
        """Ends all jobs of somebody who is gone."""
        for job in list(self.jobs.values()):
            if job.owner == owner and not job.over:
                self.cancel(job.id)

    def close(self) -> None:
        """Ends all that runs, and takes nothing more."""
        with self.changed:
            self.closed = True
            self.changed.notify_all()
        for job in list(self.jobs.values()):
            if not job.over:
                self.cancel(job.id)
        for thread in self.threads:
            thread.join(timeout=JOIN_SECONDS)

    def next(self) -> Job | None:
        """The job that runs next: of those that wait, one of whose owner the fewest run, and of these the first."""
        waiting = [job for job in self.jobs.values() if job.state == "waiting"]
        if not waiting:
            return None
        running = [job.owner for job in self.jobs.values() if job.state == "running"]
        return min(waiting, key=lambda job: running.count(job.owner))

    def serve(self) -> None:
        """What a thread of the pool does: it runs one job after the other."""
        while True:
            with self.changed:
                self.changed.wait_for(lambda: self.closed or self.next() is not None)
                job = self.next()
                if self.closed or job is None:
                    return
                job.state, job.began = "running", time.monotonic()
                self.touch(job)
            try:
                self.run(job)
            except Exception as fault:  # a job may fail, and the pool goes on
                self.finish(job, "failed", why=f"the service failed on this job: {fault}")

    def run(self, job: Job) -> None:
        """Runs a job's worker to its end, in a folder of its own that is taken away behind it."""
        with tempfile.TemporaryDirectory(prefix="sefwllon-") as folder:
            reading, writing = os.pipe()
            try:
                process = self.start(job, folder, writing)
            finally:
                os.close(writing)
            listener = threading.Thread(target=self.listen, args=(job, reading), daemon=True)
            listener.start()
            try:
                given = json.dumps({"kind": job.kind, **job.request}).encode()
                printed = process.communicate(given, timeout=self.limit(job))[0]
            except subprocess.TimeoutExpired:
                self.finish(job, "failed", why=f"it took longer than {self.limit(job):.0f} s, the limit of the service")
                printed = b""
            finally:
                end(process)
            listener.join(timeout=JOIN_SECONDS)
            self.take(job, printed, process.returncode)

    def limit(self, job: Job) -> float:
        """After how many seconds a job is ended from outside."""
        return min(float(job.request.get("time") or self.limits.usual_seconds), self.limits.seconds) + GRACE_SECONDS

    def start(self, job: Job, folder: str, writing: int) -> subprocess.Popen[bytes]:
        path = os.pathsep.join(filter(None, [str(PACKAGES), os.environ.get("PYTHONPATH")]))
        process = subprocess.Popen(
            [sys.executable, "-m", "sefwllon.web.worker"],
            cwd=folder,
            env={name: told for name, told in os.environ.items() if name != "SEFWLLON_TOKEN"} | {"PYTHONPATH": path},
            stdin=subprocess.PIPE,
            stdout=subprocess.PIPE,
            stderr=writing,
            process_group=0,
        )
        with self.changed:
            job.process = process
        if job.over:
            end(process)
        return process

    def listen(self, job: Job, reading: int) -> None:
        """Takes what a worker says while it runs: lines of JSON; others are for who looks at the service's own words."""
        with os.fdopen(reading, encoding="utf-8", errors="replace") as lines:
            for line in lines:
                try:
                    told = json.loads(line)
                    said = str(told["said"])
                except (ValueError, TypeError, KeyError):
                    print(line, end="", file=sys.stderr, flush=True)
                    continue
                with self.changed:
                    job.said = said
                    bounds = told.get("bounds")
                    if bounds and (not job.bounds or {**job.bounds[-1], "seconds": 0} != {**bounds, "seconds": 0}):
                        job.bounds.append(bounds | {"seconds": round(job.seconds, 2)})
                        del job.bounds[1 : max(1, len(job.bounds) - MOST_BOUNDS)]
                    self.touch(job)

    def take(self, job: Job, printed: bytes, status: int) -> None:
        """Takes what a worker printed."""
        try:
            told = json.loads(printed)
        except ValueError:
            how = f"by the signal {-status}" if status < 0 else f"with exit status {status}"
            self.finish(job, "failed", why=f"its process ended without an answer, {how}")
            return
        if "refused" in told:
            self.finish(job, "refused", why=told["refused"])
            return
        job.size += len(printed)
        final = told.pop("final", False)
        if final and not job.stopping:
            with self.changed:
                self.kept.put(key_of(job.kind, job.request), told["answer"], len(printed))
        self.finish(job, "done", answer=told["answer"])

    def finish(self, job: Job, state: str, answer: Told | None = None, why: str | None = None) -> None:
        with self.changed:
            if not job.over:
                job.state, job.answer, job.why, job.ended = state, answer, why, time.monotonic()
                self.touch(job)


def end(process: subprocess.Popen[bytes]) -> None:
    """Ends a worker, and with it the programs that it runs: they are one group of processes."""
    for what in (signal.SIGTERM, signal.SIGKILL):
        try:
            os.killpg(process.pid, what)
        except (ProcessLookupError, PermissionError):
            return
        try:
            process.wait(timeout=END_SECONDS)
        except subprocess.TimeoutExpired:
            continue
