"""What the tests of the page and of the service share: a service in a process of its own, and requests as they are on the wire."""

from __future__ import annotations

import contextlib
import http.client
import importlib.util
import json
import os
import signal
import subprocess
import sys
import tempfile
import time
from pathlib import Path
from typing import Any
from urllib.parse import urlsplit

from sefwllon.client import Client

from .case import FAKE, FRONT

HAS_FLASK = importlib.util.find_spec("flask") is not None
NO_FLASK = "no Flask: passed over; Debian's python3-flask has it"
PATIENCE = 240
"""How many seconds a test waits for what comes in less than one on an idle machine."""


COMPILED = tempfile.TemporaryDirectory(prefix="sefwllon-compiled-")
"""Where the services of the tests keep their modules compiled: each job is a process that imports them."""


class Served:
    """A service that runs until the end of the test."""

    def __init__(self, *words: str, program: str = FAKE, order: str | None = None, fake: str = "", command: str = "serve", **environment: str):
        kept = {name: value for name, value in os.environ.items() if not name.startswith("SEFWLLON_")}
        kept |= {"SEFWLLON_DCOP": program, "SEFWLLON_SEARCH": "", "SEFWLLON_TRACE": "", "FAKE": fake, "PYTHONPATH": str(FRONT), "PYTHONPYCACHEPREFIX": COMPILED.name, **environment}
        kept.pop("PYTHONDONTWRITEBYTECODE", None)
        if order:
            kept["SEFWLLON_ORDER"] = order
        self.process = subprocess.Popen(
            [sys.executable, "-m", "sefwllon", command, *words], env=kept, stdout=subprocess.PIPE, stderr=subprocess.PIPE, text=True
        )
        assert self.process.stdout is not None
        self.link = self.process.stdout.readline().strip()
        if not self.link:
            self.end()
            raise AssertionError(f"the service did not start: {self.said}")
        self.client = Client(self.link)
        parts = urlsplit(self.link)
        self.host, self.port, self.token = parts.hostname or "", parts.port or 0, parts.path.strip("/")

    def __enter__(self) -> Served:
        return self

    def __exit__(self, *_: object) -> None:
        self.end()

    def end(self, how: int = signal.SIGTERM) -> int:
        """Ends it, and gives its exit status."""
        if self.process.poll() is None:
            self.process.send_signal(how)
        try:
            _, self.said = self.process.communicate(timeout=PATIENCE)
        except subprocess.TimeoutExpired:
            self.process.kill()
            _, self.said = self.process.communicate()
        return self.process.returncode

    def ask(self, method: str, path: str, body: bytes | None = None, **headers: str) -> tuple[int, Any, http.client.HTTPMessage]:
        """A request as it is told, and the status, the JSON or text, and the headers of what is answered."""
        connection = http.client.HTTPConnection(self.host, self.port, timeout=PATIENCE)
        try:
            connection.request(method, path, body, {name.replace("_", "-"): value for name, value in headers.items()})
            answer = connection.getresponse()
            text = answer.read().decode()
        finally:
            connection.close()
        told = json.loads(text) if text and "json" in (answer.headers["Content-Type"] or "") else text
        return answer.status, told, answer.headers

    def at(self, where: str) -> str:
        return f"/{self.token}/{where}"


def until(holds: Any, seconds: float = PATIENCE) -> Any:
    """Waits until something holds, and gives it."""
    end = time.monotonic() + seconds
    while time.monotonic() < end:
        found = holds()
        if found:
            return found
        time.sleep(0.05)
    raise AssertionError("it did not come to hold")


def children(process: int) -> list[int]:
    """The processes below a process, by what the machine tells."""
    found = []
    for stat in Path("/proc").glob("[0-9]*/stat"):
        try:
            words = stat.read_text().rpartition(")")[2].split()
        except OSError:
            continue
        if int(words[1]) == process:
            own = int(stat.parent.name)
            found += [own, *children(own)]
    return found


def workers(process: int) -> set[int]:
    """The workers of a service."""
    found = set()
    for one in children(process):
        with contextlib.suppress(OSError):
            if b"sefwllon.web.worker" in Path(f"/proc/{one}/cmdline").read_bytes():
                found.add(one)
    return found


def runs(process: int) -> bool:
    """Whether a process is there, and not just waited for."""
    try:
        return Path(f"/proc/{process}/stat").read_text().rpartition(")")[2].split()[0] != "Z"
    except OSError:
        return False
