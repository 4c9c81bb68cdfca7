"""How the service is started and ended: a port of 127.0.0.1, a token, a browser."""

from __future__ import annotations

import os
import secrets
import signal
import socket
import sys
import tempfile
import threading
import webbrowser
from collections.abc import Callable
from html import escape
from pathlib import Path
from types import FrameType
from typing import Any

from ..problem import Trouble
from .jobs import Limits, Pool, Told

MISSING = "the page and the service need Flask: install Debian's python3-flask"
SHORTEST_TOKEN = 16
MOST_CONNECTIONS = 64
"""How many connections are served at the same time."""
CONNECTION_SECONDS = 30
"""How long a connection may say nothing of a request that it has begun."""


class Service:
    """The service at a port, with its pool of processes."""

    def __init__(self, port: int, limits: Limits, first: Told | None = None, token: str | None = None):
        try:
            from werkzeug.serving import ThreadedWSGIServer, WSGIRequestHandler

            from .app import make_app
        except ImportError:
            raise Trouble(MISSING) from None
        from .guard import Guard

        class Handler(WSGIRequestHandler):
            """Says nothing of itself, and writes no log: the addresses have the token in them."""

            timeout = CONNECTION_SECONDS
            server_version = "sefwllon"
            sys_version = ""

            def log(self, *words: object) -> None:
                pass

        class Server(ThreadedWSGIServer):
            """Serves so many connections at the same time, and closes the others at once."""

            free = threading.BoundedSemaphore(MOST_CONNECTIONS)

            def process_request(self, request: Any, address: Any) -> None:
                if not self.free.acquire(blocking=False):
                    self.shutdown_request(request)
                    return
                super().process_request(request, address)

            def process_request_thread(self, request: Any, address: Any) -> None:
                try:
                    super().process_request_thread(request, address)
                finally:
                    self.free.release()

        self.token = token or token_of()
        listening = listen(port)
        self.port: int = listening.getsockname()[1]
        self.pool = Pool(limits)
        app = make_app(self.pool, first)
        self.server = Server("127.0.0.1", self.port, Guard(app, self.token, self.port), Handler, fd=listening.fileno())
        listening.close()
        self.thread = threading.Thread(target=self.server.serve_forever, name="service", daemon=True)
        self.thread.start()

    @property
    def link(self) -> str:
        return f"http://127.0.0.1:{self.port}/{self.token}/"

    def close(self) -> None:
        """Takes nothing more, and ends all that runs."""
        self.server.shutdown()
        self.server.server_close()
        self.pool.close()


def token_of() -> str:
    """The token by SEFWLLON_TOKEN, or a new one."""
    told = os.environ.get("SEFWLLON_TOKEN")
    if told is None:
        return secrets.token_urlsafe(24)
    if len(told) < SHORTEST_TOKEN or not all(letter.isascii() and (letter.isalnum() or letter in "-_") for letter in told):
        raise Trouble(f"SEFWLLON_TOKEN must have at least {SHORTEST_TOKEN} characters, and only letters, digits, - and _")
    return told


def listen(port: int) -> socket.socket:
    listening = socket.socket(socket.AF_INET, socket.SOCK_STREAM)
    listening.setsockopt(socket.SOL_SOCKET, socket.SO_REUSEADDR, 1)
    try:
        listening.bind(("127.0.0.1", port))
    except OSError as fault:
        listening.close()
        raise Trouble(f"the port {port} can't be used ({fault.strerror}): name another port by --port, or leave it out") from None
    listening.listen(128)
    return listening


def serve(service: Service, began: Callable[[], None]) -> int:
    """Serves until it is told to end, by SIGTERM or ctrl-C."""
    told = threading.Event()

    def end(number: int, frame: FrameType | None) -> None:
        told.set()

    for which in (signal.SIGTERM, signal.SIGINT):
        signal.signal(which, end)
    began()
    try:
        told.wait()
    finally:
        service.close()
    return 0


def open_page(link: str) -> tempfile.TemporaryDirectory[str]:
    """Opens the page in a browser. It is led there by a file that only this user can read, in the folder that is given: the
    words of a program, which would have the token in them, can be read by every user of the machine."""
    folder = tempfile.TemporaryDirectory(prefix="sefwllon-")
    file = Path(folder.name) / "open.html"
    file.touch(mode=0o600)
    file.write_text(f'<!doctype html><meta charset="utf-8"><meta http-equiv="refresh" content="0; url={escape(link)}"><title>Sefwllon</title>')

    def lead() -> None:
        try:
            found = webbrowser.open(file.as_uri())
        except (OSError, ValueError, webbrowser.Error):
            found = False
        if not found:
            print("sefwllon: no browser was found: open the link yourself", file=sys.stderr, flush=True)

    threading.Thread(target=lead, daemon=True).start()
    return folder
