"""Who is let in: requests to this address, from this page or from no page, with the token."""

from __future__ import annotations

import hmac
import json
from collections.abc import Callable, Iterable
from http import HTTPStatus
from typing import Any

Environ = dict[str, Any]
Wsgi = Callable[[Environ, Callable[..., Any]], Iterable[bytes]]

NAMES = ("127.0.0.1", "localhost")
"""The names under which the service answers. Another name in `Host` is another site that leads here."""


class Guard:
    """Refuses a request before the application sees it: by `Host`, by `Origin`, and without the token.

    The token is the first part of the path, as in the link, so that all that a page asks for by a relative address has it too;
    or it stands in the header `Authorization: Bearer TOKEN`. A cookie would be sent to every port of this machine."""

    def __init__(self, app: Wsgi, token: str, port: int):
        self.app, self.token = app, token
        self.hosts = {f"{name}:{port}" for name in NAMES}
        self.origins = {f"http://{host}" for host in self.hosts}

    def __call__(self, environ: Environ, start: Callable[..., Any]) -> Iterable[bytes]:
        if environ.get("HTTP_HOST") not in self.hosts:
            return refuse(start, HTTPStatus.FORBIDDEN, "the request names another host: the service only answers as 127.0.0.1")
        if environ.get("HTTP_ORIGIN") not in (None, *self.origins):
            return refuse(start, HTTPStatus.FORBIDDEN, "the request comes from another site's page")
        if "HTTP_TRANSFER_ENCODING" in environ:
            return refuse(start, HTTPStatus.LENGTH_REQUIRED, "the request must give its length by Content-Length")
        first, slash, rest = environ.get("PATH_INFO", "").removeprefix("/").partition("/")
        if self.same(first):
            if not slash:
                start("308 Permanent Redirect", [("Location", f"/{self.token}/"), ("Content-Length", "0")])
                return [b""]
            environ["SCRIPT_NAME"] = f"/{self.token}"
            environ["PATH_INFO"] = f"/{rest}"
        elif not self.same(environ.get("HTTP_AUTHORIZATION", "").removeprefix("Bearer ")):
            return refuse(start, HTTPStatus.UNAUTHORIZED, "the token is missing: take the whole link that was printed at the start")
        return self.app(environ, start)

    def same(self, word: str) -> bool:
        """Whether a word is the token; how long the answer takes does not tell where they differ."""
        return hmac.compare_digest(word.encode("utf-8", "replace"), self.token.encode())


def refuse(start: Callable[..., Any], status: HTTPStatus, why: str) -> list[bytes]:
    told = json.dumps({"why": why}).encode()
    start(f"{status.value} {status.phrase}", [("Content-Type", "application/json"), ("Content-Length", str(len(told))), ("Cache-Control", "no-store")])
    return [told]
