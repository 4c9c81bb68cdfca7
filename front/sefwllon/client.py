"""A client of the service: what `sefwllon serve` answers, for Python.

    client = Client("http://127.0.0.1:8000/TOKEN/")
    answer = client.solve("dcop 2\\nvar x 2\\ntable x : 3 1\\nend\\n")
    answer["cost"], answer["values"]
"""

from __future__ import annotations

import json
import urllib.error
import urllib.request
from typing import Any

from .problem import Trouble

Told = dict[str, Any]
WAIT_SECONDS = 20
"""How long the service is asked to wait for an answer at a time."""


class Client:
    """Asks a service, by the link that it printed."""

    def __init__(self, link: str, token: str | None = None):
        self.link = link if link.endswith("/") else link + "/"
        self.token = token

    def health(self) -> Told:
        return self.ask("GET", "health")

    def solve(self, text: str | None = None, name: str = "asked.dcop", **asked: Any) -> Told:
        """Solves a problem: by its text, or as `problem=` of variables and tables; `method`, `time`, `error`, `certificate`."""
        return self.answer("solve", text=text, name=name, **asked)

    def check(self, text: str, report: str, name: str = "asked.dcop") -> Told:
        return self.answer("check", text=text, report=report, name=name)

    def order(self, text: str, name: str = "asked.dcop", **asked: Any) -> Told:
        return self.answer("order", text=text, name=name, **asked)

    def meetings(self, text: str | None = None, **asked: Any) -> Told:
        """A timetable from a CSV's text, or from `rows=`; `fixed` holds meetings in slots."""
        return self.answer("meetings", text=text, **asked)

    def answer(self, kind: str, **asked: Any) -> Told:
        """The answer to a request, once it is there. What is refused is raised."""
        job = self.begin(kind, **asked)
        try:
            while job["state"] in ("waiting", "running"):
                job = self.job(job["job"], WAIT_SECONDS)
        except KeyboardInterrupt:
            self.cancel(job["job"])
            raise
        if job["state"] != "done":
            raise Trouble(job["why"])
        return job["answer"]

    def begin(self, kind: str, **asked: Any) -> Told:
        """Asks for something, and gives the job, which may go on."""
        return self.ask("POST", kind, {name: value for name, value in asked.items() if value is not None})

    def job(self, name: str, wait: float = 0) -> Told:
        return self.ask("GET", f"jobs/{name}?wait={wait}")

    def stop(self, name: str) -> Told:
        """Stops a job, which keeps the best that it has found."""
        return self.ask("POST", f"jobs/{name}/stop", {})

    def cancel(self, name: str) -> Told:
        return self.ask("DELETE", f"jobs/{name}")

    def ask(self, method: str, where: str, told: Told | None = None) -> Told:
        """One request. A job that was refused or failed is given as it is; any other refusal is raised."""
        request = urllib.request.Request(self.link + where, method=method)
        if self.token is not None:
            request.add_header("Authorization", f"Bearer {self.token}")
        if told is not None:
            request.data = json.dumps(told).encode()
            request.add_header("Content-Type", "application/json")
        opener = urllib.request.build_opener(urllib.request.ProxyHandler({}))
        try:
            with opener.open(request, timeout=WAIT_SECONDS + 60) as answer:
                return json.load(answer)
        except urllib.error.HTTPError as fault:
            with fault:
                return refused(fault.code, fault.read())
        except urllib.error.URLError as fault:
            raise Trouble(f"the service does not answer: {fault.reason}") from None


def refused(code: int, printed: bytes) -> Told:
    try:
        told = json.loads(printed)
    except ValueError:
        raise Trouble(f"that is not the service of Sefwllon: it answered with the status {code}") from None
    if "job" in told:
        return told
    raise Trouble(told.get("why", f"the service answered with the status {code}"))
