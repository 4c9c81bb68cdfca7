"""The addresses of the service, and of the page over it."""

from __future__ import annotations

import contextlib
import csv
import io
import json
import threading
import time
from collections.abc import Iterator
from pathlib import Path
from typing import Any

from flask import Flask, Response, jsonify, request, send_file

from .. import __version__
from ..explain import explain
from ..problem import Trouble, parse
from ..programs import Programs
from ..solving import Refused
from . import answers, trace
from .jobs import Full, Job, Limits, Pool, Told, Unknown

STATIC = Path(__file__).resolve().parent / "static"
D3 = Path("/usr/share/nodejs/d3/dist/d3.min.js")
"""Where Debian's node-d3 has it."""
MOST_WAIT = 60.0
"""How long a request for a job's answer may wait for it."""
MOST_PLAN = 2**20
"""How long the CSV of a timetable may be, of which something is asked at once."""
GONE_SECONDS = 3.0
"""How long after a page was closed its programs are ended: so long may it take to be loaded anew."""
BEAT_SECONDS = 1.0
"""How often it is tested whether a page is still there."""
MOST_STEPS = 4
"""How many steps of runs are replayed at the same time."""

HEADERS = {
    "Cache-Control": "no-store",
    "Content-Security-Policy": "default-src 'none'; script-src 'self'; style-src 'self'; connect-src 'self'; img-src 'self' blob:; "
    "base-uri 'none'; form-action 'none'; frame-ancestors 'none'",
    "Cross-Origin-Opener-Policy": "same-origin",
    "Cross-Origin-Resource-Policy": "same-origin",
    "Referrer-Policy": "no-referrer",
    "X-Content-Type-Options": "nosniff",
}
"""What each answer says: it is for this page alone, and is not kept by the browser."""

FIELDS: dict[str, tuple[str, ...]] = {
    "solve": ("name", "text", "method", "time", "error", "gap", "workers", "cells", "certificate"),
    "check": ("name", "text", "report", "time"),
    "order": ("name", "text", "tries"),
    "meetings": ("text", "time", "gap", "fixed"),
    "wish": ("text", "time", "fixed", "wish"),
    "view": ("name", "text"),
    "run": ("name", "text", "budget", "error", "report"),
    "dpop": ("name", "text"),
}
"""What may be asked of each kind of job."""


class Pages:
    """The pages that are open. Where one is closed, its jobs end a little later."""

    def __init__(self, pool: Pool):
        self.pool = pool
        self.open: dict[str, int] = {}
        self.lock = threading.Lock()

    def come(self, page: str) -> None:
        with self.lock:
            self.open[page] = self.open.get(page, 0) + 1

    def go(self, page: str) -> None:
        with self.lock:
            self.open[page] -= 1
        timer = threading.Timer(GONE_SECONDS, self.end, [page])
        timer.daemon = True
        timer.start()

    def end(self, page: str) -> None:
        with self.lock:
            if self.open.get(page):
                return
            self.open.pop(page, None)
        self.pool.cancel_of(page)


def make_app(pool: Pool, first: Told | None = None) -> Flask:
    """The application; `first` is the file that the page begins with."""
    app = Flask(__name__, static_folder=str(STATIC), static_url_path="/static")
    app.json.sort_keys = False  # type: ignore[attr-defined]
    pages = Pages(pool)
    steps = threading.BoundedSemaphore(MOST_STEPS)

    @app.before_request
    def measure() -> tuple[Response, int] | None:
        """Refuses what is too long. Some of it is read, so that who sends it sees the answer."""
        length = request.content_length or 0
        if length <= pool.limits.bytes:
            return None
        request.stream.read(min(length, 2 * pool.limits.bytes))
        return jsonify(why=f"the request is longer than {pool.limits.bytes:,} bytes"), 413

    @app.after_request
    def headers(response: Response) -> Response:
        response.headers.update(HEADERS)
        return response

    @app.errorhandler(Full)
    def full(fault: Full) -> tuple[Response, int, dict[str, str]]:
        return jsonify(why=str(fault)), 429, {"Retry-After": "5"}

    @app.errorhandler(Trouble)
    def trouble(fault: Trouble) -> tuple[Response, int]:
        return jsonify(why=str(fault)), 422

    @app.errorhandler(Refused)
    def refused(fault: Refused) -> tuple[Response, int]:
        return jsonify(why=explain(fault.answer.text, "")), 422

    @app.errorhandler(Unknown)
    def unknown(fault: Unknown) -> tuple[Response, int]:
        return jsonify(why=str(fault)), 404

    for code, why in (
        (400, "the request is not JSON, which this address needs"),
        (404, "there is nothing at this address"),
        (405, "this address does not take that HTTP method"),
        (500, "the service failed on this request"),
    ):
        app.register_error_handler(code, lambda fault, code=code, why=why: (jsonify(why=why), code))

    @app.get("/")
    def index() -> Response:
        return send_file(STATIC / "index.html")

    @app.get("/service")
    def service() -> Response:
        return send_file(STATIC / "service.html")

    @app.get("/d3.js")
    def d3() -> Response:
        if not D3.is_file():
            raise Unknown("D3 is missing: install Debian's node-d3")
        return send_file(D3, mimetype="text/javascript")

    @app.get("/first")
    def first_file() -> Response:
        return jsonify(first)

    @app.get("/health")
    def health() -> Response:
        programs = Programs()
        there = {"dcop": bool(programs.dcop), "dcop_order": bool(programs.order), "dcop_search": bool(programs.search), "dcop_trace": bool(programs.trace)}
        counts = {state: pool.count(state) for state in ("waiting", "running")}
        return jsonify(status="ok", version=__version__, programs=there, d3=D3.is_file(), processes=pool.limits.processes, jobs=counts)

    @app.post("/<any(solve, check, order, meetings, wish, view, run, dpop):kind>")
    def ask(kind: str) -> tuple[Response, int]:
        asked, owner = read_request(kind, pool.limits)
        job = pool.submit(kind, asked, owner)
        pool.wait(job, seconds_of("wait", MOST_WAIT))
        return answer_of(job)

    @app.get("/jobs/<name>")
    def job_of(name: str) -> tuple[Response, int]:
        job = pool.get(name)
        pool.wait(job, seconds_of("wait", MOST_WAIT))
        return jsonify(job.told()), 200 if job.over else 202

    @app.post("/jobs/<name>/stop")
    def stop(name: str) -> tuple[Response, int]:
        return jsonify(pool.stop(name).told()), 200

    @app.delete("/jobs/<name>")
    def cancel(name: str) -> tuple[Response, int]:
        return jsonify(pool.cancel(name).told()), 200

    @app.get("/jobs/<name>/after/<int:count>")
    def after(name: str, count: int) -> Response:
        """What the agents of a run have come to after so many events, and what their messages say where `dcop_trace` is there."""
        job = pool.get(name)
        if job.kind != "run" or job.answer is None:
            raise Trouble("that job is not a finished run")
        with steps:
            run = trace.Run(Programs(), parse(job.answer["problem"]), job.answer["report"])
            return jsonify(run.after(count, trace.names_of(job.answer)))

    @app.post("/timetable/<any(look, where, file):what>")
    def timetable(what: str) -> Response:
        """What is told of a timetable at once: what it costs, where a meeting can go, a file to keep."""
        told = body()
        values, fixed = told.get("values"), told.get("fixed") or {}
        if what == "where":
            told["fixed"] = {name: slot for name, slot in fixed.items() if name != told.get("meeting")}
        text = answers.plan_text(told)
        if len(text) > MOST_PLAN:
            raise Trouble(f"the timetable is longer than {MOST_PLAN:,} letters")
        if not isinstance(values, dict):
            raise Trouble("`values` must be an object with the slot of each meeting")
        if what == "look":
            return jsonify(answers.look(text, values))
        if what == "where":
            return jsonify(answers.where(text, values, str(told.get("meeting"))))
        return Response(answers.file_of(text, values, str(told.get("kind")), str(told.get("name") or "timetable.csv")), mimetype="text/plain")

    @app.get("/pages/<page>/events")
    def events(page: str) -> Response:
        """What happens to a page's jobs, as it happens. While this is open, so is the page."""

        def lines() -> Iterator[str]:
            pages.come(page)
            try:
                since = 0
                yield ": hello\n\n"
                while not pool.closed:
                    since, news = pool.news(page, since, BEAT_SECONDS)
                    yield f"data: {json.dumps(news)}\n\n" if news else ": still here\n\n"
                    time.sleep(0.05)  # what changes at once is told at once
            finally:
                pages.go(page)

        return Response(lines(), mimetype="text/event-stream")

    return app


def answer_of(job: Job) -> tuple[Response, int]:
    """A job as the answer to its question: 200 where it is over, 202 where it goes on, 422 where it was refused."""
    status = 422 if job.state == "refused" else 500 if job.state == "failed" else 200 if job.over else 202
    return jsonify(job.told()), status


def seconds_of(name: str, most: float) -> float:
    """A number of seconds from the address, 0 where there is none."""
    word = request.args.get(name, "0")
    with contextlib.suppress(ValueError):
        if 0 <= float(word):
            return min(float(word), most)
    raise Trouble(f"`{name}` must be a number of seconds, not `{word[:40]}`")


def body() -> Told:
    """The request's JSON, an object."""
    told = request.get_json(force=True, silent=True)
    if not isinstance(told, dict):
        raise Trouble("the request must be a JSON object with the fields that are listed on the page /service")
    return told


def read_request(kind: str, limits: Limits) -> tuple[Told, str]:
    """What is asked, with just the fields of its kind, and whose it is. A body that is no JSON is the problem's own text."""
    if request.mimetype == "application/json":
        told = body()
    else:
        told = dict(request.args)
        told["text"] = request.get_data(parse_form_data=False).decode("utf-8", "replace")
        told.pop("wait", None)
    owner = str(told.pop("page", ""))
    return checked(kind, with_text(kind, told), limits), owner


def with_text(kind: str, told: Told) -> Told:
    """The request with its problem as text, however it is told."""
    if "problem" in told:
        told["text"] = answers.problem_text(told.pop("problem"))
    if kind in ("meetings", "wish") and "rows" in told:
        out = io.StringIO()
        csv.writer(out, lineterminator="\n").writerows(told.pop("rows"))
        told["text"] = out.getvalue()
    if kind in ("meetings", "wish"):
        told.pop("name", None)
    else:
        told.setdefault("name", "asked.dcop")
    return told


def checked(kind: str, told: Told, limits: Limits) -> Told:
    """The request, where all its fields are known and of their kind."""
    strange = [name for name in told if name not in FIELDS[kind]]
    if strange:
        raise Trouble(f"/{kind} takes {', '.join(FIELDS[kind])}, not {strange[0][:40]}")
    for name in ("text", "name", "report"):
        if not isinstance(told.get(name, ""), str):
            raise Trouble(f"`{name}` must be a text")
    if not told.get("text"):
        raise Trouble("the request has no `text`, which must be the problem")
    if kind == "check" and not told.get("report"):
        raise Trouble("the request has no `report`, which must be the report to check")
    for name in ("tries", "budget", "workers", "cells"):
        if name in told:
            told[name] = whole(name, told[name])
    if kind in ("solve", "check", "meetings", "wish"):
        told["time"] = min(number_of("time", told.get("time") or limits.usual_seconds), limits.seconds)
    if "certificate" in told:
        told["certificate"] = told["certificate"] in (True, "yes", "true", "1", 1)
    fixed: Any = told.get("fixed", {})
    if not isinstance(fixed, dict) or not all(isinstance(slot, str) for slot in fixed.values()):
        raise Trouble("`fixed` must be an object with the slot of each meeting that is held")
    if kind == "wish":
        wish: Any = told.get("wish")
        if not isinstance(wish, dict) or not isinstance(wish.get("slots"), list) or wish.get("taste") not in ("like", "dislike"):
            raise Trouble("`wish` must have a meeting, a taste (like or dislike) and slots")
    return told


def whole(name: str, told: Any) -> int:
    try:
        if isinstance(told, bool) or int(told) != float(told) or int(told) < 0:
            raise ValueError
        return int(told)
    except (TypeError, ValueError, OverflowError):
        raise Trouble(f"`{name}` must be a whole number from 0 up") from None


def number_of(name: str, told: Any) -> float:
    try:
        if isinstance(told, bool) or not 0 < float(told) < 1e9:
            raise ValueError
        return float(told)
    except (TypeError, ValueError):
        raise Trouble(f"`{name}` must be a number of seconds above 0") from None
