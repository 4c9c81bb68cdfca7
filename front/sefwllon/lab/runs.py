"""One run of one method on one file, and the row that is told of it."""

from __future__ import annotations

import hashlib
import socket
import time
from collections.abc import Mapping
from contextlib import closing
from dataclasses import dataclass, field
from fractions import Fraction
from functools import lru_cache
from typing import Any

from ..best import is_better, nearest
from ..files import load
from ..problem import Problem, Trouble
from ..programs import Answer, Crashed
from ..report import Report, read_report
from ..searching import read_found
from ..solving import in_order, reordered
from ..tracing import traced
from ..translate import Translation, number
from .figures import message_figures
from .measured import Ran, measured
from .methods import Method, read_method
from .trees import tree_of

STATUS = {0: "solved", 1: "spent", 4: "wide", 7: "memory", 11: "many"}
"""How an exit status of a program is told; without one its time was over."""
CLOCK_TIMES, CLOCK_SECONDS = 10, 60
"""A run is also ended after so many times its processor time by the clock, and so many seconds more, whatever it does."""
KEPT = 4
"""How many problems a process keeps, for the other methods on them."""


@dataclass
class Run:
    """A run under way: what it has taken, and what is known."""

    method: Method
    told: Translation
    programs: Mapping[str, str]
    limit: float
    began: float = field(default_factory=time.monotonic)
    seconds: float = 0.0
    megabytes: float | None = None
    exit: int | None = None
    status: str = ""
    why: str = ""
    values: list[int] | None = None
    cost: int | None = None
    bound: int | None = None
    report: Report | None = None
    problem: Problem | None = None
    """The problem in the order in which the report has it."""
    certified: str | None = None
    """The report's text, if it has a certificate."""
    nodes: int | None = None
    elapsed: float = 0.0
    moments: list[tuple[float, int | None, int | None]] = field(default_factory=list)
    """After how many processor seconds which cost and which bound were known."""

    @property
    def goal(self) -> str:
        return self.told.problem.goal

    def go(self) -> None:
        """Runs the method. What a program answers that it can't have answered is told as wrong."""
        try:
            match self.method.name:
                case "order":
                    self.by_order()
                case "search":
                    self.by_search()
                case _:
                    self.by_dcop(self.told.problem, self.told.problem.text())
        except Crashed as fault:
            self.status, self.why = "crashed", str(fault)
        except Trouble as fault:
            self.status, self.why = "wrong", str(fault)
        self.elapsed = time.monotonic() - self.began

    def step(self, program: str, words: list[str], text: str) -> Ran:
        """Runs a program in what is left of the time."""
        left, clock = self.limit - self.seconds, CLOCK_TIMES * self.limit + CLOCK_SECONDS - (time.monotonic() - self.began)
        if min(left, clock) <= 0:
            return Ran("", None, 0.0, 0.0, None)
        ran = measured([self.programs[program], *words], text, left, clock)
        self.seconds, self.exit = self.seconds + ran.seconds, ran.status
        if ran.megabytes is not None:
            self.megabytes = max(ran.megabytes, self.megabytes or 0.0)
        return ran

    def judge(self, ran: Ran) -> bool:
        """Takes the status of a run. Whether there is an answer to read."""
        self.status = "time" if ran.status is None else STATUS.get(ran.status, "refused")
        if ran.status is not None and ran.status < 0:
            self.status, self.why = "crashed", f"ended by the signal {-ran.status}"
        elif self.status in ("refused", "wide", "many"):
            self.why = ran.text.strip()[:200]
        return self.status in ("solved", "spent")

    def options(self, *names: str) -> list[str]:
        """The words of these options, as far as they were named."""
        given = [(name, self.method.options[name]) for name in names if name in self.method.options]
        return [word for name, value in given for word in (f"--{name}", value)]

    def error_words(self) -> list[str]:
        error = int(self.method.error * self.told.scale)
        return ["--error", str(error)] if error else []

    def by_dcop(self, problem: Problem, text: str) -> None:
        """Runs `dcop solve`, with growing budgets if the method has them and none is named."""
        name = "dpop" if self.method.name == "order" else self.method.name
        words = ["solve", "--method", name, *self.options("workers", "cells", "certificate"), *self.error_words()]
        for budget in self.method.budgets:
            ran = self.step("dcop", [*words, "--budget", str(budget)] if budget is not None else words, text)
            if not self.judge(ran):
                return
            report = read_report(ran.text, problem)
            if problem.cost(report.values) != report.cost:
                raise Trouble("dcop printed a wrong cost for its values: don't trust this program")
            self.report, self.problem, self.certified = report, problem, ran.text if report.certificate else None
            self.take(in_order(report, problem, self.told.problem).values, report.cost, report.bound(self.goal))
            if self.status == "solved":
                return

    def by_order(self) -> None:
        """DPOP in the order of `dcop_order`."""
        ran = self.step("dcop_order", ["--tries", self.method.options.get("tries", "20000"), *self.options("seed")], self.told.problem.text())
        if self.judge(ran):
            found = reordered(self.told.problem, Answer(ran.text, ran.status, "dcop_order", self.programs["dcop_order"]))
            self.by_dcop(found, ran.text)

    def by_search(self) -> None:
        """Runs `dcop_search`, in growing budgets if none is named: each seeks what is better than the best sum that is known."""
        text, error, self.nodes = self.told.problem.text(), int(self.method.error * self.told.scale), 0
        for budget in self.method.budgets:
            words = [*self.error_words(), *self.options("cells"), "--budget", str(budget)]
            words += ["--better", str(self.cost)] if self.cost is not None else []
            ran = self.step("dcop_search", words, text)
            none = ran.status == 10
            if not none and not self.judge(ran):
                return
            answer = Answer(ran.text, ran.status, "dcop_search", self.programs["dcop_search"])
            found = read_found(answer, self.told.problem, self.cost, error)
            if found.values is not None and self.told.problem.cost(found.values) != found.cost:
                raise Trouble("dcop_search printed a wrong cost for its values: don't trust this program")
            self.nodes += found.nodes
            self.take(found.values, found.cost, found.bound)
            if found.ended:
                self.status = "solved"
                return

    def take(self, values: list[int] | None, cost: int | None, bound: int) -> None:
        """Takes what is known now."""
        if values is not None and cost is not None and (self.cost is None or not is_better(self.cost, cost, self.goal)):
            self.values, self.cost = values, cost
        self.bound = nearest(self.bound, bound, self.goal)
        if self.cost is not None and is_better(self.cost, self.bound, self.goal):
            raise Trouble(f"its sum {self.cost} is better than its bound {self.bound}: don't trust this program")
        self.moments.append((self.seconds, self.cost, self.bound))

    def row(self) -> dict[str, object]:
        """What is told of the run, in the file's own costs."""
        lower, upper = (self.bound, self.cost) if self.goal == "min" else (self.cost, self.bound)
        own = self.told.own_bounds(lower, upper)
        broken = [] if self.values is None else self.told.broken(self.values)
        if broken:
            none = self.told.none_keeps(self.bound)
            self.why = "no assignment keeps all hard constraints" if none else f"it breaks {len(broken)} hard constraints"
        cost = None if self.values is None or broken else self.told.own_sum(self.values)
        gap = None if cost is None or self.bound is None or self.cost is None else abs(Fraction(self.cost - self.bound, self.told.scale))
        return {
            "variables": len(self.told.problem.variables),
            "goal": self.goal,
            "status": self.status,
            "cost": cost,
            "lower": None if broken else own[0],
            "upper": None if broken else own[1],
            "gap": None if gap is None else gap + self.told.slack,
            "seconds": round(self.seconds, 4),
            "elapsed": round(self.elapsed, 4),
            "megabytes": self.megabytes,
            "exit": self.exit,
            "nodes": self.nodes,
            **self.figures(),
            "bounds": "" if broken else "; ".join(self.moment(*moment) for moment in self.moments),
            "why": self.why,
        }

    def moment(self, seconds: float, cost: int | None, bound: int | None) -> str:
        """What was known at a moment: after how many seconds, the cost, and what no assignment is better than."""
        words = ["-" if it is None else number(self.told.own_cost(it)) for it in (cost, bound)]
        return f"{seconds:.4f} {' '.join(words)}"

    def figures(self) -> dict[str, int]:
        """The figures of the messages, if the run ended with a report."""
        if self.report is None or self.problem is None or self.status not in ("solved", "spent"):
            return {}
        tree = tree_of(self.problem) if self.report.method == "dpop" else None
        if self.report.certificate != "log" or self.certified is None or "dcop_trace" not in self.programs:
            return message_figures(self.problem, self.report, tree)
        with closing(traced(self.programs["dcop_trace"], self.problem.text() + self.certified)) as events:
            return message_figures(self.problem, self.report, events=events)


@lru_cache(maxsize=KEPT)
def loaded(name: str, content: bytes) -> Translation:
    """The problem of a file, by its content."""
    return load(name, content.decode("utf-8", "replace"))


def run(job: dict[str, Any], programs: Mapping[str, str]) -> dict[str, object]:
    """The row of a run. A job has the file's name, its content and that one's checksum, the method's words and the time limit."""
    if hashlib.sha256(job["content"]).hexdigest() != job["checksum"]:
        raise Trouble(f"{job['name']} arrived damaged: its content is not what was sent")
    head = {"file": job["file"], "checksum": job["checksum"], "method": job["method"], "time": job["time"]}
    foot = {"host": socket.gethostname(), "versions": job["versions"]}
    try:
        told = loaded(job["name"], job["content"])
    except Trouble as trouble:
        return {**head, "status": "refused", "why": str(trouble), **foot}
    under_way = Run(read_method(job["method"]), told, programs, job["time"])
    under_way.go()
    return cells({**head, **under_way.row(), **foot})


def cells(row: dict[str, object]) -> dict[str, object]:
    """A row with costs as they are told to people."""
    return {name: number(value) if isinstance(value, Fraction) else value for name, value in row.items()}
