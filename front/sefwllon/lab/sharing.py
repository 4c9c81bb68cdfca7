"""One problem shared out: slices of it go to the places of a pool, and those whose budget was spent are sliced further.

That the slices of a slice make it up, and that the best of their answers is the best of all, is done here and is not proved."""

from __future__ import annotations

import heapq
import time
from collections import Counter
from collections.abc import Callable
from dataclasses import dataclass, field, replace

from ..best import Best, is_better
from ..bettering import Bettering
from ..output import undisturbed
from ..problem import Problem, Trouble
from ..programs import Answer
from ..searching import read_found
from ..solving import Aim
from .pool import Done, Pool, Task
from .slices import Slice, parts, restricted

FIRST_NODES, GROWTH = 100_000, 4
"""The budget of the whole problem, with which it is begun, and how many times more its slices' slices have."""
WAIT_SECONDS, START_SECONDS = 0.2, 0.2
"""How often it is told how far it is, and how long an assignment is bettered at the start."""
TRIES = 2
"""How often a slice is tried."""
LESS_CELLS = 1_048_576
"""How many cells the bounds of a slice have that has failed once, which may be for want of memory."""
LONGEST_SECONDS = 10**9


@dataclass
class Sharing:
    """A problem that is shared out."""

    problem: Problem
    pool: Pool
    search: str
    """The program `dcop_search`, by which it is told if an answer of it is wrong."""
    aim: Aim = field(default_factory=Aim)
    until: float | None = None
    cells: int | None = None
    tell: Callable[[str, Best], None] = lambda what, best: None
    best: Best = field(default_factory=Best)
    waiting: list[tuple[int, int, Slice]] = field(default_factory=list)
    """The slices that wait, those first in which the least cost is to be hoped for."""
    under_way: dict[int, Slice] = field(default_factory=dict)
    failed: list[tuple[Slice, str]] = field(default_factory=list)
    over: int | None = None
    """The worst bound of the slices that are over."""
    count: int = 0
    ends: Counter[str] = field(default_factory=Counter)
    """How many slices ended solved, with none, or spent."""
    places: Counter[str] = field(default_factory=Counter)
    """How many slices each worker answered."""

    def solve(self) -> Best:
        """Solves it, or keeps the best that is known when the time is over or the user stops it."""
        self.near = self.problem.neighbours()
        try:
            self.begin()
            while (self.waiting or self.under_way) and not self.decided and not self.best.stopped:
                self.hand_out()
                self.wait()
        except KeyboardInterrupt:
            self.best.stopped = "interrupted"
        except Trouble as trouble:
            self.best.stopped = str(trouble)
        with undisturbed():
            self.finish()
        return self.best

    def begin(self) -> None:
        """A first assignment, bettered for a moment; and all of the problem as the first slice."""
        bettering = Bettering(self.problem, [0] * len(self.problem.variables))
        bettering.descend(time.monotonic() + START_SECONDS)
        bettering.go(time.monotonic() + START_SECONDS)
        self.best.start(list(bettering.best), self.problem)
        bound = self.best.bound(self.problem.goal)
        assert bound is not None
        self.put(Slice({}, bound, FIRST_NODES))

    @property
    def decided(self) -> bool:
        return self.aim.reached(self.best, self.problem.goal)

    def put(self, part: Slice) -> None:
        self.count += 1
        heapq.heappush(self.waiting, (part.bound if self.problem.goal == "min" else -part.bound, self.count, part))

    def close(self, bound: int) -> None:
        """Takes a slice as over, of which no assignment is better than this."""
        self.over = bound if self.over is None else self.worse(self.over, bound)

    def worse(self, one: int, other: int) -> int:
        """The bound that says less."""
        return min(one, other) if self.problem.goal == "min" else max(one, other)

    def hopeless(self, bound: int) -> bool:
        """Whether nothing in a slice with this bound is better than what is known, by more than the error."""
        assert self.best.cost is not None
        error = self.aim.error if self.problem.goal == "min" else -self.aim.error
        return not is_better(bound, self.best.cost - error, self.problem.goal)

    def hand_out(self) -> None:
        """Gives slices to the places of the pool that have none, and one more to each fourth."""
        size = max(1, self.pool.size())
        while self.waiting and len(self.under_way) < size + size // 4:
            part = heapq.heappop(self.waiting)[2]
            if self.hopeless(part.bound):
                self.close(part.bound)
                continue
            self.count += 1
            self.under_way[self.count] = part
            self.pool.submit(Task(self.count, "slice", self.job(part)))

    def job(self, part: Slice) -> dict[str, object]:
        """What a worker is given: the slice as text, and the words for `dcop_search`."""
        words = ["--budget", str(part.budget), "--better", str(self.best.cost)]
        words += ["--error", str(self.aim.error)] if self.aim.error else []
        cells = self.cells if part.tries == 0 else min(self.cells or LESS_CELLS, LESS_CELLS)
        words += ["--cells", str(cells)] if cells else []
        left = LONGEST_SECONDS if self.until is None else max(0.0, self.until - time.monotonic())
        return {"text": restricted(self.problem, part.fixed).text(), "words": words, "time": left, "better": self.best.cost}

    def wait(self) -> None:
        """Waits for a moment, and takes the slice that is over then."""
        left = WAIT_SECONDS if self.until is None else min(WAIT_SECONDS, self.until - time.monotonic())
        if left <= 0:
            self.best.stopped = "the time is over"
            return
        done = self.pool.next(left) if self.under_way else None
        if done is not None:
            self.take(done, self.under_way.pop(done.number))
            self.settle()
        what = f"{sum(self.ends.values())} slices answered, {len(self.under_way)} under way, {len(self.waiting)} wait"
        self.tell(what if self.pool.size() else f"{what} for a worker", self.best)

    def take(self, done: Done, part: Slice) -> None:
        """Takes what came of a slice."""
        told = done.result
        if told is None or told["status"] is None:
            self.fail(part, done.fault or "its time was over")
            return
        self.places[done.where] += 1
        sliced = restricted(self.problem, part.fixed)
        answer = Answer(told["text"], told["status"], "dcop_search", self.search)
        try:
            found = read_found(answer, sliced, told.get("better"), self.aim.error)
            values = None if found.values is None else [part.fixed.get(at, value) for at, value in enumerate(found.values)]
            if values is not None and self.problem.cost(values) != found.cost:
                raise Trouble(f"{answer.who} printed a wrong cost for its values: don't trust this program")
        except Trouble as trouble:
            self.fail(part, str(trouble))
            return
        self.best.nodes += found.nodes
        self.better(values)
        bound = found.bound if is_better(part.bound, found.bound, self.problem.goal) else part.bound
        self.ends["spent" if not found.ended else "solved" if values else "none"] += 1
        smaller = [] if found.ended or self.hopeless(bound) else parts(self.problem, self.near, part, bound, part.budget * GROWTH)
        for it in smaller:
            self.put(it)
        if not smaller:
            self.close(bound)

    def better(self, values: list[int] | None) -> None:
        """Takes an assignment, if it is better than what is known."""
        cost = None if values is None else self.problem.cost(values)
        if values is not None and cost is not None and (self.best.cost is None or is_better(cost, self.best.cost, self.problem.goal)):
            self.best.take_better(values, cost, self.problem.goal)

    def fail(self, part: Slice, why: str) -> None:
        """A slice that failed is tried again, and then left open, and told."""
        if part.tries + 1 < TRIES:
            self.put(replace(part, tries=part.tries + 1))
        else:
            self.failed.append((part, why))

    def settle(self) -> None:
        """What is known of all: the worst bound of the slices."""
        bound = self.best.cost
        assert bound is not None
        left = [part.bound for _, _, part in self.waiting] + [part.bound for part in self.under_way.values()]
        for known in [*left, *(part.bound for part, _ in self.failed), *([] if self.over is None else [self.over])]:
            bound = self.worse(bound, known)
        self.best.method, self.best.searched = "search", True
        self.best.narrow(bound, self.problem.goal)
        self.best.settle(self.problem.goal)

    def finish(self) -> None:
        """Puts together what is known, whenever it was stopped."""
        goal = self.problem.goal
        if self.best.values is not None:
            self.best.cost = self.problem.cost(self.best.values)
            self.best.settle(goal)
        self.best.solved = self.best.values is not None and self.aim.reached(self.best, goal)
        self.best.seconds = time.monotonic() - self.best.began
        answered = sum(self.ends.values())
        self.best.sliced = answered > 1
        if answered > 1:
            self.best.notes.append(
                f"{answered} slices of the problem were answered, each by the proved dcop_search, on {len(self.places)} workers; it is "
                "not proved that their answers together answer the whole problem; the cost is added up from the file"
            )
        for part, why in self.failed:
            self.best.notes.append(f"a slice with {counted(len(part.fixed), 'variable')} fixed was not answered: {why}")
        if self.failed and not self.best.solved and not self.best.stopped:
            self.best.stopped = f"{counted(len(self.failed), 'slice')} {'was' if len(self.failed) == 1 else 'were'} not answered"

    def told(self) -> dict[str, object]:
        """What is told of the slices in JSON."""
        return {"slices": {**self.ends, "failed": len(self.failed), "workers": dict(self.places)}}


def counted(count: int, what: str) -> str:
    return f"{count} {what}{'' if count == 1 else 's'}"
