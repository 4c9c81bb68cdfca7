"""Which way a problem is solved: DPOP as given, DPOP in a better order, the search in growing budgets, and that of a smaller problem where
values stand for one another; else cut and ADOPT.

Which ways and budgets are tried, and in which order, does not depend on how much time there is: more of it only goes further."""

from __future__ import annotations

import time
from collections.abc import Callable, Iterator
from dataclasses import dataclass, field
from functools import cached_property

from .best import OWN, START, Best, is_better
from .bettering import Bettering, made
from .explain import explain
from .folding import Folding
from .instead import Instead
from .output import undisturbed
from .problem import MOST_BYTES, Problem, Table, TextFault, Trouble, Variable, parse
from .programs import Answer, Crashed, Programs, Wrong, crash, missing
from .report import Report, read_report
from .searching import CELLS as SEARCH_CELLS
from .searching import Found, read_found
from .smaller import Smaller
from .width import fits_in_some_order

MESSAGES = (1_000, 10_000, 100_000, 1_000_000, 10_000_000)
"""The budgets of ADOPT."""
TRIES = (20_000, 200_000, 1_000_000)
"""How many orders are tried: the first at once, the others as time goes on."""
NODES = tuple(10**power for power in range(5, 13))
"""The budgets of the search."""
LAST_NODES = 10**9
"""The last budget of the search where the time has no end."""
STRIDES, EASY_PART = 8, 10
"""Which part of the gap is bridged first, and which part of a budget is little, so that more is bridged next."""
EASY_NODES = 10**6
"""Up to this budget the search comes before further orders."""
ORDER_SECONDS = 3
"""How long the first search for an order may take where other ways are left."""
LARGE = 2**16
"""With so many costs or more a smaller problem is asked before the first search, and else after it."""
ROUNDS = 4
"""How often it is tried to put more values together than is sure."""
CUT_SECONDS = 60
"""How long a cut may take where other ways are left."""
START_SECONDS, TICK_SECONDS = 0.2, 0.2
"""How long an assignment is bettered here at the start, and each time that it is said how far a program is."""
BETTER_SECONDS, BETTER_PART = 2, 0.05
"""How long it is bettered while programs run: so many seconds, or this part of all the time where that is more."""
CELLS = (1_048_576, 65_536, 4_096)
"""How many cells a joined table of a cut may have: fewer where all tables of a turn together are too many."""
SPENT, WORDS, WIDE, NO_MEMORY, NO, MANY = 1, 2, 4, 7, 10, 11

METHODS = ("auto", "plain", "dpop", "order", "search", "cut", "adopt")


@dataclass(frozen=True)
class Step:
    """A way that is tried, with its budget: of tries, of nodes or of messages."""

    way: str
    budget: int = 0

    @property
    def unit(self) -> str:
        return {"order": "tries", "search": "nodes", "adopt": "messages"}.get(self.way, "")

    def __str__(self) -> str:
        return f"{self.way}, {self.budget:,} {self.unit}" if self.unit else self.way


@dataclass
class Aim:
    """When an answer is good enough: here, where it is within an error, in sums of the problem."""

    error: int = 0

    def reached(self, best: Best, goal: str) -> bool:
        gap = best.gap(goal)
        return gap is not None and gap <= self.error

    def allowed(self, best: Best) -> int:
        """The error that a search may have, as things are known."""
        return self.error


@dataclass
class Solver:
    """One problem that is being solved."""

    programs: Programs
    problem: Problem
    aim: Aim = field(default_factory=Aim)
    workers: int = 1
    method: str = "auto"
    until: float | None = None
    cells: int | None = None
    certificate: bool = True
    rival: int | None = None
    """A sum: it is only asked whether some assignment is better. Then no assignment is sought here."""
    tell: Callable[[str, Best], None] = lambda what, best: None
    show: Callable[[], None] | None = None
    best: Best = field(default_factory=Best)
    narrow: Problem | None = None
    """The problem in the order that `dcop_order` found."""
    tried: list[list[Variable]] = field(default_factory=list)
    """The orders in which DPOP was tried."""
    bettering: Bettering | None = None
    bettered: float = 0.0
    """For how long an assignment was bettered here."""
    ordered: int = 0
    """How many searches for an order have ended."""
    order_takes: float = 0.0
    """How long the next one is likely to take."""
    stride: int = 0
    """By how much a sum that the search is asked for is better than the bound that is known."""
    refused: Answer | None = None
    """The last refusal of a problem for its size."""
    instead: Instead | None = None
    """The smaller problem that is searched in place of this one."""
    folded: bool = False
    """Whether a smaller one was sought."""
    whole: bool = True
    """Whether a smaller one may be sought at all."""

    def solve(self) -> Best:
        """Solves it, or keeps the best that is known when the time is over or the user stops it."""
        self.best.quick, self.best.quick_search = self.programs.quick, self.programs.quick_search
        try:
            self.by_steps()
        except KeyboardInterrupt:
            self.best.stopped = "interrupted"
        with undisturbed():
            self.finish()
        return self.best

    def finish(self) -> None:
        """Puts together what is known, whenever it was stopped."""
        goal = self.problem.goal
        if self.instead:
            self.instead.gather()
        if self.best.stopped:
            self.start()
        if self.best.values is not None:
            self.best.cost = self.problem.cost(self.best.values)
            self.best.settle(goal)
        self.best.solved = self.best.values is not None and self.aim.reached(self.best, goal)
        self.best.seconds = self.elapsed

    @property
    def decided(self) -> bool:
        """Whether nothing is left to ask."""
        goal = self.problem.goal
        if self.rival is None:
            return self.best.values is not None and self.aim.reached(self.best, goal)
        bound = self.best.bound(goal)
        found = self.best.cost is not None and is_better(self.best.cost, self.rival, goal)
        return found or (bound is not None and not is_better(bound, self.rival, goal))

    def by_steps(self) -> None:
        """Takes one step after another until the problem is solved, or the time is over."""
        last = Step(self.method)
        for last in self.steps():
            self.tell(str(last), self.best)
            try:
                self.take(last)
            except (Crashed, Wrong) as fault:
                self.failed(last, fault)
            except MemoryError:
                self.failed(last, Crashed("there was not enough memory"))
            if self.best.stopped or self.decided:
                return
            if self.method == "auto":
                self.start()
        if self.refused is not None and self.best.method in ("", START) and self.method != "auto":
            raise Refused(self.refused)
        if last.budget:
            self.best.stopped = f"the budget of {last.budget:,} {last.unit} is spent"
            if last.way == "search" and self.until is None:
                self.best.stopped += "; to search longer give it --time"

    def failed(self, step: Step, fault: Crashed | Wrong) -> None:
        """A program failed: what was found before is kept. Without an order the other ways are left."""
        if self.best.method == "" or (isinstance(fault, Wrong) and self.best.method == START):
            raise fault
        if step.way == "order" and self.method == "auto":
            self.best.notes.append(str(fault))
        else:
            self.best.stopped = str(fault)

    def steps(self) -> Iterator[Step]:
        """What is tried, in order."""
        if self.method == "auto":
            yield Step("dpop")
            if self.orders_fit:
                yield Step("order", TRIES[0])
            yield from self.searches(orders=self.orders_fit) if self.programs.search else self.without_search()
        elif self.method == "search":
            yield from self.searches(orders=False)
        elif self.method == "order":
            yield from (Step("order", tries) for tries in TRIES)
        elif self.method == "adopt":
            yield from (Step("adopt", budget) for budget in MESSAGES)
        else:
            yield Step(self.method)

    def searches(self, orders: bool) -> Iterator[Step]:
        """The search in growing budgets; between them more orders, where they are not likely to take more than half of all the time
        before them."""
        for budget in NODES:
            if self.until is None and budget > LAST_NODES:
                return
            if orders and budget > EASY_NODES and self.ordered < len(TRIES) and self.order_takes <= self.elapsed / 2:
                yield Step("order", TRIES[self.ordered])
            yield Step("search", budget)

    @cached_property
    def orders_fit(self) -> bool:
        """Whether DPOP may fit in some order."""
        return fits_in_some_order(self.problem)

    @property
    def elapsed(self) -> float:
        return time.monotonic() - self.best.began

    def without_search(self) -> Iterator[Step]:
        """What is tried where `dcop_search` is not there."""
        self.best.notes.append(f"{missing('dcop_search')}; cut and ADOPT were tried instead")
        yield from (Step("adopt", budget) for budget in MESSAGES[:2])
        yield Step("cut")
        yield from (Step("adopt", budget) for budget in MESSAGES[2:])

    @cached_property
    def text(self) -> str:
        """The problem as text."""
        return self.problem.text()

    def take(self, step: Step) -> None:
        match step.way:
            case "plain":
                self.taken(self.run(["solve", "--method", "plain"], self.text), self.text, self.problem)
            case "dpop":
                self.by_dpop(self.problem, self.text)
            case "order":
                self.by_order(step.budget)
            case "search":
                self.by_search(step.budget)
            case "cut":
                self.by_cut()
            case "adopt":
                self.by_adopt(step.budget)

    @cached_property
    def small(self) -> bool:
        return sum(len(table.costs) for table in self.problem.tables) < LARGE

    def start(self) -> None:
        """Finds an assignment here, where no program came to one yet: one that is made value by value, and of a small problem the first
        values too, both bettered."""
        if self.best.values is not None or self.rival is not None:
            return
        self.bettering = Bettering(self.problem, made(self.problem))
        self.bettering.descend(time.monotonic() + START_SECONDS)
        if self.small:
            other = Bettering(self.problem, [0] * len(self.problem.variables))
            other.descend(time.monotonic() + START_SECONDS)
            if is_better(other.best_cost, self.bettering.best_cost, self.problem.goal):
                self.bettering = other
        self.best.start(list(self.bettering.best), self.problem)

    def better(self, latest: float) -> None:
        """Betters the assignment that is known until this moment, or until the time is over."""
        if self.rival is not None or self.best.values is None or self.decided:
            return
        goal = self.problem.goal
        if self.bettering is None or is_better(self.best.cost or 0, self.bettering.best_cost, goal):
            self.bettering = self.bettering or Bettering(self.problem, self.best.values)
            self.bettering.begin(self.best.values)
        began = time.monotonic()
        self.bettering.go(latest if self.until is None else min(latest, self.until))
        self.bettered += time.monotonic() - began
        if self.best.cost is not None and is_better(self.bettering.best_cost, self.best.cost, goal):
            values = list(self.bettering.best)
            self.best.take_better(values, self.problem.cost(values), goal, OWN)

    def tick(self) -> None:
        """What is done while a program runs: it is said how far it is, and the assignment that is known is bettered."""
        if self.show:
            self.show()
        now = time.monotonic()
        if self.bettered < max(BETTER_SECONDS, BETTER_PART * (now - self.best.began)):
            self.better(now + TICK_SECONDS)

    def run(self, words: list[str], text: str) -> Answer:
        return self.run_until(self.until, words, text)

    def run_until(self, until: float | None, words: list[str], text: str) -> Answer:
        """Runs `dcop` until this moment, which is the end of the time or of a way's own."""
        return self.ended(self.programs.run(words, text, until, self.tick), until)

    def ended(self, answer: Answer, until: float | None) -> Answer:
        """An answer, which may be that the time is over."""
        if answer.status is None and until == self.until:
            self.best.stopped = "the time is over"
        return answer

    def within(self, seconds: float, way: str) -> float | None:
        """The moment at which a way is stopped: where it is the only one, the end of the time."""
        if self.method == way:
            return self.until
        latest = time.monotonic() + seconds
        return latest if self.until is None else min(latest, self.until)

    def by_dpop(self, problem: Problem, text: str) -> None:
        self.tried.append(problem.variables)
        self.taken(self.run(["solve", "--method", "dpop", *self.certificate_words(), *self.worker_words()], text), text, problem)

    def by_order(self, tries: int) -> None:
        """DPOP in an order by `dcop_order`, where that is another one than was tried before."""
        began, seconds = time.monotonic(), max(ORDER_SECONDS, self.elapsed / 2)
        until = self.within(seconds, "order")
        answer = self.programs.reorder(self.text, tries, until, self.tick)
        if answer is None:
            if self.method == "order":
                raise Trouble(missing("dcop_order"))
            self.best.notes.append(f"{missing('dcop_order')}; without it DPOP was not tried in other orders")
            self.ordered = len(TRIES)
            return
        if self.ended(answer, until).status in (None, NO_MEMORY):
            self.order_takes = 4 * seconds
            return
        self.ordered += 1
        self.order_takes = 10 * (time.monotonic() - began)
        self.narrow = reordered(self.problem, answer)
        if self.narrow.variables not in self.tried:
            self.by_dpop(self.narrow, answer.text)

    def by_search(self, budget: int) -> None:
        """The search with this budget, of a smaller problem where there is one."""
        self.start()
        self.better(time.monotonic() + START_SECONDS)
        new = self.method == "auto" and self.whole and not self.folded and not (self.small and budget == NODES[0])
        if new:
            self.fold()
        if self.instead and not self.best.stopped and not self.decided:
            if not new or budget > NODES[0]:
                self.instead.go(budget)
            if not self.instead.decided:
                return
            self.instead = None
        if not self.best.stopped and not (self.decided and self.method == "auto" and (self.whole or self.best.proved is not None)):
            self.search(budget)

    def fold(self) -> None:
        """Looks for a smaller problem. First more values are put together than is sure, but for those of which it turned out that they
        were not to be; where that does not come to the answer, what is sure is kept in place of the problem."""
        self.folded = True
        sure = Folding(self.problem, self.until)
        sure.fold_sure()
        keep: set[int] = set()
        for _ in range(ROUNDS):
            likely = sure.fork()
            if not likely.fold_likely(keep) or not self.put_instead(likely):
                break
            failed = self.instead.smaller.failed if self.instead and self.instead.decided else set()
            if self.best.stopped or self.decided or failed <= keep:
                break
            keep |= failed
        if not self.best.stopped and not self.decided:
            self.put_instead(sure)

    def put_instead(self, folding: Folding) -> bool:
        """Takes a smaller problem in place of this one, and a first step with it. Whether it is one that the programs take."""
        self.instead = None
        if self.until is not None and time.monotonic() >= self.until:
            self.best.stopped = "the time is over"
            return False
        smaller = Smaller(self.problem, folding.folds)
        if not smaller.served:
            return False
        self.instead = Instead(self, smaller)
        self.instead.go(NODES[0], first=True)
        return True

    def part(self, problem: Problem, gather: Callable[[], None]) -> Solver:
        """A solver of a part of a smaller problem."""

        def show() -> None:
            gather()
            if self.show:
                self.show()

        return Solver(
            self.programs,
            problem,
            Aim(),
            self.workers,
            until=self.until,
            cells=self.cells,
            certificate=False,
            show=show,
            best=Best(began=self.best.began),
            whole=False,
        )

    def advance(self, budget: int, first: bool) -> None:
        """Takes a step as a part: at first by DPOP in two orders, and then by the search with this budget. A program is asked even where
        what is known was enough, so that the bound is a program's."""
        ways = ["dpop", "order"] if first else []
        for way in (*ways, "search"):
            enough = self.decided and self.best.proved is not None
            if not enough and not self.best.stopped and (way != "order" or self.orders_fit):
                self.take(Step(way, TRIES[0] if way == "order" else budget))

    def search(self, budget: int) -> None:
        """The search with this budget: for what is better than what is known, and then for what is better than a sum that may
        be out of reach. That there is none is often known soon, and says how good the best one may be at most."""
        self.seek(budget, self.best.cost if self.rival is None else self.rival, self.aim.allowed(self.best))
        while self.rival is None and not self.best.stopped and not self.decided:
            target = self.target()
            if target is None:
                return
            found = self.seek(budget, target)
            if found is None or not found.ended:
                self.stride = max(1, self.stride // 2)
                return
            if found.nodes * EASY_PART < budget:
                self.stride *= 2

    def target(self) -> int | None:
        """A sum between the bound and the cost, at most half way; None where there is none."""
        gap, bound = self.best.gap(self.problem.goal) or 0, self.best.bound(self.problem.goal)
        if gap < 2 or bound is None:
            return None
        self.stride = min(self.stride or gap // STRIDES, gap // 2) or 1
        return bound + self.stride if self.problem.goal == "min" else bound - self.stride

    def seek(self, budget: int, better: int | None, error: int = 0) -> Found | None:
        """Runs the search for what is better than a sum. None where it was stopped."""
        words = ["--budget", str(budget)]
        words += ["--better", str(better)] if better is not None else []
        words += ["--error", str(error)] if error else []
        for cells in (self.cells,) if self.cells else SEARCH_CELLS:
            given = [*words, "--cells", str(cells)] if cells else words
            answer = self.ended(self.programs.seek(given, self.text, self.until, self.tick), self.until)
            if answer.status not in (NO_MEMORY, -9):
                break
        if answer.status is None:
            return None
        found = read_found(answer, self.problem, better, error)
        self.take_found(found, answer)
        return found

    def take_found(self, found: Found, answer: Answer) -> None:
        """Takes what the search found. What it claims must not differ from what is added up."""
        goal = self.problem.goal
        if found.values is not None and self.problem.cost(found.values) != found.cost:
            raise Trouble(f"{answer.who} printed a wrong cost for its values: don't trust this program")
        if found.values is not None and (self.best.cost is None or is_better(found.cost or 0, self.best.cost, goal)):
            self.best.values, self.best.cost = found.values, found.cost
        if self.best.cost is not None and is_better(self.best.cost, found.bound, goal):
            raise Trouble(f"{answer.who} says that no sum is better than {found.bound}, but one is {self.best.cost}: don't trust this program")
        self.best.method, self.best.nodes = "search", self.best.nodes + found.nodes
        if self.best.proved is None or is_better(self.best.proved, found.bound, goal):
            self.best.searched, self.best.smaller = True, False
        self.best.narrow(found.bound, goal)
        self.best.settle(goal)

    def by_cut(self) -> None:
        """Solves by a cut, in the narrower order where one was found. Too many turns are refused at once; a cut that takes
        longer than its part is stopped, and leaves the problem to the next way."""
        began = time.monotonic()
        problem = self.narrow or self.problem
        text = self.text if self.narrow is None else problem.text()
        until = self.within(CUT_SECONDS, "cut")
        answer = self.run_cut(text, until)
        if answer.status is None and not self.best.stopped:
            spent = time.monotonic() - began
            self.best.notes.append(f"cut was stopped after {spent:.1f} s; with `--method cut` it may use all of the time")
        self.taken(answer, text, problem)

    def run_cut(self, text: str, until: float | None) -> Answer:
        """What a cut answers, with a certificate where `dcop` makes one."""
        certificate = self.certificate_words()
        for cells in (min(self.cells, CELLS[0]),) if self.cells else CELLS:
            words = ["solve", "--method", "cut", "--cells", str(cells), *self.worker_words()]
            answer = self.run_until(until, [*words, *certificate], text)
            if certificate and (answer.unserved or answer.status == WIDE):
                certificate = []
                answer = self.run_until(until, words, text)
            if answer.status != WIDE:
                break
        return answer

    def by_adopt(self, budget: int) -> None:
        words = ["solve", "--method", "adopt", "--error", str(self.aim.allowed(self.best)), "--budget", str(budget), *self.worker_words()]
        answer = self.run([*words, *self.certificate_words()], self.text)
        if answer.unserved:
            self.certificate = False
            answer = self.run(words, self.text)
        if self.taken(answer, self.text, self.problem):
            self.better(time.monotonic() + START_SECONDS)

    def certificate_words(self) -> list[str]:
        return ["--certificate", "yes"] if self.certificate else []

    def worker_words(self) -> list[str]:
        return ["--workers", str(self.workers)] if self.workers > 1 else []

    def taken(self, answer: Answer, text: str, problem: Problem) -> bool:
        """Takes an answer, where it is a report. A refusal for size leaves the problem to the next way."""
        if answer.status in (None, WIDE, MANY, NO_MEMORY) or answer.unserved:
            self.refused = self.refused if answer.status is None else answer
            return False
        report = report_of(answer, problem)
        if problem.cost(report.values) != report.cost:
            raise Trouble(f"{answer.who} printed a wrong cost for its values: don't trust this program")
        report_text, goal = answer.text, self.problem.goal
        holds = report.certificate is not None and self.checked(text, report_text, report)
        report = in_order(report, problem, self.problem)
        if holds:
            self.best.check(report, goal, report_text)
        self.best.take(report, goal)
        return True

    def checked(self, text: str, report_text: str, report: Report) -> bool:
        """Whether `dcop check` says yes to this report, with this cost."""
        if len(text) + len(report_text) > MOST_BYTES:
            return False
        answer = self.run(["check"], text + report_text)
        if answer.status in (None, NO_MEMORY):
            return False
        if accepts(answer, report):
            return True
        raise Trouble(f"dcop check does not accept the report that dcop printed: don't trust this program\n{answer.who} answered {answer.text}")


def report_of(answer: Answer, problem: Problem) -> Report:
    """The report that an answer of `dcop` is. What is none is told, with the program and what it answered."""
    if answer.status not in (0, SPENT):
        raise refusal(answer, "a report of `dcop solve`")
    try:
        return read_report(answer.text, problem)
    except Trouble as trouble:
        raise Wrong(answer, str(trouble)) from None


def refusal(answer: Answer, wanted: str, text: str = "") -> Exception:
    """What an answer is that is not the wanted one: a refusal, or the end of a program that crashed, or that of another program."""
    if crash(answer):
        return Crashed(crash(answer))
    if answer.status == WORDS or not answer.text.startswith("refused "):
        more = f". {explain(answer.text, text)}" if answer.text.split()[:1] in ([], ["refused"]) else ""
        return Wrong(answer, f"that is not {wanted}{more}")
    return Refused(answer)


def reordered(problem: Problem, answer: Answer) -> Problem:
    """The problem in the order of an answer of `dcop_order`, which must be the same problem."""
    if crash(answer):
        raise Crashed(crash(answer))
    try:
        told = parse(answer.text)
    except TextFault:
        raise Wrong(answer, "that is not a problem") from None
    names = [v.name for v in told.variables]
    if sorted(names) != sorted(v.name for v in problem.variables):
        raise Wrong(answer, "that is a problem with other variables than the one that it was given")
    wanted = problem.reordered(names)
    if (told.goal, told.variables, told.tables) != (wanted.goal, wanted.variables, wanted.tables):
        raise Wrong(answer, "that is not the problem that it was given")
    return told


def accepts(answer: Answer, report: Report) -> bool:
    """Whether an answer of `dcop check` says yes to a report with this cost."""
    told = dict(line.split(maxsplit=1) for line in answer.text.splitlines() if " " in line)
    return answer.status == 0 and told.get("status") == "yes" and told.get("cost") == str(report.cost)


def cost_of(programs: Programs, problem: Problem, values: list[int]) -> int:
    """What an assignment costs, told by `dcop` itself on the problem with one value for each variable."""
    variables = [Variable(v.name, 1) for v in problem.variables]
    tables = [Table(t.scope, (problem.cell(t, values),)) for t in problem.tables]
    answer = programs.run(["solve", "--method", "plain"], Problem(problem.goal, variables, tables).text())
    if answer.status != 0:
        raise refusal(answer, "a report of `dcop solve`")
    if f"\ncost {problem.cost(values)}\n" not in answer.text:
        raise Wrong(answer, f"its values cost {problem.cost(values)}: don't trust this program")
    return problem.cost(values)


def in_order(report: Report, problem: Problem, wanted: Problem) -> Report:
    """The report with its values in the order of another text of the same problem."""
    by_name = {v.name: value for v, value in zip(problem.variables, report.values)}
    report.values = [by_name[v.name] for v in wanted.variables]
    return report


class Refused(Exception):
    """An answer of `dcop` that is a refusal."""

    def __init__(self, answer: Answer):
        super().__init__(answer.text)
        self.answer = answer
