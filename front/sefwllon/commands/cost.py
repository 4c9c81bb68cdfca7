"""`sefwllon cost`: what an assignment costs."""

from __future__ import annotations

import argparse
import difflib
import time
from dataclasses import dataclass
from fractions import Fraction

from ..arguments import Commands, add_time, amount
from ..asking import NOT, YES, Verdict, judged
from ..files import read_text
from ..output import deliver, reading, undisturbed
from ..problem import Trouble
from ..programs import Programs
from ..report import fitted, made_with, printed, read_report
from ..solving import cost_of, in_order
from ..telling import SOLVED, TEXT, bounds_of, from_best, none_keeps_all, noun, plain_number, shown
from ..timetable import telling
from ..timetable.besides import Asked, add_besides, asked, only_with
from ..timetable.session import Plan
from ..translate import Translation, number


def add(commands: Commands) -> None:
    cost = commands.add_parser("cost", help="what an assignment costs, given as NAME=VALUE words, as a file of these, or as a report")
    cost.add_argument("file", metavar="FILE")
    cost.add_argument("assignment", metavar="NAME=VALUE|ASSIGNMENT|REPORT", nargs="+")
    cost.add_argument("--bound", type=amount, metavar="B", help="say how far the cost is from this bound")
    cost.add_argument("--report", metavar="REPORT", help="say how far the cost may be from the best one, according to this report")
    add_besides(cost)
    cost.add_argument("--json", action="store_true", help="the answer as JSON")
    add_time(cost)
    cost.set_defaults(run=run)


def run(options: argparse.Namespace) -> int:
    """An assignment's cost, told by dcop itself on the problem with each domain cut to the assignment's value."""
    programs = Programs()
    with reading(None if options.time is None else options.began + options.time):
        options.text = read_text(options.file)
    report = read_text(options.report) if options.report else None
    problem = asked(options, programs, report)
    told = problem.told
    values = assignment(options.assignment, told)
    total = cost_of(programs, told.problem, values)
    lines = [f"broken: {name}" for name in told.broken(values)]
    own, plan = problem.own_sum(values), problem.plan(values)
    verdict = None if report is None else judged(programs, told, report, options)
    lines += [*telling.moves(plan), of_kept(plan, verdict)] if plan is not None else [f"{noun(told)} {number(own)}"]
    if options.bound is not None:
        lines.append(f"{number(abs(own - options.bound))} from the bound {number(options.bound)}")
    if verdict is not None and verdict.answer == NOT:
        verdict.why += only_with(options, report or "")
        lines.append(f"the report does not hold: {verdict.why}")
    elif verdict is not None and plan is None:
        lines.append(from_the_best(verdict, told, total))
    with undisturbed():
        text = as_json(problem, values, total, verdict, programs, options) if options.json else "\n".join(lines) + "\n"
        good = deliver(text, [])
    return SOLVED if good and (verdict is None or verdict.answer != NOT) else TEXT


def from_the_best(verdict: Verdict, told: Translation, total: int) -> str:
    """How far a sum may be from the best one, by a report that is not known to be wrong."""
    rests = resting_on(verdict)
    if told.top is not None and told.none_keeps(verdict.bound):
        return f"{none_keeps_all(told)} ({rests})"
    return f"{from_best(abs(total - verdict.bound), told)} ({rests})"


def resting_on(verdict: Verdict) -> str:
    return verdict.rests if verdict.answer == YES else f"as the report says; that was not decided: {verdict.why}"


def of_kept(plan: Plan, verdict: Verdict | None) -> str:
    """How many meetings of a timetable move and what it costs; if it breaks no rule, also how that is to the best one, by a report."""
    if verdict is None or verdict.answer == NOT or plan.breaches:
        return f"{telling.moving(plan)}; cost {telling.money(plan.cost)}"
    bound, rests = verdict.bound, resting_on(verdict)
    return telling.kept(plan, lambda holds: rests if holds(bound) else None)


def as_json(
    problem: Asked, values: list[int], total: int, verdict: Verdict | None, programs: Programs, options: argparse.Namespace
) -> str:
    """The answer for programs."""
    told, plan = problem.told, problem.plan(values)
    holds, best = verdict is not None and verdict.answer == YES, None if verdict is None else verdict.best
    gap = None if verdict is None or plan is not None else told.own_cost(total) - told.own_cost(verdict.bound)
    if verdict is not None and plan is not None and not plan.breaches and telling.least(plan, verdict.bound):
        gap = Fraction(0)
    answer = {
        "cost": plain_number(problem.own_sum(values)),
        **({} if plan is None else {"moved": plan.moved}),
        "goal": told.problem.goal,
        "broken": told.broken(values),
        "from_bound": None if options.bound is None else plain_number(abs(problem.own_sum(values) - options.bound)),
        "from_best": None if gap is None or verdict is None or verdict.answer == NOT else plain_number(abs(gap) + told.slack),
        "rests_on": verdict.rests if verdict is not None and holds else "added up" if verdict is None else None,
        "report": None if verdict is None else verdict.answer,
        "why": None if verdict is None else verdict.why or None,
        "method": "cost" if best is None or not best.method else best.method,
        "messages": 0 if best is None else best.messages,
        "nodes": 0 if best is None else best.nodes,
        "time": round(time.monotonic() - options.began, 3),
        "stopped": None if best is None else best.stopped,
        "bounds": [] if best is None or plan is not None else bounds_of(best, told),
        "versions": programs.versions(),
    }
    return shown(answer)


@dataclass(frozen=True)
class Pair:
    """A value that a name is given, and where that is said."""

    name: str
    value: str
    place: str


def assignment(words: list[str], told: Translation) -> list[int]:
    """Reads NAME=VALUE words, files with lines NAME=VALUE or `value NAME VALUE`, or a report."""
    given: dict[int, Pair] = {}
    for word in words:
        if "=" in word:
            take(pair_of(word, f"`{word}`", told), told, given)
            continue
        text = read_text(word)
        if text.startswith("status ") and made_with(text):  # its problem may have more variables than the file's
            known = {*told.names, *(v.name for v in told.problem.variables)}
            lines = [line for line in printed(text).splitlines() if line.startswith("value ") and line.split(" ")[1] in known]
            for line in lines:
                take(pair_of(line, word, told), told, given)
            continue
        if text.startswith("status "):
            problem = fitted(told.problem, text)
            report = in_order(read_report(printed(text), problem), problem, told.problem)
            for place, value in enumerate(report.values):
                take(Pair(told.names[place], str(told.values[place][value]), word), told, given)
            continue
        for at, line in enumerate(text.splitlines(), 1):
            if line.strip() and not line.lstrip().startswith("#"):
                take(pair_of(line, f"{word}, line {at}, `{line.strip()[:80]}`", told), told, given)
    missing = [name for place, name in enumerate(told.names) if place not in given and place not in told.counters]
    if missing:
        raise Trouble(f"the assignment has no value for {', '.join(missing[:5])}{' and others' if len(missing) > 5 else ''}")
    values: list[int] = []
    for place in range(len(told.names)):
        values.append(value_of(given[place], place, told) if place in given else told.counted(place, values))
    return values


def pair_of(line: str, place: str, told: Translation) -> Pair:
    """What a word or a line gives to whom. A name may have `=` in it, where the file has such a name."""
    if "=" in line:
        cuts = [at for at, letter in enumerate(line) if letter == "="]
        known = next((at for at in reversed(cuts) if line[:at].strip() in told.names), cuts[0])
        return Pair(line[:known].strip(), line[known + 1 :].strip(), place)
    parts = line.split(maxsplit=2)
    if parts[0] == "value" and len(parts) == 3:
        return Pair(parts[1], parts[2].strip(), place)
    raise Trouble(f"{place}: a line must be NAME=VALUE or `value NAME VALUE`")


def take(pair: Pair, told: Translation, given: dict[int, Pair]) -> None:
    """Takes a pair, where its name is there and has no other value yet."""
    own = [v.name for v in told.problem.variables]
    place = told.names.index(pair.name) if pair.name in told.names else own.index(pair.name) if pair.name in own else None
    if place is None:
        raise Trouble(f"{pair.place}: the file has no {pair.name}{meant(pair.name, told.names)}")
    if place in given and given[place].value != pair.value:
        raise Trouble(f"{pair.place}: {pair.name} already has the value {given[place].value}, from {given[place].place}")
    given[place] = pair


def value_of(pair: Pair, place: int, told: Translation) -> int:
    variable, own = told.problem.variables[place], [str(value) for value in told.values[place]]
    value = own.index(pair.value) if pair.value in own else variable.value_of(pair.value)
    if value is None:
        shown = f"; it has {', '.join(own)}" if len(own) <= 8 else ""
        raise Trouble(f"{pair.place}: {pair.value} is not a value of {pair.name}{meant(pair.value, own) or shown}")
    return value


def meant(word: str, known: list[str]) -> str:
    """What a wrong word probably means."""
    near = difflib.get_close_matches(word, known, 1)
    return f": is {near[0]} meant?" if near else ""
