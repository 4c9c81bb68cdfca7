"""What the service asks of the rest of `sefwllon`, and nothing else does here: the commands themselves, run in a worker's process.

Each kind of request is a function that takes what was asked, and gives `{"answer": ..}`, with `"final": True` where the same
question always has the same answer, so that it may be kept.
"""

from __future__ import annotations

import csv
import io
import json
import os
import re
import time
from collections.abc import Callable
from contextlib import redirect_stdout
from dataclasses import replace
from fractions import Fraction
from functools import lru_cache
from pathlib import Path
from typing import Any

from .. import cli, draw, timetable
from ..dpop_run import utils
from ..files import KINDS as FILES
from ..files import load
from ..problem import Problem, Table, Trouble, Variable, is_name
from ..programs import Programs, Wrong
from ..report import fitted, read_report, read_tree
from ..run_telling import own_costs
from ..solving import refusal
from ..timetable import calendars, rooms, rules
from ..timetable.model import Meeting, Place, Sequence, Timetable, Together
from ..timetable.telling import table
from ..translate import Translation, number
from . import trace

Request = dict[str, Any]
Told = dict[str, Any]

MOST_REPORT = 16 * 2**20
"""How long a report may be that an answer brings along."""
MOST_CELLS = 4_096
"""How many cells of a table the page is given to look at."""
ORDERS = 20_000
"""How many orders are tried where no number is told."""
ORDER_SECONDS = 10.0
"""How long a narrower order is sought for the picture of a problem."""


# ---- the commands


def command(words: list[str], teller: Any) -> tuple[int, str]:
    """Runs a command in this process: its exit status and what it printed. A refusal is raised."""
    printed = io.StringIO()
    try:
        with redirect_stdout(printed):
            status = cli.main(words)
    except SystemExit as ended:  # the words themselves were refused
        raise Trouble(teller.refusal or f"the command ended with {ended.code}") from None
    if teller.refusal:
        raise Trouble(teller.refusal)
    return status, printed.getvalue()


def put(name: str, text: str) -> str:
    """Writes a file into the worker's own folder, under a name of its own: only the ending is the user's."""
    suffix = Path(name).suffix.lower()
    path = Path("asked" + (suffix if suffix in FILES else ".dcop"))
    path.write_text(text, encoding="utf-8", newline="")
    return str(path)


def get(name: str) -> str | None:
    """A file that a command wrote, where it did and it is not too long."""
    path = Path(name)
    return path.read_text(encoding="utf-8") if path.is_file() and path.stat().st_size <= MOST_REPORT else None


def time_words(asked: Request) -> list[str]:
    return ["--time", f"{float(asked['time'])}s"] if asked.get("time") else []


def solve_words(asked: Request) -> list[str]:
    """The words for a command that solves, which refuses by itself those that it does not know."""
    words = time_words(asked)
    for name in ("method", "error", "gap", "workers", "cells"):
        if asked.get(name) not in (None, ""):
            words += [f"--{name}", str(asked[name])]
    return words


def sentence(answer: Told, what: str = "assignment", rules_of: str = "hard constraints") -> str:
    """An answer as the front tells it."""
    if answer["values"] is None:
        return f"nothing found: {answer['stopped'] or 'no method fits this problem'}"
    if answer["broken"]:
        known = re.search(r"no assignment keeps all hard constraints \((.*?)\)", answer["note"] or "")
        head = f"no {what} keeps all {rules_of} ({known[1]})" if known else f"no {what} that keeps all {rules_of} was found"
        return f"{head}; this one breaks {len(answer['broken'])}"
    noun = "cost" if answer["goal"] == "min" else "sum"
    cost, bound = answer["cost"], answer["lower"] if answer["goal"] == "min" else answer["upper"]
    if bound is None:
        return f"{noun} {cost}"
    far = abs(Fraction(str(cost)) - Fraction(str(bound)))
    if not far:
        return f"{noun} {cost}, and none is better ({answer['rests_on']})"
    share = f", {answer['gap_percent']:.3g} % of it" if answer["gap_percent"] else ""
    return f"{noun} {cost}, at most {number(far)} from the best{share} ({answer['rests_on']})"


def by_solve(asked: Request, teller: Any) -> Told:
    _, printed = command(["solve", "--json", "--report", "report", *solve_words(asked), put(asked["name"], asked["text"])], teller)
    answer: Told = json.loads(printed)
    answer["sentence"] = sentence(answer)
    if asked.get("certificate"):
        answer["report"] = get("report")
    return {"answer": answer, "final": answer["solved"]}


def by_check(asked: Request, teller: Any) -> Told:
    Path("report").write_text(asked["report"], encoding="utf-8", newline="")
    status, printed = command(["check", *time_words(asked), put(asked["name"], asked["text"]), "report"], teller)
    answer = {"yes": {0: True, 1: False}.get(status), "sentence": printed.splitlines()[0], "told": printed}
    return {"answer": answer, "final": status in (0, 1)}


# ---- timetables


def plan_text(asked: Request) -> str:
    """The CSV of a request, and behind it a line for each meeting that is held in a slot."""
    text = str(asked["text"])
    return text + ("" if text.endswith("\n") or not text else "\n") + csv_lines(["fixed", name, slot] for name, slot in (asked.get("fixed") or {}).items())


def csv_lines(rows: Any) -> str:
    out = io.StringIO()
    csv.writer(out, lineterminator="\n").writerows(rows)
    return out.getvalue()


def timetabled(asked: Request, text: str, teller: Any) -> Told:
    """What `sefwllon meetings --json` prints of a CSV, with a sentence, its report, and the problem that the report is of."""
    words = ["meetings", "--json", "--report", "report", "--problem", "problem", *solve_words(asked), put("asked.csv", text)]
    status, printed = command(words, teller)
    if not printed.startswith("{"):  # nothing was found, which is told in a sentence
        raise Trouble(printed.strip() or f"the command ended with {status}")
    answer: Told = json.loads(printed)
    answer |= {"sentence": sentence(answer, "timetable", "the rules"), "report": get("report"), "problem": get("problem")}
    return answer


def by_meetings(asked: Request, teller: Any) -> Told:
    """A timetable, told in the words of who makes one."""
    text = plan_text(asked)
    told = timetable.read(text)
    answer = timetabled(asked, text, teller)
    answer |= {"csv": text, **seen(told, answer["values"])}
    if not told.rooms:
        del answer["problem"]  # the report is of the CSV alone
    return {"answer": answer, "final": not answer["stopped"]}


def by_wish(asked: Request, teller: Any) -> Told:
    """What it costs at least to meet a wish: the timetable anew, with a price on that wish that is above all others together."""
    text = plan_text(asked)
    told = timetable.read(text)
    wish = asked["wish"]
    meeting = told.meetings.get(wish["meeting"])
    if meeting is None:
        raise Trouble(f"{wish['meeting']} is not a meeting")
    answer = timetabled(asked, text + csv_lines([[wish["taste"], meeting.name, ";".join(wish["slots"]), price_above(told)]]), teller)
    slot = told.slots[told.place_of(meeting, answer["values"][meeting.name]).slot].name
    found: Told = {name: answer[name] for name in ("solved", "rests_on", "stopped")}
    if answer["broken"]:
        found |= {"cost": None, "never": False}
    elif (slot in wish["slots"]) == (wish["taste"] == "like"):
        found |= {"cost": answer["cost"], "lower": answer["lower"], "values": answer["values"]}
    else:
        found |= {"cost": None, "never": answer["solved"]}
    return {"answer": found, "final": not answer["stopped"]}


def price_above(told: Timetable) -> str:
    """A cost above all that a timetable can cost."""
    wishes = sum((wish.cost for wish in told.wishes), Fraction(0)) * len(told.meetings)
    apart = sum((cost for meeting in told.meetings.values() for cost in meeting.optional.values()), Fraction(0)) * len(told.meetings)
    return str(int(wishes + apart) + 1)


@lru_cache(maxsize=16)
def read_plan(text: str) -> Timetable:
    return timetable.read(text)


def placed_of(told: Timetable, values: dict[str, str]) -> dict[str, object]:
    """Where the meetings stand that have a slot, in the order of the meetings."""
    found: dict[str, object] = {}
    for name, meeting in told.meetings.items():
        try:
            place = told.place_of(meeting, values[name])
        except (KeyError, ValueError):
            continue
        if place in told.places_for(meeting):
            found[name] = told.place_name(meeting, place)
    return found


def part_of(told: Timetable, names: Any) -> Timetable:
    """What a file says of some of its meetings."""
    if len(names) == len(told.meetings):
        return told
    return replace(
        told,
        meetings={name: meeting for name, meeting in told.meetings.items() if name in names},
        sequences=[Sequence(it.first, [name for name in it.then if name in names], it.line) for it in told.sequences if it.first in names],
        together=[Together([name for name in it.names if name in names], it.same, it.line) for it in told.together],
    )


def seen(told: Timetable, values: dict[str, str]) -> Told:
    """A timetable, whole or in part, added up from the file: what it costs, which rules it breaks, which wishes it does not meet."""
    chosen = placed_of(told, values)
    part = part_of(told, chosen)
    given, _, missing = rooms.give(part, chosen) if part.rooms else ({}, [], [])
    costs = rules.costs(part, chosen)
    return {
        "added": number(sum((cost.cost for cost in costs), Fraction(0))),
        "breaks": [{"meetings": list(breach.meetings), "sentence": breach.sentence()} for breach in (*rules.breaches(part, chosen), *missing)],
        "unmet": unmet(part, chosen, [cost.text for cost in costs], [number(cost.cost) for cost in costs]),
        "unplaced": [name for name in told.meetings if name not in chosen],
        "stands": {name: part.slot_of(chosen, name).name for name in chosen},
        "rooms": given,
        "notes": told.notes,
        "slots": [
            {"name": slot.name, "begin": slot.begin and slot.begin.isoformat(), "end": (end := slot.end()) and end.isoformat()} for slot in told.slots
        ],
    }


def unmet(told: Timetable, chosen: dict[str, object], texts: list[str], costs: list[str]) -> list[Told]:
    """All that a timetable costs, each as a sentence with its cost; of a wish also whose it is, so that it can be asked for."""
    wishes = {}
    for name, meeting in told.meetings.items():
        slot, place = told.slot_of(chosen, name).name, told.place_name(meeting, told.place_of(meeting, chosen[name]))
        for who in dict.fromkeys([name, *meeting.people]):
            for wish in told.wishes_of.get(who, []):
                if wish.unmet(slot):
                    why = f"which {who} dislikes" if wish.taste == "dislike" else f"and {who} likes {' or '.join(wish.slots)}"
                    wishes[f"{name} is in {place}, {why}"] = {"meeting": name, "taste": wish.taste, "who": who, "slots": wish.slots}
    return [{"sentence": text, "cost": cost, **wishes.get(text, {})} for text, cost in zip(texts, costs)]


def look(text: str, values: dict[str, str]) -> Told:
    """What a timetable costs, at once."""
    return seen(read_plan(text), values)


def where(text: str, values: dict[str, str], name: str) -> list[Told]:
    """For each slot what a timetable costs more with a meeting moved there, and what that breaks."""
    told = read_plan(text)
    if name not in told.meetings:
        raise Trouble(f"{name} is not a meeting")
    meeting, chosen = told.meetings[name], placed_of(told, values)
    part = part_of(told, {*chosen, name})
    places = {other: part.place_of(part.meetings[other], place) for other, place in chosen.items()}
    week = places[name].week if name in places else 0
    beside = [rule for rule in rules.pair_rules(part) if name in (rule.first, rule.second)]
    both = {pair: sum(people.values()) for pair, people in rules.both_costs(part).items() if name in pair}

    def cost(place: Place) -> Fraction:
        alone = sum((it.cost for it in rules.wish_costs(part, meeting, place)), Fraction(0))
        return alone + sum(more for pair, more in both.items() if at_once(part, {**places, name: place}, *pair))

    now = cost(places[name]) if name in places else Fraction(0)
    return [
        {"slot": slot.name, "more": float(cost(place) - now), "breaks": [*alone(part, meeting, place), *together(part, beside, {**places, name: place}, name)]}
        for at, slot in enumerate(part.slots)
        for place in [Place(at, week)]
    ]


def at_once(told: Timetable, places: dict[str, Place], first: str, second: str) -> bool:
    one, other = told.meetings[first], told.meetings[second]
    return told.clock.meets(one, other)[told.clock.at(one, places[first])][told.clock.at(other, places[second])]


def alone(told: Timetable, meeting: Meeting, place: Place) -> list[str]:
    """Why a meeting can't have a place, in few words."""
    why = [f"{person} is absent" for person in meeting.people if told.clock.why_away(person, meeting, place)]
    if meeting.fixed and told.slots[place.slot].name not in meeting.fixed:
        why.append(f"fixed in {' or '.join(meeting.fixed)}")
    return why + (["no room"] if told.takes_room(meeting) and not rules.open_rooms(told, meeting, place) else [])


def together(told: Timetable, beside: list[rules.PairRule], places: dict[str, Place], name: str) -> list[str]:
    """What a meeting meets at a place, in few words."""
    why = []
    for rule in beside:
        first, second = told.meetings[rule.first], told.meetings[rule.second]
        if rule.forbids[told.clock.at(first, places[rule.first])][told.clock.at(second, places[rule.second])]:
            other = rule.second if rule.first == name else rule.first
            why.append(f"{other} ({', '.join(rule.who)})" if rule.who else rule.name)
    return why


def file_of(text: str, values: dict[str, str], kind: str, title: str) -> str:
    """A timetable as a file to keep: iCalendar, a picture, or lines."""
    told = read_plan(text)
    chosen = placed_of(told, values)
    if len(chosen) < len(told.meetings):
        raise Trouble("some meetings have no slot yet: solve first")
    given, _, missing = rooms.give(told, chosen) if told.rooms else ({}, [], [])
    found = [*rules.breaches(told, chosen), *missing]
    makers: dict[str, Callable[[], str]] = {
        "ics": lambda: calendars.written(told, chosen, os.path.basename(title), given, found).decode(),
        "svg": lambda: draw.timetable(told, chosen, found, given),
        "txt": lambda: table(told, chosen, given),
    }
    if kind not in makers:
        raise Trouble(f"a timetable can be saved as {', '.join(makers)}, not as {kind}")
    return makers[kind]()


# ---- problems


def loaded(asked: Request, programs: Programs) -> Translation:
    return load(put(asked["name"], asked["text"]), asked["text"], programs)


def problem_text(told: Request) -> str:
    """The text of a problem that is told as JSON: `{"goal": .., "variables": {NAME: [VALUE, ..]}, "tables": [{"scope", "costs"}]}`."""
    try:
        variables = [Variable(str(name), len(values), tuple(map(str, values))) for name, values in told["variables"].items()]
        at = {variable.name: place for place, variable in enumerate(variables)}
        tables = [Table(tuple(at[name] for name in table["scope"]), tuple(table["costs"])) for table in told["tables"]]
        goal = told.get("goal", "min")
    except (KeyError, TypeError, AttributeError) as fault:
        raise Trouble(f"a problem as JSON must have `variables`, a list of values for each name, and `tables`, each with `scope` and `costs`: {fault} is wrong") from None
    words = [word for variable in variables for word in (variable.name, *(variable.values or ()))]
    strange = next((word for word in words if not is_name(word)), None)
    if strange is not None:
        raise Trouble(f"{strange[:40]!r} is not a name for dcop: a name has up to 32 letters, digits, _, . and -, and begins with a letter or _")
    if goal not in ("min", "max") or not all(type(cost) is int and cost >= 0 for table in tables for cost in table.costs):
        raise Trouble("a problem as JSON must have the goal min or max, and costs that are whole numbers from 0 up")
    return Problem(goal, variables, tables).text()


def by_order(asked: Request, teller: Any) -> Told:
    """The problem in the order that `dcop_order` finds, and how large the largest table is then."""
    programs = Programs()
    told = loaded(asked, programs)
    text = ordered_text(programs, told.problem, int(asked.get("tries") or ORDERS))
    if text is None:
        raise Trouble("the program dcop_order is missing: build it, or name it by SEFWLLON_ORDER")
    trees = [tree_of(programs, told, told.problem.text()), tree_of(programs, told, text)]
    largest = [max(node["cells"] for node in tree) for tree in trees]
    return {"answer": {"text": text, "largest": largest[1], "largest_as_given": largest[0]}, "final": True}


def ordered_text(programs: Programs, problem: Problem, tries: int, seconds: float | None = None) -> str | None:
    """The problem in another order; None where there is no program for that, or where the time is over."""
    answer = programs.reorder(problem.text(), tries, None if seconds is None else time.monotonic() + seconds)
    if answer is None or answer.status is None:
        return None
    if answer.status != 0:
        raise refusal(answer, "an answer of dcop_order", problem.text())
    return answer.text


def tree_of(programs: Programs, told: Translation, text: str) -> list[Told]:
    """The tree of the agents of a problem's text, with separators and the cells of each agent's joined table."""
    answer = programs.run(["tree"], text)
    if answer.status != 0:
        raise refusal(answer, "an answer of `dcop tree`", text)
    own = {v.name: name for v, name in zip(told.problem.variables, told.names)}
    sizes = {v.name: v.size for v in told.problem.variables}
    nodes = []
    try:
        read = read_tree(answer.text)
    except Trouble as trouble:
        raise Wrong(answer, str(trouble)) from None
    for node in read:
        cells = sizes[node.name]
        for name in node.separator:
            cells *= sizes[name]
        nodes.append(
            {
                "name": own[node.name],
                "parent": None if node.parent is None else own[node.parent],
                "separator": [own[name] for name in node.separator],
                "cells": cells,
            }
        )
    return nodes


def by_view(asked: Request, teller: Any) -> Told:
    """A problem to be looked at: its graph, its tree, and its tree in the order that `dcop_order` finds."""
    programs = Programs()
    told = loaded(asked, programs)
    problem = told.problem
    answer: Told = {
        "goal": problem.goal,
        "variables": [{"name": name, "values": [str(v) for v in values]} for name, values in zip(told.names, told.values)],
        "edges": [[a, b] for a, near in enumerate(problem.neighbours()) for b in sorted(near) if a < b],
        "tables": len(problem.tables),
        "cells": sum(len(table.costs) for table in problem.tables),
        "tree": tree_of(programs, told, problem.text()),
        "ordered": None,
        "why_no_order": None,
    }
    text = ordered_text(programs, problem, ORDERS, ORDER_SECONDS)
    if text is None:
        answer["why_no_order"] = "dcop_order takes too long" if programs.order else "the program dcop_order is missing"
    else:
        answer["ordered"] = tree_of(programs, told, text)
    return {"answer": answer, "final": True}


# ---- runs


def by_run(asked: Request, teller: Any) -> Told:
    """A run of ADOPT, made anew or from its report: the agents' tree, its events, and what the root knew."""
    programs = Programs()
    told = loaded(asked, programs)
    problem, report = told.problem, asked.get("report")
    if report:
        problem = fitted(problem, report)
    else:
        error = int(Fraction(str(asked.get("error") or 0)) * told.scale)
        report = trace.new_run(programs, problem, int(asked.get("budget") or 2_000), error)
    run = trace.Run(programs, problem, report)
    sure = run.checked()
    own = {v.name: name for v, name in zip(told.problem.variables, told.names)}
    read = read_report(report, problem)
    answer: Told = {
        "tree": tree_of(programs, told, problem.text()),
        "names": own,
        "values": {name: [str(v) for v in values] for name, values in zip(told.names, told.values)},
        "events": run.events(),
        "moments": run.moments(lambda count: teller.say(f"replayed {count} times")),
        "status": read.status,
        "cost": read.cost,
        "lower": read.lower,
        "upper": read.upper,
        "deliveries": read.deliveries,
        "goal": problem.goal,
        "verified": sure,
        "rests_on": programs.verified if sure else "not verified",
        "own": own_costs(told),
        "problem": problem.text(),
        "report": report,
    }
    return {"answer": answer, "final": True}


def by_dpop(asked: Request, teller: Any) -> Told:
    """A run of DPOP from its certificate: which table each agent sends up, and which values come down."""
    programs = Programs()
    told = loaded(asked, programs)
    answer = programs.run(["solve", "--method", "dpop", "--certificate", "yes"], told.problem.text())
    if answer.status != 0:
        raise refusal(answer, "a report of `dcop solve`", told.problem.text())
    run = trace.Run(programs, told.problem, answer.text)
    sure = run.checked()
    read = read_report(answer.text, told.problem)
    own = {v.name: name for v, name in zip(told.problem.variables, told.names)}
    tables = []
    for util in utils(answer.text):
        tables.append({"name": own[util.name], "scope": [own[word] for word in util.scope], "size": len(util.cells), "cells": util.cells[:MOST_CELLS]})
    found: Told = {
        "tree": tree_of(programs, told, told.problem.text()),
        "values": {name: [str(v) for v in values] for name, values in zip(told.names, told.values)},
        "tables": tables,
        "chosen": {name: str(value) for name, value in told.told(read.values).items()},
        "cost": read.cost,
        "deliveries": read.deliveries,
        "goal": told.problem.goal,
        "verified": sure,
        "rests_on": programs.verified if sure else "not verified",
        "own": own_costs(told),
    }
    return {"answer": found, "final": True}


KINDS: dict[str, Callable[[Request, Any], Told]] = {
    "solve": by_solve,
    "check": by_check,
    "order": by_order,
    "meetings": by_meetings,
    "wish": by_wish,
    "view": by_view,
    "run": by_run,
    "dpop": by_dpop,
}
"""What can be asked."""
