"""Where the steps of a run come from: its log, and `dcop_trace`; without that `dcop replay`.

A log says which agent took how many messages of whom. `dcop_trace` tells what they say, what each agent has come to and what it
knows; `replay` only what each agent has come to.
"""

from __future__ import annotations

import threading
from collections.abc import Callable, Mapping
from functools import lru_cache
from typing import Any

from ..asking import checked_report
from ..explain import differs
from ..problem import Problem, Trouble
from ..programs import Programs, missing
from ..replaying import moments
from ..run_telling import Names, sentence, short
from ..solving import NO, Refused
from ..tracing import Event, Message, Recorded

Told = dict[str, Any]

MOST_EVENTS = 50_000
"""How many events a run may have that the page plays."""
MOST_WAY = 200
"""How many of the messages on their way are told."""
KEPT = 2
"""How many runs are kept, so that any event of them can be looked at."""


def new_run(programs: Programs, problem: Problem, budget: int, error: int) -> str:
    """The report of a run of ADOPT, with its log."""
    words = ["solve", "--method", "adopt", "--certificate", "yes", "--budget", str(budget), "--error", str(error)]
    answer = programs.run(words, problem.text())
    if answer.status not in (0, 1):
        raise Refused(answer)
    return answer.text


class Run:
    """A run of agents on a problem, by its report."""

    def __init__(self, programs: Programs, problem: Problem, report: str):
        self.programs, self.problem, self.report = programs, problem, report

    def checked(self) -> bool:
        """That `dcop check` says yes to the report; a no is told."""
        checked_report(self.programs, self.problem, self.report)
        return True

    def events(self) -> list[Told]:
        """The events of the log, from the first on: the agent, its stamp, and from whom it took how many messages."""
        found = []
        for line in self.report.splitlines():
            words = line.split()
            if words[:1] == ["event"] and len(words) >= 3:
                took = [[words[at], int(words[at + 1])] for at in range(3, len(words) - 1, 2)]
                found.append({"agent": words[1], "stamp": int(words[2]), "took": took})
        if not found:
            raise Trouble("the report has no log of a run: make it with `sefwllon solve --method adopt --report OUT`")
        if len(found) > MOST_EVENTS:
            raise Trouble(f"the run has {len(found)} events, but the page plays {MOST_EVENTS} at most: make a run with a smaller budget")
        return found

    def moments(self, tell: Callable[[int], None]) -> list[Told]:
        """What the root knew of the best sum, at up to 64 moments and at each where its bounds change if these are fewer."""
        found = moments(self.programs, self.problem, self.report, tell=tell)
        return [{"events": m.events, "deliveries": m.deliveries, "lower": m.lower, "upper": m.upper} for m in found]

    def after(self, count: int, names: Names) -> Told:
        """What each agent has come to after so many events; and with `dcop_trace` what it knows, what was taken and sent in the last
        of these events, and what is on its way."""
        if not self.programs.trace:
            return {"agents": self.replayed(count), "untold": f"{missing('dcop_trace')}; without it the messages can't be shown."}
        with _ONE_BY_ONE:
            recorded = _recorded(self.programs.trace, self.problem.text() + self.report)
        return seen(recorded, count, names)

    def replayed(self, count: int) -> list[Told]:
        """What each agent has come to after so many events, by `dcop replay`."""
        answer = self.programs.run(["replay", "--after", str(count)], self.problem.text() + self.report)
        if answer.status == NO:
            raise Trouble("no run has this log: " + differs(answer.text))
        if answer.status != 0:
            raise Refused(answer)
        found = []
        for line in answer.text.splitlines():
            words = line.split()
            if words[:1] == ["agent"]:
                found.append({"agent": words[1], **dict(zip(words[2::2], words[3::2]))})
        return found


_ONE_BY_ONE = threading.Lock()
"""A run is recorded once, however many ask for it at the same time."""


@lru_cache(maxsize=KEPT)
def _recorded(program: str, text: str) -> Recorded:
    return Recorded(program, text)


def names_of(answer: Mapping[str, Any]) -> Names:
    """The user's names and values, by the answer that told the run."""
    own: dict[str, str] = answer["names"]
    return Names(own, {name: answer["values"][word] for name, word in own.items()}, "costs" if answer["goal"] == "min" else "misses")


def seen(recorded: Recorded, count: int, names: Names) -> Told:
    """A run behind so many events."""
    count = min(count, len(recorded.blocks))
    event = recorded.event(count) if count else None
    way = recorded.on_the_way(count)
    return {
        "agents": [agent_told(recorded.last_of(name, count), names) for name in recorded.starts],
        "took": [] if event is None else [told(names, line, it, it.other, event.agent) for line, it in zip(event.told("took "), event.took)],
        "sent": [] if event is None else [told(names, line, it, event.agent, it.other) for line, it in zip(event.told("sent "), event.sent)],
        "way": [{**told(names, "", it.message, it.sender, it.receiver), "event": it.number} for it in way[:MOST_WAY]],
        "on_the_way": len(way),
    }


def agent_told(event: Event, names: Names) -> Told:
    """What an agent has come to, in the words of `dcop replay`, and what it knows."""
    words = event.words("state")
    return {"agent": event.agent, **dict(zip(words[::2], words[1::2])), "context": names.where(event.context, "")}


def told(names: Names, line: str, message: Message, sender: str, receiver: str) -> Told:
    """A message, with the line by which `dcop_trace` tells it."""
    return {
        "from": names.own[sender],
        "to": names.own[receiver],
        "kind": message.kind,
        "word": short(names, message, sender),
        "sentence": sentence(names, message, sender),
        "line": line,
    }
