"""The trace of a log of ADOPT, reckoned anew from the ADOPT step of docs/reference/definitions/model.md and docs/formats/dcop_trace.md."""

from __future__ import annotations

from collections import deque
from dataclasses import dataclass, field

from sefwllon.problem import Problem
from verdict import ties, turned

CAP = 2**62
Context = dict[int, int]


def plus(*amounts: int) -> int:
    return min(sum(amounts), CAP)


def least(*bounds: int | None) -> int | None:
    """The least of some bounds, of which None is the greatest."""
    return min((bound for bound in bounds if bound is not None), default=None)


def is_part(one: Context, other: Context) -> bool:
    return one.items() <= other.items()


@dataclass(frozen=True)
class Message:
    kind: str
    numbers: tuple[int | None, ...]
    context: Context = field(default_factory=dict)


@dataclass
class Entry:
    """What an agent knows of a child for a value of its own: bounds, the child's share of the threshold, and what they rest on."""

    lower: int = 0
    upper: int | None = None
    share: int = 0
    context: Context = field(default_factory=dict)


class Agent:
    """An agent of ADOPT at its place in the tree."""

    def __init__(self, me: int, sizes: list[int], tables: list, neighbours: set[int], path: list[int], children: list[int], error: int):
        self.me, self.sizes, self.tables, self.neighbours = me, sizes, tables, neighbours
        self.path, self.children, self.error = path, children, error
        self.known: Context = {}
        self.value = self.threshold = self.last = 0
        self.terminated = self.ended = False
        self.entries = {(value, child): Entry() for value in range(sizes[me]) for child in children}

    def own(self, value: int) -> int:
        """The cost of a value by the tables of which all other variables are above and known."""
        total, at = 0, {**{v: d for v, d in self.known.items() if v in self.path}, self.me: value}
        for scope, costs in self.tables:
            if self.me in scope and all(v in at for v in scope):
                place = 0
                for v in scope:
                    place = place * self.sizes[v] + at[v]
                total = plus(total, costs[place])
        return total

    def lower_of(self, value: int) -> int:
        return plus(self.own(value), *(self.entries[value, child].lower for child in self.children))

    def upper_of(self, value: int) -> int | None:
        uppers = [self.entries[value, child].upper for child in self.children]
        if None in uppers or any(v in self.path and v not in self.known for v in self.neighbours):
            return None
        return plus(self.own(value), *uppers)

    def lower(self) -> int:
        return min(map(self.lower_of, range(self.sizes[self.me])))

    def upper(self) -> int | None:
        return least(*map(self.upper_of, range(self.sizes[self.me])))

    def learn(self, context: Context) -> None:
        """Knows this context alone: entries that do not rest on a part of it are forgotten."""
        self.known = context
        for key, entry in self.entries.items():
            if not is_part(entry.context, context):
                self.entries[key] = Entry()

    def restore(self) -> None:
        if not self.path:
            self.threshold = least(plus(self.lower(), self.error), self.upper())
        else:
            self.threshold = least(max(self.threshold, self.lower()), self.upper())

    def take(self, sender: int, message: Message) -> None:
        variables = {*self.path, *([self.me] if message.kind == "cost" else [])}
        if any(v not in variables or d >= self.sizes[v] for v, d in message.context.items()):
            return
        from_parent = bool(self.path) and sender == self.path[-1]
        if message.kind == "value" and sender in self.path and sender in self.neighbours:
            self.take_value(sender, *message.numbers)
        elif message.kind == "cost" and sender in self.children and self.me in message.context:
            rest = {v: d for v, d in message.context.items() if v != self.me}
            self.take_cost(self.entries, (message.context[self.me], sender), rest, *message.numbers)
        elif message.kind == "threshold" and from_parent and not self.terminated:
            self.last = message.numbers[0]
            if all(self.known.get(v, d) == d for v, d in message.context.items()):
                self.threshold = self.last
                self.restore()
        elif message.kind == "terminate" and from_parent and not self.terminated:
            self.terminated = True
            self.learn(dict(message.context))
            self.threshold = self.last
            self.restore()

    def take_value(self, sender: int, value: int) -> None:
        if not self.terminated and value < self.sizes[sender]:
            self.learn({**self.known, sender: value})
            self.restore()

    def take_cost(self, entries: dict, key: tuple[int, int], rest: Context, lower: int, upper: int | None) -> None:
        if not self.terminated:
            self.learn({**self.known, **{v: d for v, d in rest.items() if v not in self.neighbours or v not in self.known}})
            self.restore()
        entry = entries[key]
        lower, upper = max(entry.lower, lower), least(entry.upper, upper)
        if is_part(rest, self.known) and (upper is None or lower <= upper):
            share = least(max(entry.share, lower), upper)
            entries[key] = Entry(lower, upper, share, {**entry.context, **rest})
            self.restore()

    def start(self) -> list[tuple[int, Message]]:
        self.value = min(range(self.sizes[self.me]), key=self.lower_of)
        return self.act()

    def act(self) -> list[tuple[int, Message]]:
        """What the agent sends once it has taken all: to ascending receivers."""
        self.restore()
        upper, sent = self.upper(), []
        settled = upper is not None and self.threshold == upper
        if settled:
            self.value = next(value for value in range(self.sizes[self.me]) if self.upper_of(value) == upper)
        elif self.lower_of(self.value) > self.threshold:
            self.value = min(range(self.sizes[self.me]), key=self.lower_of)
        sent += [(v, Message("value", (self.value,))) for v in self.neighbours if v not in self.path]
        self.allot()
        sent += [(child, Message("threshold", (self.entries[self.value, child].share,), dict(self.known))) for child in self.children]
        self.ended = settled and (not self.path or self.terminated)
        if self.ended:
            sent += [(child, Message("terminate", (), {**self.known, self.me: self.value})) for child in self.children]
        elif self.path:
            sent.append((self.path[-1], Message("cost", (self.lower(), upper), dict(self.known))))
        return sorted(sent, key=lambda it: it[0])

    def allot(self) -> None:
        row = [self.entries[self.value, child] for child in self.children]
        most = None if any(entry.upper is None for entry in row) else sum(entry.upper for entry in row)
        goal = least(max(self.threshold - self.own(self.value), 0), most)
        for entry in row:
            missing = goal - sum(it.share for it in row)
            if missing > 0:
                entry.share = least(entry.share + missing, entry.upper)
            elif missing < 0:
                entry.share = max(entry.share + missing, entry.lower)


def agents_of(problem: Problem, error: int) -> list[Agent]:
    """The agents on the depth-first tree, which goes to the lowest variable that was not visited."""
    count, pairs = len(problem.variables), ties(problem)
    neighbours = [{b for a, b in pairs if a == v} for v in range(count)]
    paths: dict[int, list[int]] = {}

    def visit(v: int, path: list[int]) -> None:
        paths[v] = path
        for other in sorted(neighbours[v]):
            if other not in paths:
                visit(other, [*path, v])

    visit(0, [])
    sizes, costs = [it.size for it in problem.variables], turned(problem)[0]
    tables = [(table.scope, cells) for table, cells in zip(problem.tables, costs)]
    children = [[v for v in range(count) if paths[v][-1:] == [parent]] for parent in range(count)]
    return [Agent(v, sizes, tables, neighbours[v], paths[v], children[v], error) for v in range(count)]


class Telling:
    """The lines of a trace, as it goes on."""

    def __init__(self, problem: Problem, error: int):
        self.names = [it.name for it in problem.variables]
        self.agents = agents_of(problem, error)
        self.links: dict[tuple[int, int], deque[Message]] = {}
        self.lines: list[str] = []

    def words(self, message: Message) -> str:
        numbers = ["-" if number is None else str(number) for number in message.numbers]
        return " ".join([message.kind, *numbers, *self.pairs(message.context)])

    def pairs(self, context: Context) -> list[str]:
        return [word for v in sorted(context) for word in (self.names[v], str(context[v]))]

    def behind(self, agent: Agent, sent: list[tuple[int, Message]]) -> None:
        upper = "-" if agent.upper() is None else agent.upper()
        ended = "yes" if agent.ended else "no"
        self.lines.append(f"state value {agent.value} lower {agent.lower()} upper {upper} threshold {agent.threshold} ended {ended}")
        self.lines.append(" ".join(["context", *self.pairs(agent.known)]))
        for receiver, message in sent:
            self.links.setdefault((agent.me, receiver), deque()).append(message)
            self.lines.append(f"sent {self.names[receiver]} {self.words(message)}")

    def start(self, agent: Agent) -> None:
        self.lines.append(f"start {self.names[agent.me]}")
        self.behind(agent, agent.start())

    def event(self, number: int, words: list[str]) -> None:
        """An event by the words of its line in the log, behind the first."""
        agent = self.agents[self.names.index(words[0])]
        self.lines.append(f"event {number} {words[0]} {words[1]}")
        for name, count in zip(words[2::2], words[3::2]):
            sender = self.names.index(name)
            for _ in range(int(count)):
                message = self.links[sender, agent.me].popleft()
                self.lines.append(f"took {name} {self.words(message)}")
                agent.take(sender, message)
        self.behind(agent, agent.act())


def trace_reckoned(problem: Problem, error: int, events: list[list[str]]) -> str:
    """The whole trace of the events of a log, each the words of its line behind the first."""
    telling = Telling(problem, error)
    for agent in telling.agents:
        telling.start(agent)
    for number, words in enumerate(events, 1):
        telling.event(number, words)
    return "".join(f"{line}\n" for line in ["status trace", f"events {len(events)}", *telling.lines, "end"])
