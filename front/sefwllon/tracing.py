"""What `dcop_trace` tells of a run of ADOPT, message by message. Its answer is read here, line by line, and nowhere else."""

from __future__ import annotations

import subprocess
import tempfile
from bisect import bisect_left, bisect_right
from collections import deque
from collections.abc import Generator, Iterable, Iterator
from contextlib import closing
from dataclasses import dataclass, field
from functools import cached_property

from .explain import differs
from .problem import Trouble
from .programs import Answer, missing
from .solving import NO, refusal

KINDS = ("value", "cost", "threshold", "terminate")
"""The kinds of messages."""
INNER = frozenset(("took", "state", "context", "sent"))
"""How the lines of an event begin."""
LAST = 10**9
"""The number of the last event that `dcop_trace` can be asked for."""
STRANGE = "the answer of dcop_trace is cut off or is not a trace: build dcop_trace again, or check which program SEFWLLON_TRACE names"


@dataclass(frozen=True)
class Message:
    """A message: who stands at its other end, its kind, and what it says as far as it is of that kind."""

    other: str
    kind: str
    value: int | None = None
    lower: int | None = None
    upper: int | None = None
    """The upper bound of a cost; None where there is none yet."""
    threshold: int | None = None
    context: dict[str, int] = field(default_factory=dict)


@dataclass(frozen=True)
class State:
    """What an agent has come to behind an event. There may be no upper bound yet."""

    value: int
    lower: int
    upper: int | None
    threshold: int
    ended: bool


@dataclass(frozen=True)
class Event:
    """The start of an agent, with the number 0, or an event of the log: its lines, which are read when they are asked for."""

    number: int
    agent: str
    stamp: int
    lines: list[str]

    @cached_property
    def took(self) -> list[Message]:
        """The messages that the agent took, in order."""
        return [read_message(line) for line in self.told("took ")]

    @cached_property
    def sent(self) -> list[Message]:
        """The messages that it sent, in order."""
        return [read_message(line) for line in self.told("sent ")]

    @cached_property
    def state(self) -> State:
        words = self.words("state")
        told = dict(zip(words[::2], words[1::2]))
        return State(int(told["value"]), int(told["lower"]), bound_of(told["upper"]), int(told["threshold"]), told["ended"] == "yes")

    @cached_property
    def context(self) -> dict[str, int]:
        """The values of agents above it that it knows."""
        return context_of(self.words("context"))

    def words(self, head: str) -> list[str]:
        """The words of its line with this head."""
        for words in map(str.split, self.lines):
            if words[0] == head:
                return words[1:]
        raise Trouble(STRANGE)

    def told(self, head: str) -> list[str]:
        """Its lines that begin so."""
        return [line for line in self.lines if line.startswith(head)]

    def others(self, head: str) -> list[str]:
        """Of whom it took each message, or to whom it sent each, without reading what they say."""
        return [line.split(maxsplit=2)[1] for line in self.told(head)]


def read_message(line: str) -> Message:
    """A line `took FROM MESSAGE` or `sent TO MESSAGE`."""
    _, other, kind, *words = line.split()
    match kind:
        case "value":
            return Message(other, kind, value=int(words[0]))
        case "cost":
            return Message(other, kind, lower=int(words[0]), upper=bound_of(words[1]), context=context_of(words[2:]))
        case "threshold":
            return Message(other, kind, threshold=int(words[0]), context=context_of(words[1:]))
        case "terminate":
            return Message(other, kind, context=context_of(words))
    raise Trouble(STRANGE)


def bound_of(word: str) -> int | None:
    return None if word == "-" else int(word)


def context_of(words: list[str]) -> dict[str, int]:
    return {name: int(value) for name, value in zip(words[::2], words[1::2])}


def read_events(lines: Iterable[str]) -> Iterator[Event]:
    """The events of a trace behind its first two lines, each as soon as its lines are there."""
    event: Event | None = None
    for line in lines:
        line = line.rstrip("\n")
        head, _, rest = line.partition(" ")
        if head in INNER and event is not None:
            event.lines.append(line)
            continue
        if event is not None:
            yield event
        match [head, *rest.split()]:
            case ["end"]:
                return
            case ["start", name]:
                event = Event(0, name, 0, [])
            case ["event", number, name, stamp]:
                event = Event(int(number), name, int(stamp), [])
            case _:
                break
    raise Trouble(STRANGE)


def traced(program: str | None, text: str, first: int = 0, last: int = LAST) -> Generator[Event, None, None]:
    """The events of the log behind a problem, from the first to the last of these numbers, as `dcop_trace` at this path tells them;
    with 0 the starts of the agents come before. The program is ended where this is closed before its end."""
    if not program:
        raise Trouble(missing("dcop_trace"))
    command = [program, "--from", str(first), "--to", str(last)]
    with tempfile.TemporaryFile() as given:
        given.write(text.encode())
        given.seek(0)
        try:
            process = subprocess.Popen(command, stdin=given, stdout=subprocess.PIPE, stderr=subprocess.DEVNULL, encoding="utf-8", errors="replace")
        except OSError as fault:
            raise Trouble(f"{program} can't be run: {fault.strerror}") from None
        assert process.stdout is not None
        try:
            head = process.stdout.readline()
            if head != "status trace\n":
                raise refused(head + process.stdout.read(), process.wait(), program, text)
            process.stdout.readline()
            yield from read_events(process.stdout)
        finally:
            process.stdout.close()
            process.kill()
            process.wait()


def refused(answer: str, status: int, path: str, text: str) -> Exception:
    """What an answer is that is no trace."""
    if status == NO and answer.startswith("status no\n"):
        return Trouble("no run has this log: " + differs(answer))
    return refusal(Answer(answer, status, "dcop_trace", path), "an answer of dcop_trace", text)


class Channels:
    """The messages on their way, by sender and receiver, in the order in which they were sent: each with the number of the event
    that sent it, and what it says. It follows a run from its start."""

    def __init__(self) -> None:
        self.waiting: dict[tuple[str, str], deque[tuple[int, str]]] = {}

    def take(self, event: Event) -> list[int]:
        """The numbers of the events that sent what this event took, in order; what it sends is on its way then."""
        origins = []
        for line in event.lines:
            head, _, rest = line.partition(" ")
            other, _, words = rest.partition(" ")
            if head == "took":
                waiting = self.waiting.get((other, event.agent))
                if not waiting or waiting[0][1] != words:
                    raise Trouble(f"dcop_trace says that {event.agent} takes `{words}` from {other} in event {event.number}, which is not what was sent: don't trust it")
                origins.append(waiting.popleft()[0])
            elif head == "sent":
                self.waiting.setdefault((event.agent, other), deque()).append((event.number, words))
        return origins


@dataclass
class OnTheWay:
    """A message on its way: of whom, to whom, sent in which event."""

    sender: str
    receiver: str
    number: int
    message: Message


class Recorded:
    """A whole run, from its start, in which any event can be looked at: the events' lines, and when each message was sent and taken."""

    def __init__(self, program: str | None, text: str):
        self.starts: dict[str, Event] = {}
        self.blocks: list[tuple[str, int, str]] = []
        self.of_agent: dict[str, list[int]] = {}
        self.sent: dict[tuple[str, str], list[int]] = {}
        self.taken: dict[tuple[str, str], list[int]] = {}
        with closing(traced(program, text)) as events:
            for event in events:
                self.add(event)

    def add(self, event: Event) -> None:
        if event.number == 0:
            self.starts[event.agent], self.of_agent[event.agent] = event, []
        else:
            self.blocks.append((event.agent, event.stamp, "\n".join(event.lines)))
            self.of_agent[event.agent].append(event.number)
        for other in event.others("took "):
            self.taken.setdefault((other, event.agent), []).append(event.number)
        for other in event.others("sent "):
            self.sent.setdefault((event.agent, other), []).append(event.number)

    def event(self, number: int) -> Event:
        """An event of the log, counted from 1."""
        agent, stamp, lines = self.blocks[number - 1]
        return Event(number, agent, stamp, lines.split("\n"))

    def last_of(self, agent: str, number: int) -> Event:
        """What an agent did last, up to this event: one of the log, or its start."""
        place = bisect_right(self.of_agent[agent], number)
        return self.event(self.of_agent[agent][place - 1]) if place else self.starts[agent]

    def on_the_way(self, number: int) -> list[OnTheWay]:
        """The messages that are sent up to this event and taken by none up to it, by sender and receiver."""
        found = []
        for (sender, receiver), sent in self.sent.items():
            first = bisect_right(self.taken.get((sender, receiver), []), number)
            for place in range(first, bisect_right(sent, number)):
                here = self.event(sent[place]) if sent[place] else self.starts[sender]
                message = [it for it in here.sent if it.other == receiver][place - bisect_left(sent, sent[place])]
                found.append(OnTheWay(sender, receiver, here.number, message))
        return found
