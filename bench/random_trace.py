"""The trials of random_trace.sh, which says what they are."""

from __future__ import annotations

import random
import re
import sys
import tempfile
import time
from collections import Counter, deque
from dataclasses import dataclass

from adopt_reckoned import trace_reckoned
from sefwllon.problem import parse
from trial import Answer, small_problem, wcsp_text

AMOUNT = r"(?:0|[1-9]\d*)"
PAIRS = rf"(?: v\d+ {AMOUNT})*"
MESSAGE = rf"(?:value {AMOUNT}|cost {AMOUNT} (?:{AMOUNT}|-){PAIRS}|threshold {AMOUNT}{PAIRS}|terminate{PAIRS})"
STATE = rf"state value {AMOUNT} lower {AMOUNT} upper (?:{AMOUNT}|-) threshold {AMOUNT} ended (?:yes|no)\ncontext{PAIRS}\n"
SENT = rf"((?:sent v\d+ {MESSAGE}\n)*)"
START = re.compile(rf"start (v\d+)\n({STATE}){SENT}")
EVENT = re.compile(rf"event (\d+) (v\d+) (\d+)\n((?:took v\d+ {MESSAGE}\n)+)({STATE}){SENT}")


class Wrong(Exception):
    """What is wrong with an answer."""


@dataclass(frozen=True)
class Told:
    """The start or an event of an agent as a trace tells it; of a start number and stamp are 0, and nothing is taken."""

    text: str
    number: int
    agent: str
    stamp: int
    took: tuple[tuple[str, str], ...]
    state: str
    sent: tuple[tuple[str, str], ...]

    def ended(self) -> bool:
        return self.state.endswith(" ended yes")


@dataclass(frozen=True)
class Given:
    """A problem, and the report of a run on it."""

    words: list[str]
    problem: bytes
    report: bytes

    def events(self) -> list[list[str]]:
        """The words of the log's events."""
        lines = (line.split() for line in self.report.decode().splitlines())
        return [words[1:] for words in lines if words[0] == "event"]


def messages(text: str) -> tuple[tuple[str, str], ...]:
    """The other agent and the message of each `took` or `sent` line."""
    parted = (line.split(" ", 2) for line in text.splitlines())
    return tuple((name, message) for _, name, message in parted)


def read_trace(text: str) -> tuple[int, list[Told]]:
    """How many events a trace says were played, and what it tells."""
    head = re.match(r"status trace\nevents (\d+)\n", text)
    if not head or not text.endswith("end\n"):
        raise Wrong("the answer is no trace")
    told, at = [], head.end()
    while text[at:] != "end\n":
        if start := START.match(text, at):
            agent, state, sent = start.groups()
            told.append(Told(start[0], 0, agent, 0, (), state.splitlines()[0], messages(sent)))
        elif event := EVENT.match(text, at):
            number, agent, stamp, took, state, sent = event.groups()
            told.append(Told(event[0], int(number), agent, int(stamp), messages(took), state.splitlines()[0], messages(sent)))
        else:
            raise Wrong(f"a line is of no form: {text[at:at + 80]!r}")
        at += len(told[-1].text)
    return int(head[1]), told


def drawn(rng: random.Random, dcop: str) -> Given:
    """A problem and a report with the log of a run on it."""
    wcsp = rng.random() < 0.1
    problem = wcsp_text(rng) if wcsp else small_problem(rng, 7)
    form = ["--format", "wcsp"] if wcsp else []
    options = {"--workers": rng.choice((1, 1, 2, 3, 8)), "--error": rng.choice((0, 0, 1, 5, 1000)), "--budget": rng.choice((0, 5, 40, 120, 300))}
    words = [word for name, number in options.items() for word in (name, str(number))]
    answer = Answer(dcop, ["solve", "--method", "adopt", "--certificate", "yes", *words, *form], problem)
    if answer.status not in (0, 1):
        raise Wrong(f"solve ends with {answer.status}, {answer.out[:200]!r}")
    return Given(form, problem, answer.out)


def check_events(given: Given, played: int, told: list[Told]) -> None:
    """The events are those of the log: their agents and stamps, and of whom they took how many messages."""
    log, events = given.events(), [it for it in told if it.number]
    if played != len(log) or [it.number for it in events] != list(range(1, played + 1)):
        raise Wrong("the events are not so many as the log has")
    for words, event in zip(log, events):
        counts = [(sender, int(count)) for sender, count in zip(words[2::2], words[3::2])]
        senders = [sender for sender, count in counts for _ in range(count)]
        if words[:2] != [event.agent, str(event.stamp)] or senders != [sender for sender, _ in event.took]:
            raise Wrong(f"event {event.number} is not that of the log: {' '.join(words)}")


def check_links(told: list[Told]) -> None:
    """Each message that is taken is the next one that was sent on its link."""
    links: dict[tuple[str, str], deque[str]] = {}
    ended: set[str] = set()
    for it in told:
        if it.agent in ended:
            raise Wrong(f"event {it.number} is of an agent that has ended")
        for sender, message in it.took:
            waiting = links.get((sender, it.agent))
            if not waiting or waiting.popleft() != message:
                raise Wrong(f"event {it.number} takes what {sender} has not sent next: {message}")
        for receiver, message in it.sent:
            links.setdefault((it.agent, receiver), deque()).append(message)
        if it.ended():
            ended.add(it.agent)


def states_behind(told: list[Told], most: int) -> list[str]:
    """The lines of `replay` behind so many events."""
    last = {it.agent: it.state for it in told if it.number <= most}
    return [f"agent {name}{state.removeprefix('state')}" for name, state in last.items()]


def replayed(dcop: str, given: Given, after: int) -> Answer:
    return Answer(dcop, ["replay", "--after", str(after), *given.words], given.problem + given.report)


def traced(trace: str, given: Given, *words: str) -> Answer:
    answer = Answer(trace, [*words, *given.words], given.problem + given.report)
    if answer.err:
        raise Wrong("something is on standard error")
    return answer


def check_states(dcop: str, given: Given, told: list[Told], after: int, played: int) -> None:
    """The states behind so many events are those that `replay` prints."""
    answer = replayed(dcop, given, after)
    lines = ["status replay", f"events {played}", *states_behind(told, played), "end"]
    if answer.status != 0 or answer.out.decode().splitlines() != lines:
        raise Wrong(f"the states behind {after} events are not those of replay")


def check_part(rng: random.Random, trace: str, given: Given, told: list[Told], played: int) -> None:
    """A part of the trace is that part of the whole one."""
    first, last = (rng.randint(0, played + 2) for _ in range(2))
    most = min(last, played)
    inner = "".join(it.text for it in told if first <= it.number <= most)
    answer = traced(trace, given, "--from", str(first), "--to", str(last))
    if answer.status != 0 or answer.out.decode() != f"status trace\nevents {most}\n{inner}end\n":
        raise Wrong(f"--from {first} --to {last} is not that part of the whole trace")


def altered(rng: random.Random, given: Given) -> Given:
    """A report whose log has an event left out or doubled, or another count."""
    lines = given.report.decode().splitlines()
    at = rng.choice([at for at, line in enumerate(lines) if line.startswith("event ")])
    words = lines[at].split()
    words[-1] = str(rng.choice((0, 1, 2, int(words[-1]) + 1, 2**32 - 1)))
    lines[at:at + 1] = rng.choice(([], [lines[at]] * 2, [" ".join(words)]))
    return Given(given.words, given.problem, "".join(f"{line}\n" for line in lines).encode())


def check_altered(rng: random.Random, trace: str, dcop: str, given: Given) -> bool:
    """An altered log is refused as `replay` refuses it, or told with its states. Whether it was refused."""
    most = rng.choice((10**9, rng.randint(0, len(given.events()))))
    wanted, answer = replayed(dcop, given, most), traced(trace, given, "--to", str(most))
    if answer.status != wanted.status or (wanted.status != 0 and answer.out != wanted.out):
        raise Wrong(f"the altered log is not answered as by replay, up to {most}")
    if wanted.status == 0:
        played, told = read_trace(answer.out.decode())
        check_links(told)
        check_states(dcop, given, told, most, played)
    return wanted.status != 0


def check_reckoned(dcop: str, given: Given, text: str) -> None:
    """The whole trace is the one that is reckoned anew in Python."""
    problem = Answer(dcop, ["upgrade", *given.words], given.problem).out if given.words else given.problem
    error = next(int(line.split()[1]) for line in given.report.decode().splitlines() if line.startswith("error "))
    wanted = trace_reckoned(parse(problem.decode("latin-1")), error, given.events())
    if text != wanted:
        at = next(at for at, (one, other) in enumerate(zip(text.splitlines(), wanted.splitlines())) if one != other)
        raise Wrong(f"line {at + 1} of the trace should be {wanted.splitlines()[at]!r}")


def check_whole(rng: random.Random, trace: str, dcop: str, given: Given, told_of: Counter[str]) -> None:
    """All that is asked of the trace of a log that holds."""
    answer = traced(trace, given)
    if answer.status != 0:
        raise Wrong(f"it ends with {answer.status}")
    played, told = read_trace(answer.out.decode())
    check_events(given, played, told)
    check_links(told)
    check_reckoned(dcop, given, answer.out.decode())
    for after in range(played + 1):
        check_states(dcop, given, told, after, after)
    check_part(rng, trace, given, told, played)
    told_of["events"] += played
    told_of["messages"] += sum(len(it.took) for it in told)


def main() -> None:
    trace, dcop, (seed, count, first) = *sys.argv[1:3], map(int, sys.argv[3:6])
    began, told_of = time.monotonic(), Counter()
    for number in range(first, first + count):
        rng = random.Random(f"{seed} {number}")
        made = drawn(rng, dcop)
        try:
            check_whole(rng, trace, dcop, made, told_of)
            if made.events():
                made = altered(rng, made)
                told_of["altered"] += 1
                told_of["refused"] += check_altered(rng, trace, dcop, made)
        except Wrong as wrong:
            with tempfile.NamedTemporaryFile(prefix="random-", suffix=".input", delete=False) as it:
                it.write(made.problem + made.report)
            sys.exit(f"trial {number} of seed {seed}: {wrong}\n  dcop_trace {' '.join(made.words)} < {it.name}")
        if (number + 1 - first) % 100 == 0:
            print(f"  {number + 1 - first:,} trials, {time.monotonic() - began:.0f} s", flush=True)
    print(f"{count:,} logs of seed {seed} in {time.monotonic() - began:.0f} s, none of which was told wrong: {told_of['events']:,} events that"
          f" took {told_of['messages']:,} messages; of {told_of['altered']:,} altered logs {told_of['refused']:,} are refused as by replay")


main()
