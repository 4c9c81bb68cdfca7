"""A run as a sequence diagram: a column for each agent, time goes down, messages are arrows."""

from __future__ import annotations

from collections.abc import Iterable
from dataclasses import dataclass, field

from .draw import clean, half_width, label_of, svg
from .dpop_run import Step
from .problem import Trouble
from .run_telling import Names, sentence, short, state_words, table_words
from .tracing import Channels, Event, Message, read_message

MOST_EVENTS = 500
"""How many events a picture shows."""
ROW, TOP, LEFT, HIGH = 48, 64, 64, 26
"""The height of a row, where the first one is, where the first column is, and how high a box is."""
NEAR = 0.4
"""At which part of an arrow its words stand."""

_STYLE = (
    "<style>.life{stroke:#ccc}.box{fill:#eef4ff;stroke:#35a}.done{fill:#e4e4e4}.message{stroke:#555}.value{stroke:#35a}.cost{stroke:#b55}"
    ".threshold{stroke:#383}.terminate{stroke:#222;stroke-width:2}.far{stroke-dasharray:4 3}path.cost{fill:none}.word{font-size:10px}</style>"
    '<defs><marker id="head" viewBox="0 0 8 8" refX="8" refY="4" markerWidth="7" markerHeight="7" orient="auto">'
    '<path d="M0,0L8,4L0,8z" style="fill:#555;stroke:none"/></marker></defs>'
)


@dataclass(frozen=True)
class Box:
    """What an agent has come to: in which row, in few words, and in many, which stand under the mouse."""

    row: int
    agent: str
    word: str
    title: str
    ended: bool = False


@dataclass
class Arrow:
    """Messages from a row of an agent to one of another; from before the first row, or to behind the last one, where they are not all told."""

    sender: str
    begin: int
    receiver: str
    end: int
    far: bool = False
    kinds: list[str] = field(default_factory=list)
    words: list[str] = field(default_factory=list)
    titles: list[str] = field(default_factory=list)


@dataclass
class Diagram:
    """A diagram: the agents, by the user's names, a word for each row, boxes and arrows."""

    agents: dict[str, str]
    rows: list[str] = field(default_factory=list)
    boxes: list[Box] = field(default_factory=list)
    arrows: list[Arrow] = field(default_factory=list)

    def text(self) -> str:
        """The diagram as SVG."""
        half = max(62.0, half_width(self.agents.values()))
        place = {name: LEFT + half + 2 * (half + 8) * at for at, name in enumerate(self.agents)}
        bottom = TOP + ROW * len(self.rows)
        parts = [_STYLE]
        for name, own in self.agents.items():
            parts.append(f'<line class="life" x1="{place[name]:.1f}" y1="34" x2="{place[name]:.1f}" y2="{bottom}"/>')
            parts.append(f'<text class="title" x="{place[name]:.1f}" y="24">{label_of(own)}</text>')
        parts += [f'<text class="left small" x="{LEFT - 8}" y="{TOP + ROW * row + 4}">{clean(word)}</text>' for row, word in enumerate(self.rows)]
        parts += [drawn(arrow, place, half) for arrow in self.arrows]
        parts += [boxed(box, place[box.agent], half) for box in self.boxes]
        return svg(LEFT + 2 * (half + 8) * len(place) + 16, bottom + 10, parts)


def drawn(arrow: Arrow, place: dict[str, float], half: float) -> str:
    """An arrow, with its words near its beginning. A level one goes from line to line, or to the box at its end."""
    x, to = place[arrow.sender], place[arrow.receiver]
    y, end = float(TOP + ROW * arrow.begin), float(TOP + ROW * arrow.end)
    way = 1 if to > x else -1
    if arrow.end > arrow.begin:
        side = min(22.0, abs(to - x) / 4) * way
        x, to, y, end = x + side, to - side, y + HIGH / 2, end - HIGH / 2
    elif arrow.kinds == ["value"]:
        to -= way * (half - 6)
    kind = arrow.kinds[0] if len(set(arrow.kinds)) == 1 else "message"
    at_x, at_y = x + NEAR * (to - x), y + NEAR * (end - y) - 3
    title = clean("; ".join(arrow.titles))
    return (
        f'<g class="arrow"><path class="{kind}{" far" if arrow.far else ""}" marker-end="url(#head)" d="M{x:.1f},{y:.1f}L{to:.1f},{end:.1f}"/>'
        f'<text class="word" x="{at_x:.1f}" y="{at_y:.1f}">{label_of(", ".join(arrow.words), 28)}</text><title>{title}</title></g>'
    )


def boxed(box: Box, x: float, half: float) -> str:
    y, wide = TOP + ROW * box.row - HIGH / 2, half - 6
    kind = "box done" if box.ended else "box"
    return (
        f'<g class="event"><rect class="{kind}" x="{x - wide:.1f}" y="{y:.1f}" width="{2 * wide:.1f}" height="{HIGH}" rx="6"/>'
        f'<text class="name" x="{x:.1f}" y="{y + 17:.1f}">{clean(box.word)}</text><title>{clean(box.title)}</title></g>'
    )


def of_adopt(names: Names, events: Iterable[Event], first: int) -> Diagram:
    """The diagram of the events from this one on; those before it are needed too, for what is on its way."""
    diagram, channels, row_of = Diagram(dict(names.own)), Channels(), {}
    for event in events:
        origins = channels.take(event)
        if event.number < first:
            continue
        if event.number not in row_of:
            row_of[event.number] = len(diagram.rows)
            diagram.rows.append(f"event {event.number}" if event.number else "start")
        if len(diagram.rows) > MOST_EVENTS:
            raise Trouble(f"a picture shows {MOST_EVENTS} events at most: name fewer by --from and --to")
        row, state = row_of[event.number], event.state
        word = f"{names.value(event.agent, state.value)[:12]} {state.lower}..{'' if state.upper is None else state.upper} t {state.threshold}"
        diagram.boxes.append(Box(row, event.agent, word, state_words(names, event.agent, state) + names.where(event.context, ", knows "), state.ended))
        bundles: dict[tuple[str, int], Arrow] = {}
        for message, origin in zip(event.took, origins):
            arrow = bundles.setdefault((message.other, origin), Arrow(message.other, row_of.get(origin, -1), event.agent, row, origin not in row_of))
            add(names, arrow, message.other, message)
        diagram.arrows += bundles.values()
    diagram.arrows += left_over(names, channels, row_of, len(diagram.rows))
    return diagram


def add(names: Names, arrow: Arrow, sender: str, message: Message) -> None:
    """Adds a message to an arrow."""
    arrow.kinds.append(message.kind)
    arrow.words.append(short(names, message, sender))
    arrow.titles.append(sentence(names, message, sender))


def left_over(names: Names, channels: Channels, row_of: dict[int, int], last: int) -> list[Arrow]:
    """What these events sent and nobody has taken yet."""
    bundles: dict[tuple[str, str, int], Arrow] = {}
    for (sender, receiver), waiting in channels.waiting.items():
        for origin, words in waiting:
            if origin in row_of:
                arrow = bundles.setdefault((sender, receiver, origin), Arrow(sender, row_of[origin], receiver, last, True))
                add(names, arrow, sender, read_message(f"sent {receiver} {words}"))
    return list(bundles.values())


def of_dpop(names: Names, steps: Iterable[Step], chosen: dict[str, int]) -> Diagram:
    """The diagram of these steps: each a row, with a table that goes up, or values that come down to an agent that chooses."""
    diagram = Diagram(dict(names.own))
    for step in steps:
        row, util = len(diagram.rows), step.util
        diagram.rows.append(f"step {step.number}")
        if len(diagram.rows) > MOST_EVENTS:
            raise Trouble(f"a picture shows {MOST_EVENTS} steps at most: name fewer by --from and --to")
        if step.kind == "table":
            word = f"{len(util.cells):,} cells"
            diagram.arrows.append(Arrow(step.sender, row, step.receiver or "", row, False, ["cost"], [word], [table_words(names, util)]))
            continue
        value = names.value(util.name, chosen[util.name])
        if step.receiver is not None:
            words = names.where({name: chosen[name] for name in util.scope}, "")
            diagram.arrows.append(Arrow(step.sender, row, step.receiver, row, False, ["value"], [words], [words]))
        diagram.boxes.append(Box(row, util.name, f"= {value}"[:20], f"{names.own[util.name]} chooses {value}"))
    return diagram
