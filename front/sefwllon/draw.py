"""Pictures as SVG: a problem's graph, its tree, the root's bounds over the messages, and a timetable."""

from __future__ import annotations

import math
from collections.abc import Callable, Iterable
from html import escape

from . import layout
from .problem import Problem, Trouble
from .replaying import Moment
from .report import Node
from .timetable.model import Slot, Timetable
from .timetable.rules import Breach, breaches

_STYLE = (
    "<style>text{font:12px sans-serif;text-anchor:middle;fill:#222;paint-order:stroke;stroke:#fff;stroke-width:2px}"
    ".small{font-size:10px;fill:#666}line,path{stroke:#888;fill:none}"
    ".dashed{stroke-dasharray:4 3;stroke:#b55}ellipse{fill:#eef4ff;stroke:#35a}.name{stroke:none}"
    ".title{font-size:13px}.left{text-anchor:end}.legend{text-anchor:start}.grid{stroke:#ddd}"
    ".lower{stroke:#35a;stroke-width:2}.upper{stroke:#b55;stroke-width:2}.cost{fill:#222;stroke:none}"
    ".broken{fill:#c00;text-anchor:start}rect.clash{stroke:#c00;stroke-width:2}</style>"
)
_LONGEST, _LONGEST_WORD, _LONGEST_LINE = 20, 40, 160
"""How many letters of a name are shown in a picture of a graph or a tree, of one in a timetable, and of a line above a picture."""
_ROW = 34
_LEFT, _TOP, _WIDE, _HIGH = 70, 76, 560, 280


def svg(width: float, height: float, parts: list[str]) -> str:
    head = f'<svg xmlns="http://www.w3.org/2000/svg" viewBox="0 0 {width:.0f} {height:.0f}" width="{width:.0f}" height="{height:.0f}">'
    return "\n".join([head, _STYLE, *parts, "</svg>"]) + "\n"


def short(name: str, longest: int = _LONGEST) -> str:
    return name if len(name) <= longest else name[: longest - 1] + "\N{HORIZONTAL ELLIPSIS}"


def clean(text: str) -> str:
    """A text as SVG has it. What can't be shown, as control characters, is shown as that."""
    return escape("".join(it if it.isprintable() else " " if it.isspace() else "\N{REPLACEMENT CHARACTER}" for it in text))


def label_of(text: str, longest: int = _LONGEST) -> str:
    """A text that is cut where it is too long; it is told whole under the mouse."""
    return clean(short(text, longest)) + (f"<title>{clean(text)}</title>" if len(text) > longest else "")


def half_width(names: Iterable[str]) -> float:
    """Half the width of the ellipses in which all these names fit."""
    return max([22.0, *(4.0 * len(short(name)) + 8 for name in names)])


def oval(x: float, y: float, half: float, name: str, below: str = "") -> list[str]:
    parts = [
        f'<ellipse cx="{x:.1f}" cy="{y:.1f}" rx="{half:.1f}" ry="22"/>',
        f'<text class="name" x="{x:.1f}" y="{y + 4:.1f}">{label_of(name)}</text>',
    ]
    if below:
        parts.append(f'<text class="small" x="{x:.1f}" y="{y + 36:.1f}">{label_of(below)}</text>')
    return parts


def edge(a: tuple[float, float], b: tuple[float, float], kind: str = "") -> str:
    return f'<line{f" class={chr(34)}{kind}{chr(34)}" if kind else ""} x1="{a[0]:.1f}" y1="{a[1]:.1f}" x2="{b[0]:.1f}" y2="{b[1]:.1f}"/>'


def bow(a: tuple[float, float], b: tuple[float, float], half: float) -> str:
    """A dashed line between two spots, bent past the ellipses that lie between them."""
    bend = max(a[0], b[0]) + 2 * half + 14 + 0.13 * abs(a[1] - b[1])
    return f'<path class="dashed" d="M{a[0]:.1f},{a[1]:.1f} Q{bend:.1f},{(a[1] + b[1]) / 2:.1f} {b[0]:.1f},{b[1]:.1f}"/>'


def graph(problem: Problem, names: list[str], below: list[str]) -> str:
    """The variables, with a line between two that share a table, and a word below each: as Graphviz lays them out, or on a ring."""
    half = half_width([*names, *below])
    edges = [(a, b) for a, near in enumerate(problem.neighbours()) for b in sorted(near) if a < b]
    found = layout.graph(len(names), half, edges)
    if found is not None and len(found.spots) == len(names):
        spots = [(x + 20, y + 10) for x, y in (found.spots[at] for at in range(len(names)))]
        wide, high = found.width + 40, found.height + 30
    else:
        spots, wide = on_a_ring(len(names), half)
        high = wide + 20
    parts = [edge(spots[a], spots[b]) for a, b in edges]
    for spot, name, word in zip(spots, names, below):
        parts += oval(*spot, half, name, word)
    return svg(wide, high, parts)


def on_a_ring(count: int, half: float) -> tuple[list[tuple[float, float]], float]:
    """Spots on a ring, and how wide it is."""
    radius = max(90.0, count * (2 * half + 16) / (2 * math.pi))
    middle = radius + half + 38
    angles = [2 * math.pi * i / count for i in range(count)]
    return [(middle + radius * math.sin(angle), middle - radius * math.cos(angle)) for angle in angles], 2 * middle


def tree(problem: Problem, nodes: list[Node], own: dict[str, str]) -> str:
    """The tree over which the agents work: solid lines to parents, dashed ones to others of the separator, and the
    cells of each agent's joined table."""
    if sum(node.parent is None for node in nodes) != 1:
        raise Trouble("the tree does not have exactly one root")
    sizes = {v.name: v.size for v in problem.variables}
    cells = {node.name: f"{math.prod(sizes[name] for name in [node.name, *node.separator]):,} cells" for node in nodes}
    half = half_width([*own.values(), *cells.values()])
    solid, dashed = lines_of(nodes)
    place = {node.name: at for at, node in enumerate(nodes)}
    found = layout.tree(len(nodes), half, numbered(solid, place), numbered(dashed, place))
    spots = level_by_level(nodes, half) if found is None else {name: (x + 20, y + 10) for name, (x, y) in named(found.spots, place).items()}
    parts = [edge(spots[above], spots[below], "" if above in separators(nodes)[below] else "dashed") for above, below in solid]
    for above, below in dashed:
        way = None if found is None else found.ways.get((place[above], place[below]))
        parts.append(curve([(x + 20, y + 10) for x, y in way]) if way else bow(spots[below], spots[above], half))
    for node in nodes:
        parts += oval(*spots[node.name], half, own[node.name], cells[node.name])
    high = max(y for _, y in spots.values()) + 60
    if found is not None:
        return svg(found.width + 40, high, parts)
    bent = max((abs(spots[a][1] - spots[b][1]) / 90 for a, b in dashed), default=0)
    return svg(max(x for x, _ in spots.values()) + half + 38 + 6 * bent, high, parts)


def separators(nodes: list[Node]) -> dict[str, list[str]]:
    return {node.name: node.separator for node in nodes}


def lines_of(nodes: list[Node]) -> tuple[list[tuple[str, str]], list[tuple[str, str]]]:
    """The lines of a tree, each from above to below: those to parents, and those to others of the separators."""
    solid = [(node.parent, node.name) for node in nodes if node.parent is not None]
    return solid, [(other, node.name) for node in nodes for other in node.separator if other != node.parent]


def numbered(lines: list[tuple[str, str]], place: dict[str, int]) -> list[tuple[int, int]]:
    return [(place[above], place[below]) for above, below in lines]


def named(spots: dict[int, tuple[float, float]], place: dict[str, int]) -> dict[str, tuple[float, float]]:
    return {name: spots[at] for name, at in place.items()}


def level_by_level(nodes: list[Node], half: float) -> dict[str, tuple[float, float]]:
    """Spots of a tree: each parent above the middle of its children."""
    children: dict[str | None, list[str]] = {}
    for node in nodes:
        children.setdefault(node.parent, []).append(node.name)
    depth: dict[str, int] = {}
    spots: dict[str, tuple[float, float]] = {}
    leaves = 0
    for node in nodes:
        depth[node.name] = 0 if node.parent is None else depth[node.parent] + 1
    for node in reversed(nodes):
        below = children.get(node.name, [])
        if below:
            x = sum(spots[c][0] for c in below) / len(below)
        else:
            leaves += 1
            x = -max(90.0, 2 * half + 16) * leaves
        spots[node.name] = (x, 60 + 90.0 * depth[node.name])
    left = min(x for x, _ in spots.values()) - half - 38
    return {name: (x - left, y) for name, (x, y) in spots.items()}


def curve(way: list[tuple[float, float]]) -> str:
    """A dashed line by the spots of cubic curves."""
    first, *others = [f"{x:.1f},{y:.1f}" for x, y in way]
    return f'<path class="dashed" d="M{first} C{" ".join(others)}"/>'


def bounds(moments: list[Moment], told: Callable[[int], str], title: str, cost: int) -> str:
    """The root's bounds over the messages delivered, as steps: a line of lower and one of upper bounds, and the cost of
    the report's values as a dot at the end."""
    last = max(m.deliveries for m in moments)
    seen = [cost, *(y for m in moments for y in (m.lower, m.upper) if y is not None)]
    low, high = min(seen), max(seen)

    def spot(x: int, y: int) -> tuple[float, float]:
        return _LEFT + _WIDE * x / max(last, 1), _TOP + _HIGH * (high - y) / max(high - low, 1)

    parts = [f'<text class="title" x="{_LEFT + _WIDE / 2:.0f}" y="24">{clean(short(title, _LONGEST_LINE))}</text>']
    for y in ticks(low, high):
        at = spot(0, y)[1]
        parts.append(edge((_LEFT, at), (_LEFT + _WIDE, at), "grid"))
        parts.append(f'<text class="left" x="{_LEFT - 8}" y="{at + 4:.1f}">{clean(told(y))}</text>')
    for x in ticks(0, last):
        at = spot(x, low)[0]
        parts.append(edge((at, _TOP + _HIGH), (at, _TOP + _HIGH + 5)))
        parts.append(f'<text x="{at:.1f}" y="{_TOP + _HIGH + 20}">{x:,}</text>')
    parts.append(edge((_LEFT, _TOP + _HIGH), (_LEFT + _WIDE, _TOP + _HIGH)))
    parts.append(f'<text x="{_LEFT + _WIDE / 2:.0f}" y="{_TOP + _HIGH + 42}">messages delivered</text>')
    for place, which in enumerate(("upper", "lower")):
        line = [(m.deliveries, getattr(m, which)) for m in moments if getattr(m, which) is not None]
        if line:
            parts.append(steps([spot(x, y) for x, y in line], spot(last, line[-1][1]), which))
        y = 48 + 16 * place
        parts.append(f'<path class="{which}" d="M{_LEFT + _WIDE - 110},{y - 4} h24"/>')
        parts.append(f'<text class="legend" x="{_LEFT + _WIDE - 80}" y="{y}">{which} bound</text>')
    x, at = spot(last, cost)
    parts.append(f'<circle class="cost" cx="{x:.1f}" cy="{at:.1f}" r="4"/>')
    parts.append(f'<text class="legend" x="{x + 8:.1f}" y="{at + 4:.1f}">{clean(told(cost))}</text>')
    return svg(_LEFT + _WIDE + 70, _TOP + _HIGH + 60, parts)


def timetable(
    told: Timetable, chosen: dict[str, object], found: Iterable[Breach] | None = None, rooms: dict[str, str] | None = None
) -> str:
    """A row for each slot and a column for each person, with the meetings in it; grey where somebody can't. Two meetings
    that a person has in one slot stand side by side. Meetings that break a rule have a red edge, and a red line on top."""
    people, barred, found = sorted(told.people()), told.barred(), list(breaches(told, chosen) if found is None else found)
    clashing = {name for clash in found for name in clash.meetings}
    hues = {name: 360 * place // len(told.meetings) for place, name in enumerate(told.meetings)}
    warnings = [f"breaks a rule: {clash.sentence()}" for clash in found]
    parts = [f'<text class="broken" x="20" y="{24 + 18 * at}">{label_of(line, _LONGEST_LINE)}</text>' for at, line in enumerate(warnings)]
    top = 42 + 18 * len(warnings)
    left = 30 + max(max(7 * min(len(slot.name), _LONGEST_WORD), 6 * len(slot.hours)) for slot in told.slots)
    words = {name: name if not (rooms or {}).get(name) else f"{name}, {(rooms or {})[name]}" for name in told.meetings}
    wide = 30 + 7 * min(_LONGEST_WORD, max(len(word) for word in [*people, *words.values()]))
    columns = {name: wide * most_at_once(told, chosen, name) for name in people}
    right = left + sum(columns.values())
    for row, slot in enumerate(told.slots):
        parts += label(slot, left - 10, top + _ROW * row)
        parts.append(edge((left, top + _ROW * row), (right, top + _ROW * row), "grid"))
    x = left
    for person, width in columns.items():
        parts.append(f'<text x="{x + width / 2:.1f}" y="{top - 12}">{label_of(person, _LONGEST_WORD)}</text>')
        for row, slot in enumerate(told.slots):
            y, here = top + _ROW * row + 2, meetings_of(told, chosen, person, slot)
            if slot.name in barred.get(person, ()):
                parts.append(f'<rect x="{x + 2}" y="{y}" width="{width - 4}" height="30" fill="#eee"/>')
            for at, name in enumerate(here):
                parts += box(x + width / len(here) * at, y, width / len(here), words[name], hues[name], name in clashing)
        x += width
    wanted = 40 + 7 * min(_LONGEST_LINE, max(map(len, warnings), default=0))
    return svg(max(right + 20, wanted), top + _ROW * len(told.slots) + 12, parts)


def meetings_of(told: Timetable, chosen: dict[str, object], person: str, slot: Slot) -> list[str]:
    return [name for name, it in told.meetings.items() if person in it.everybody and told.slot_of(chosen, name) is slot]


def most_at_once(told: Timetable, chosen: dict[str, object], person: str) -> int:
    """How many boxes stand side by side in a person's column."""
    return max([1, *(len(meetings_of(told, chosen, person, slot)) for slot in told.slots)])


def label(slot: Slot, x: float, y: float) -> list[str]:
    """A slot's name, and below it when it is, where that is told."""
    parts = [f'<text class="left" x="{x}" y="{y + (15 if slot.hours else 20)}">{label_of(slot.name, _LONGEST_WORD)}</text>']
    if slot.hours:
        parts.append(f'<text class="left small" x="{x}" y="{y + 28}">{slot.hours}</text>')
    return parts


def box(x: float, y: float, width: float, name: str, hue: int, clashes: bool) -> list[str]:
    kind = ' class="clash"' if clashes else ""
    return [
        f'<rect{kind} x="{x + 2:.1f}" y="{y}" width="{width - 4:.1f}" height="30" rx="4" fill="hsl({hue},60%,85%)"/>',
        f'<text class="name" x="{x + width / 2:.1f}" y="{y + 19}">{label_of(name, _LONGEST_WORD)}</text>',
    ]


def steps(spots: list[tuple[float, float]], end: tuple[float, float], kind: str) -> str:
    """A line that goes on level until the next spot."""
    way = f"M{spots[0][0]:.1f},{spots[0][1]:.1f}"
    for x, y in [*spots[1:], end]:
        way += f" H{x:.1f} V{y:.1f}"
    return f'<path class="{kind}" d="{way}"/>'


def ticks(low: int, high: int) -> list[int]:
    """Round numbers from the one to the other, about five."""
    span = max(high - low, 1)
    step = 10 ** max(0, len(str(span)) - 1)
    step = next((s for s in (step // 5, step // 2, step, 2 * step) if s and span // s <= 6), 2 * step)
    return list(range(-(-low // step) * step, high + 1, step))
