"""How the steps of a run are told: as text and as JSON, by the user's own names and values."""

from __future__ import annotations

from dataclasses import dataclass
from itertools import product
from typing import Any

from .dpop_run import Step, Util
from .tracing import Event, Message, State
from .translate import Translation, number

Told = dict[str, Any]

MOST_CELLS = 16
"""How many cells of a table are told in a text."""


@dataclass
class Names:
    """The user's names and values, by the problem's names, and how costs are called."""

    own: dict[str, str]
    values: dict[str, list[str]]
    costs: str
    """What agents count: costs, or what is missed of the greatest sum."""

    @staticmethod
    def of(told: Translation) -> Names:
        variables = [variable.name for variable in told.problem.variables]
        values = {name: [str(value) for value in values] for name, values in zip(variables, told.values)}
        return Names(dict(zip(variables, told.names)), values, "costs" if told.problem.goal == "min" else "misses")

    def value(self, name: str, value: int) -> str:
        own = self.values[name]
        return own[value] if value < len(own) else str(value)

    def pairs(self, context: dict[str, int]) -> Told:
        return {self.own[name]: self.value(name, value) for name, value in context.items()}

    def where(self, context: dict[str, int], word: str = " where ") -> str:
        """A context in words; nothing where it says nothing."""
        return word + ", ".join(f"{name} = {value}" for name, value in self.pairs(context).items()) if context else ""


def amounts(names: Names, lower: int, upper: int | None) -> str:
    """Bounds in words."""
    if upper is None:
        return f"{names.costs} at least {lower}"
    return f"{names.costs} {lower}" if lower == upper else f"{names.costs} {lower} to {upper}"


def sentence(names: Names, message: Message, sender: str) -> str:
    """What a message says."""
    match message.kind:
        case "value":
            return f"value {names.value(sender, message.value or 0)}"
        case "cost":
            return amounts(names, message.lower or 0, message.upper) + names.where(message.context)
        case "threshold":
            return f"threshold {message.threshold}" + names.where(message.context)
    return "terminate" + names.where(message.context, ", with ")


def short(names: Names, message: Message, sender: str) -> str:
    """What a message says, without its context."""
    match message.kind:
        case "value":
            return names.value(sender, message.value or 0)
        case "cost":
            return f"{message.lower}..{'' if message.upper is None else message.upper}"
        case "threshold":
            return f"t {message.threshold}"
    return "end"


def state_words(names: Names, agent: str, state: State) -> str:
    ended = ", ended" if state.ended else ""
    return f"value {names.value(agent, state.value)}, subtree {amounts(names, state.lower, state.upper)}, threshold {state.threshold}{ended}"


def event_text(names: Names, event: Event) -> str:
    """An event as lines."""
    agent = names.own[event.agent]
    lines = [f"event {event.number}  {agent}, stamp {event.stamp}" if event.number else f"start  {agent}"]
    lines += [f"  takes  {names.own[it.other]}: {sentence(names, it, it.other)}" for it in event.took]
    lines.append(f"  is     {state_words(names, event.agent, event.state)}{names.where(event.context, ', knows ')}")
    lines += [f"  sends  {names.own[it.other]}: {sentence(names, it, event.agent)}" for it in event.sent]
    return "\n".join(lines) + "\n"


def message_told(names: Names, message: Message, sender: str) -> Told:
    """What a message says, as JSON: a context is the values by name; an upper bound that is not there is null."""
    told: Told = {"kind": message.kind}
    match message.kind:
        case "value":
            return told | {"value": names.value(sender, message.value or 0)}
        case "cost":
            told |= {"lower": message.lower, "upper": message.upper}
        case "threshold":
            told |= {"threshold": message.threshold}
    return told | {"context": names.pairs(message.context)}


def state_told(names: Names, agent: str, state: State) -> Told:
    return {"value": names.value(agent, state.value), "lower": state.lower, "upper": state.upper, "threshold": state.threshold, "ended": state.ended}


def event_told(names: Names, event: Event) -> Told:
    """An event as JSON."""
    return {
        "event": event.number,
        "agent": names.own[event.agent],
        "stamp": event.stamp,
        "took": [{"from": names.own[it.other], **message_told(names, it, it.other)} for it in event.took],
        "state": state_told(names, event.agent, event.state),
        "context": names.pairs(event.context),
        "sent": [{"to": names.own[it.other], **message_told(names, it, event.agent)} for it in event.sent],
    }


def step_text(names: Names, step: Step, chosen: dict[str, int]) -> str:
    """A step of DPOP as lines."""
    own, util = names.own, step.util
    if step.kind == "table":
        return f"step {step.number}  {own[step.sender]} sends {own[step.receiver or '']} {table_words(names, util)}\n" + cells_text(names, util)
    if step.kind == "chosen":
        least = f"the best {names.costs} {util.cells[0]}"
        return f"step {step.number}  {own[step.sender]} has all tables, and chooses {own[util.name]} = {names.value(util.name, chosen[util.name])}: {least}\n"
    given = names.where({name: chosen[name] for name in util.scope}, "")
    return f"step {step.number}  {own[step.sender]} tells {own[util.name]} {given or 'to choose'}, and {own[util.name]} chooses {names.value(util.name, chosen[util.name])}\n"


def table_words(names: Names, util: Util) -> str:
    over = ", ".join(names.own[name] for name in util.scope)
    return f"its table over {over}, {len(util.cells):,} cells" if util.scope else f"its table over nothing: {names.costs} {util.cells[0]}"


def cells_text(names: Names, util: Util) -> str:
    """The cells of a table, a line each, or what lies between where there are many."""
    if not util.scope:
        return ""
    if len(util.cells) > MOST_CELLS:
        return f"  {names.costs} {min(util.cells)} to {max(util.cells)}\n"
    places = product(*(range(len(names.values[name])) for name in util.scope))
    return "".join(f"  {names.costs} at least {cell}{names.where(dict(zip(util.scope, place)))}\n" for place, cell in zip(places, util.cells))


def step_told(names: Names, step: Step, chosen: dict[str, int]) -> Told:
    """A step of DPOP as JSON."""
    own, util = names.own, step.util
    told: Told = {"step": step.number, "kind": step.kind, "from": own[step.sender], "to": None if step.receiver is None else own[step.receiver]}
    if step.kind == "table":
        return told | {"scope": [own[name] for name in util.scope], "cells": util.cells}
    if step.kind == "chosen":
        return told | {"chosen": names.value(util.name, chosen[util.name]), "best": util.cells[0]}
    return told | {"values": names.pairs({name: chosen[name] for name in util.scope}), "chosen": names.value(util.name, chosen[util.name])}


def own_costs(told: Translation) -> str | None:
    """What the costs of a run are in the file's own, where they differ."""
    missed = "The agents count what is missed of the greatest sum." if told.problem.goal == "max" else None
    hard = told.hard_cost * len(told.hard) if told.problem.goal == "max" else 0
    if told.scale == 1 and not told.shift and not hard:
        return missed
    less = f" - {hard}" if hard else ""
    shift = f" + {number(told.shift)}" if told.shift else ""
    counted = f"Sums are those of the programs: in the file's own costs a sum N is (N{less}) / {told.scale}{shift}."
    return f"{counted} {missed}" if missed else counted
