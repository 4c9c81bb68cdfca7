"""The methods of a sweep: how their words are read, and which programs they run."""

from __future__ import annotations

from dataclasses import dataclass, field
from fractions import Fraction

from ..arguments import amount
from ..problem import Trouble

OPTIONS = {
    "plain": (),
    "dpop": ("workers", "certificate"),
    "order": ("tries", "seed", "workers", "certificate"),
    "search": ("error", "budget", "cells"),
    "cut": ("cells", "workers", "certificate"),
    "adopt": ("error", "budget", "workers", "certificate"),
    "auto": ("workers",),
}
"""What each method may be told, as in adopt:error=5:budget=1000."""

PROGRAMS = {"search": ("dcop_search",), "order": ("dcop_order", "dcop")}
"""The programs that a method runs, if it is not `dcop` alone."""

BUDGETS = {
    "search": tuple(10**power for power in range(5, 13)),
    "adopt": tuple(10**power for power in range(3, 8)),
}
"""The growing budgets of a method that is given none: of nodes, and of messages."""


@dataclass(frozen=True)
class Method:
    """A method with its options, and the words that it was named by."""

    words: str
    name: str
    options: dict[str, str] = field(default_factory=dict)

    @property
    def programs(self) -> tuple[str, ...]:
        return PROGRAMS.get(self.name, ("dcop",))

    @property
    def has_log(self) -> bool:
        """Whether its report has the log of a run, of which `dcop_trace` tells the messages, where that is there."""
        return self.name == "adopt" and self.options.get("certificate") == "yes"

    @property
    def budgets(self) -> tuple[int | None, ...]:
        """The budgets that are tried one after another: the one that is named, or growing ones."""
        return (int(self.options["budget"]),) if "budget" in self.options else BUDGETS.get(self.name, (None,))

    @property
    def error(self) -> Fraction:
        return Fraction(self.options.get("error", 0))


def read_method(words: str) -> Method:
    """Reads a method as adopt:error=5:budget=1000."""
    name, *given = words.split(":")
    if name not in OPTIONS:
        raise Trouble(f"there is no method {name or 'without a name'}: --methods takes {', '.join(OPTIONS)}, with commas between them")
    options: dict[str, str] = {}
    for pair in given:
        key, _, value = pair.partition("=")
        if key in options:
            raise Trouble(f"{words}: {key} is given twice")
        if key not in OPTIONS[name]:
            known = ", ".join(f"{it}=.." for it in OPTIONS[name]) or "none"
            raise Trouble(f"{words}: {pair} is not an option of {name}, which has {known}")
        options[key] = checked(words, key, value)
    return Method(words, name, options)


def checked(words: str, key: str, value: str) -> str:
    """The value of an option. Its range is tested by the program that takes it."""
    if key == "error":
        try:
            if amount(value) >= 0:
                return value
        except Exception:
            pass
        raise Trouble(f"{words}: the error must be a number from 0 up, not {value}")
    if key == "certificate" and value in ("yes", "no"):
        return value
    if key != "certificate" and value.isascii() and value.isdigit() and len(value) < 20:
        return value
    raise Trouble(f"{words}: {key} must be {'yes or no' if key == 'certificate' else 'a whole number'}, not `{value}`")


def read_methods(word: str) -> list[Method]:
    """Reads methods with commas between them, each once."""
    methods = [read_method(part.strip()) for part in word.split(",")]
    twice = {method.words for method in methods if [it.words for it in methods].count(method.words) > 1}
    if twice:
        raise Trouble(f"--methods names {', '.join(sorted(twice))} twice")
    return methods
