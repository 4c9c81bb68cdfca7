"""How far a solver is, on a terminal."""

from __future__ import annotations

import shutil
import sys
import time
from contextlib import suppress
from fractions import Fraction

from .best import Best
from .telling import hundredths, share
from .translate import Translation


class Progress:
    """What is said on a terminal's standard error: the method, the time, the nodes or messages, the cost, the gap. Elsewhere nothing
    is said."""

    def __init__(self, told: Translation, began: float | None = None, quiet: bool = False):
        self.told = told
        self.began = time.monotonic() if began is None else began
        self.what = ""
        self.best: Best | None = None
        self.on = not quiet and sys.stderr is not None and sys.stderr.isatty()
        self.tick = self.show if self.on else None

    def __enter__(self) -> Progress:
        return self

    def __exit__(self, *_: object) -> None:
        self.end()

    def tell(self, what: str, best: Best) -> None:
        """Says what is done now, and what is known."""
        self.what, self.best = what, best
        self.show()

    def replayed(self, count: int) -> None:
        self.what = f"replayed {count} times"
        self.show()

    def show(self) -> None:
        if self.on:
            line = f"{self.what}: {time.monotonic() - self.began:.1f} s{'' if self.best is None else known(self.best, self.told)}"
            self.write("\r\x1b[K" + line[: shutil.get_terminal_size().columns - 1])

    def end(self) -> None:
        if self.on:
            self.write("\r\x1b[K")

    def write(self, text: str) -> None:
        with suppress(OSError):
            print(text, end="", file=sys.stderr, flush=True)


def known(best: Best, told: Translation) -> str:
    """The nodes and messages of the runs that have ended, the cost and the gap."""
    counts = ((best.nodes, "nodes"), (best.messages, "messages"))
    parts = [f", {count:,} {what}" for count, what in counts if count]
    gap = best.gap(told.problem.goal)
    if best.values is None or best.cost is None or gap is None:
        return "".join(parts)
    broken, own = told.broken(best.values), told.own_sum(best.values)
    if broken:
        return "".join([*parts, f", {len(broken)} broken"])
    near = f" ({hundredths(share(gap, own, told))})" if own else ""
    return "".join([*parts, f", cost {plainly(own)}, gap {plainly(Fraction(gap, told.scale))}{near}"])


def plainly(cost: Fraction) -> str:
    return str(float(cost)).removesuffix(".0")
