"""sefwllon: one command around the proved program `dcop`.

What is told as verified was given to `dcop check` first; nothing else in this package is proved. From Python it is a library
(docs/guide/python.md): `Problem`, `solve`, `check`, `order`, `tree`, `replay`, and `Client` for the service.
"""

import time
from importlib import import_module
from pathlib import Path
from typing import TYPE_CHECKING

__all__ = [
    "FORBIDDEN", "Answer", "Client", "Cost", "Costs", "Forbidden", "Goal", "Known", "Method", "Moment", "Node", "Number", "Order",
    "Problem", "Programs", "Status", "Trouble", "Verdict", "check", "order", "replay", "solve", "tree",
]  # fmt: skip

BEGAN = time.monotonic()
"""When the command began, as far as it knows."""


def _version() -> str:
    """What the file `VERSION` says: the one that an installer put beside this file, or that of the clone."""
    here = Path(__file__).resolve().parent
    for folder in (here, here.parents[1]):
        if (folder / "VERSION").is_file():
            return (folder / "VERSION").read_text().strip()
    return "unknown"


__version__ = _version()


if TYPE_CHECKING:
    from .client import Client
    from .library import (
        FORBIDDEN, Answer, Cost, Costs, Forbidden, Goal, Known, Method, Moment, Node, Number, Order, Problem, Programs, Status, Trouble,
        Verdict, check, order, replay, solve, tree,
    )  # fmt: skip
else:

    def __getattr__(name: str) -> object:
        """What is imported once it is asked for: the command needs it not."""
        if name not in __all__:
            raise AttributeError(f"module {__name__!r} has no attribute {name!r}")
        module = import_module(".client" if name == "Client" else ".library", __name__)
        return getattr(module, name)
