"""Libraries that only these commands need: each is imported when it is used, and a sentence says which one is missing."""

from __future__ import annotations

from importlib import import_module
from types import ModuleType

from ..problem import Trouble

PACKAGES = {"networkx": "python3-networkx", "matplotlib": "python3-matplotlib", "distributed": "python3-distributed"}
"""Debian's package of each library."""


def needed(name: str, what: str) -> ModuleType:
    """A library, or a sentence that names the package to install for what it is needed for."""
    try:
        return import_module(name)
    except ImportError:
        package = PACKAGES[name.partition(".")[0]]
        raise Trouble(f"{what} needs the library {name}: install Debian's package {package}, or run `pip install 'sefwllon[lab]'`") from None
