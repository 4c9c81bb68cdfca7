"""The words of the command line: what a command adds them to, and how numbers, amounts and times are read."""

from __future__ import annotations

import argparse
import re
from fractions import Fraction
from typing import TypeAlias

Commands: TypeAlias = "argparse._SubParsersAction[argparse.ArgumentParser]"
"""What a command adds its words to."""


def natural(word: str) -> int:
    if not re.fullmatch(r"[0-9]{1,9}", word):
        raise argparse.ArgumentTypeError(f"{word} is not a whole number from 0 up")
    return int(word)


def threads(word: str) -> int:
    if natural(word) not in range(1, 65):
        raise argparse.ArgumentTypeError(f"the number of threads must be from 1 to 64, not {word}")
    return int(word)


def distance(word: str) -> Fraction:
    if amount(word) < 0:
        raise argparse.ArgumentTypeError(f"the amount must be 0 or more, not {word}")
    return amount(word)


def amount(word: str) -> Fraction:
    if not re.fullmatch(r"-?\d+(\.\d+)?", word):
        raise argparse.ArgumentTypeError(f"{word} is not a number")
    return Fraction(word)


def cells(word: str) -> int:
    if natural(word) not in range(1_024, 2**28 + 1):
        raise argparse.ArgumentTypeError(f"the number of cells must be from 1024 to 268435456, not {word}")
    return int(word)


def share(word: str) -> Fraction:
    """A part in a hundred, as 2%."""
    if not re.fullmatch(r"\d{1,6}(\.\d{1,6})?\s*%", word):
        raise argparse.ArgumentTypeError(f"{word} is not a gap such as 2% or 0.5%; use --error for an amount by which the cost may miss the best")
    return Fraction(word.rstrip("% ")) / 100


def seconds(word: str) -> float:
    match = re.fullmatch(r"(\d+(?:\.\d+)?)(ms|s|m|h)?", word)
    if not match:
        raise argparse.ArgumentTypeError(f"{word} is not a time such as 30s, 500ms or 2m")
    return float(match[1]) * {"ms": 0.001, "m": 60, "h": 3600}.get(match[2], 1)


def add_time(command: argparse.ArgumentParser) -> None:
    command.add_argument("--time", type=seconds, metavar="30s", help="stop after this time, from the start of the command, with the best so far")


def add_busy(command: argparse.ArgumentParser) -> None:
    command.add_argument(
        "--busy",
        action="append",
        metavar="PERSON=ICS",
        help="a person is busy, or a room is taken, at the times in this calendar; give it once for each person or room",
    )


def add_solving(command: argparse.ArgumentParser) -> None:
    """The words of a command that solves."""
    add_time(command)
    command.add_argument("--gap", type=share, metavar="2%", help="stop when the answer is known to miss the best by at most this part of its cost")
    command.add_argument("--workers", type=threads, default=1, metavar="N", help="threads of dcop, 1 to 64")
    command.add_argument("--json", action="store_true", help="the answer as JSON")
    command.add_argument("--report", metavar="OUT", help="keep the answer in this file, with its certificate if it has one: check and cost read it")
