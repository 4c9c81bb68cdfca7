"""Runs the commands of README.md, the tutorial and the guide, and compares what they print with what is below them.

usage: front/python.sh front/tests/documents.py DCOP DCOP_ORDER [DCOP_SERVE [DCOP_SEARCH [DCOP_TRACE]]]

DCOP, DCOP_ORDER, DCOP_SERVE, DCOP_SEARCH and DCOP_TRACE are the built programs of these names in small letters. A command is a line after `$ ` in a
block of a document. What it has to print is below it, up to the next command or the end of the block. `..` alone means any lines, `..` at the end
of a line any words, and `in 0.1 s` any seconds. A text that is given by `<<'EOF'` goes up to that word.

The commands of a document run one after the other in one folder, in which `examples` and `front` are those of the repository and `sefwllon` is
that of the front. A page of the guide also has the files that the tutorial writes. Commands that need what the machine does not have (Graphviz,
toulbar2, PyYAML, python3-icalendar, or a program) are passed over, which is said. Ends with 1 if an answer differs, and prints both.
"""

from __future__ import annotations

import importlib.util
import os
import re
import shutil
import subprocess
import sys
import tempfile
from dataclasses import dataclass
from pathlib import Path

TOP = Path(__file__).resolve().parents[2]
TUTORIAL = "docs/tutorial.md"
GUIDE = sorted(f"docs/guide/{path.name}" for path in (TOP / "docs" / "guide").glob("*.md"))
DOCUMENTS = ("README.md", TUTORIAL, *GUIDE)
ANY = ".."


@dataclass
class Step:
    """A command of a document, with its line there and what it has to print."""

    place: str
    command: str
    expected: list[str]


def steps(document: str) -> list[Step]:
    """The commands of a document, in order."""
    found: list[Step] = []
    inside = open_step = False
    here: str | None = None
    for number, line in enumerate((TOP / document).read_text().splitlines(), 1):
        if line.startswith("```"):
            inside, open_step = not inside, False
        elif inside and here is not None:
            found[-1].command += "\n" + line
            here = None if line == here else here
        elif inside and line.startswith("$ "):
            found.append(Step(f"{document}:{number}", line[2:], []))
            open_step = True
            mark = re.search(r"<<'(\w+)'", line)
            here = mark[1] if mark else None
        elif open_step:
            found[-1].expected.append(line)
    return found


def written(document: str) -> dict[str, str]:
    """The files that a document writes by `cat > FILE <<'EOF'`."""
    found = (re.fullmatch(r"cat > (\S+) <<'(\w+)'\n(.*\n)\2", step.command, re.DOTALL) for step in steps(document))
    return {mark[1]: mark[3] for mark in found if mark}


def is_as_expected(printed: list[str], expected: list[str]) -> bool:
    """Whether lines are those that are expected, where `..` alone stands for any lines."""
    if not expected:
        return not printed
    if expected[0] == ANY:
        return any(is_as_expected(printed[start:], expected[1:]) for start in range(len(printed) + 1))
    return bool(printed) and is_line(printed[0], expected[0]) and is_as_expected(printed[1:], expected[1:])


def is_line(printed: str, expected: str) -> bool:
    """Whether a line is the expected one, where `..` at its end stands for any words."""
    if expected.endswith(f" {ANY}"):
        return printed.startswith(expected.removesuffix(ANY))
    return untimed(printed) == untimed(expected)


def untimed(line: str) -> str:
    """A line without the seconds that a run took."""
    return re.sub(r" in \d+\.\d s\b", " in so many s", line)


def missing(command: str, path: str) -> str | None:
    """What a command needs and these folders have not."""
    words = command.replace("|", " ").split()
    if words[:3] == ["sefwllon", "draw", "bounds"] or words[:2] == ["sefwllon", "trace"]:
        words.append("dcop_trace")
    for tool in ("dot", "toulbar2", "dcop_serve", "dcop_search", "dcop_trace"):
        if tool in words and shutil.which(tool, path=path) is None:
            return tool
    if any(word.endswith(".yaml") for word in words) and importlib.util.find_spec("yaml") is None:
        return "PyYAML"
    if any(word.endswith(".ics") for word in words) and importlib.util.find_spec("icalendar") is None:
        return "python3-icalendar"
    return None


def run(document: str, programs: dict[str, str]) -> tuple[list[str], list[str]]:
    """Runs a document in a folder of its own. Gives what differs, and what was passed over."""
    differ: list[str] = []
    passed_over: list[str] = []
    with tempfile.TemporaryDirectory() as name:
        folder = Path(name)
        (folder / "bin").mkdir()
        for program, path in programs.items():
            (folder / "bin" / program).symlink_to(Path(path).resolve())
        (folder / "bin" / "sefwllon").symlink_to(TOP / "front" / "sefwllon.sh")
        for part in ("examples", "front"):
            (folder / part).symlink_to(TOP / part)
        for file, text in (written(TUTORIAL) if document in GUIDE else {}).items():
            (folder / file).write_text(text)
        kept = {name: value for name, value in os.environ.items() if not name.startswith("SEFWLLON_")}
        environment = kept | {"PATH": f"{folder / 'bin'}:{os.environ['PATH']}", "PYTHONDONTWRITEBYTECODE": "1"}
        for step in steps(document):
            wanted = missing(step.command, environment["PATH"])
            if wanted is not None:
                passed_over.append(f"{step.place}: no {wanted}: {step.command}")
                continue
            told = subprocess.run(
                ["bash", "-c", step.command], cwd=folder, env=environment, stdin=subprocess.DEVNULL, capture_output=True, text=True
            )
            printed = (told.stdout + told.stderr).splitlines()
            if not is_as_expected(printed, step.expected):
                differ.append("\n".join([f"{step.place}: {step.command}", *(f"| {line}" for line in printed)]))
    return differ, passed_over


def main() -> int:
    if len(sys.argv) not in (3, 4, 5, 6):
        print(__doc__, file=sys.stderr)
        return 2
    programs = dict(zip(("dcop", "dcop_order", "dcop_serve", "dcop_search", "dcop_trace"), sys.argv[1:]))
    count = 0
    for document in DOCUMENTS:
        differ, passed_over = run(document, programs)
        print("\n".join(passed_over + differ), end="\n" if passed_over or differ else "")
        count += len(differ)
    print(f"{sum(len(steps(document)) for document in DOCUMENTS)} commands, {count} differ")
    return 1 if count else 0


if __name__ == "__main__":
    sys.exit(main())
