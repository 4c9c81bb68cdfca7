"""The manual pages of the proved programs: which parts of docs/formats stand on which page, and what stands above them."""

from __future__ import annotations

import re
from collections.abc import Iterator
from dataclasses import dataclass
from pathlib import Path

from .markdown import Block, Code, Heading, Paragraph, Table, blocks
from .problem import Trouble

FORMATS = (
    "problem-text", "wcsp-text", "command-words", "dcop_order", "dcop_search", "dcop_trace", "report", "reading-a-report",
    "checking", "answers", "drill", "edit-session", "refusals", "dcop_serve", "message-bytes",
)  # fmt: skip
"""The pages of docs/formats from which the manual is made, in its order."""

LINK = re.compile(r"\[([^]]+)\]\([^)]+\)")
"""A link of such a page, which names the title to which it leads."""

NO_HELP = "`{name}` has no help of its own: {refused}, with exit status 2. `sefwllon {name} --help` prints this page."
"""What each page of a program begins with."""


@dataclass(frozen=True)
class Page:
    """A page of the manual."""

    name: str
    section: int
    does: str
    """What the program does, in a line without a point."""
    usage: tuple[str, ...]
    refused: str
    """What it prints for no words and for `--help`, with `{kind N}` for what docs/formats says of that kind."""
    parts: tuple[str, ...]
    """The titles of docs/formats that stand here, each with what stands below it, but for what another page has."""
    others: tuple[str, ...]
    """What the page points to."""

    def has(self, title: str) -> bool:
        """Whether a title of docs/formats belongs here."""
        return title in self.parts or (self.section == 1 and title.endswith(f" `{self.name}`"))


_NO_OPTION = "for `--help` it prints `refused words at 1 kind 3` ({kind 3})"

PAGES = (
    Page(
        "dcop", 1, "solve a problem of distributed constraint optimisation, and check an answer",
        ("dcop COMMAND [OPTION VALUE] .. < FILE", "cat FILE REPORT | dcop check", "cat FILE REPORT | dcop replay"),
        "without words it prints `refused words at 1 kind 1` ({kind 1}), and for `--help` `refused words at 1 kind 2` ({kind 2})",
        ("Command words", "Checking a certificate", "Answers", "Drill", "Edit session", "Refusals"), ("dcop(5)", "dcop_order(1)", "dcop_search(1)", "dcop_serve(1)", "dcop_trace(1)", "sefwllon(1)"),
    ),
    Page(
        "dcop_order", 1, "write a problem with its variables in a narrower order",
        ("dcop_order [OPTION VALUE] .. < FILE",), _NO_OPTION, (), ("dcop(1)", "dcop(5)", "sefwllon(1)"),
    ),
    Page(
        "dcop_search", 1, "solve a problem that is too wide for DPOP, or bound its best sum",
        ("dcop_search [OPTION VALUE] .. < FILE",), _NO_OPTION, (), ("dcop(1)", "dcop(5)", "sefwllon(1)"),
    ),
    Page(
        "dcop_trace", 1, "print what the agents of a run of ADOPT took, sent and came to",
        ("cat FILE REPORT | dcop_trace [OPTION VALUE] ..",), _NO_OPTION, (), ("dcop(1)", "dcop(5)", "sefwllon(1)"),
    ),
    Page(
        "dcop_serve", 1, "answer problems over sockets of 127.0.0.1",
        ("dcop_serve PORT CLIENTS ENTRIES WORKERS",),
        "without words it prints `refused words at 1 kind 4`, and for `--help` `refused words at 2 kind 4`, since it takes four words",
        ("Frames",), ("dcop(1)", "dcop(5)", "sefwllon(1)"),
    ),
    Page(
        "dcop", 5, "what the programs dcop, dcop_order, dcop_search, dcop_serve and dcop_trace read",
        ("FILE.dcop", "FILE.wcsp"), "",
        ("Problem text", "WCSP text", "Report", "Reading a report"), ("dcop(1)", "sefwllon(1)"),
    ),
)  # fmt: skip
"""The pages that are made from docs/formats."""


def formats() -> str:
    """The text of docs/formats, one page after the other, with titles in quotes in place of links.

    The pages are those that an installer put beside this file, or those of the clone.
    """
    here = Path(__file__).resolve().parent
    for folder in (here / "formats", here.parents[1] / "docs" / "formats"):
        if folder.is_dir():
            return LINK.sub(r'"\1"', "\n".join((folder / f"{name}.md").read_text() for name in FORMATS))
    raise Trouble(f"the page is made from {here.parents[1] / 'docs' / 'formats'}, which is missing: install Sefwllon again")


def content(page: Page, text: str) -> list[Block]:
    """What stands on a page, from the text of docs/formats: a title and the blocks below it, one after the other."""
    told: list[Block] = [Heading(1, "NAME"), Paragraph(f"{page.name} - {page.does}"), Heading(1, "SYNOPSIS")]
    told += [Code(page.usage), Heading(1, "DESCRIPTION")]
    if page.refused:
        told.append(Paragraph(first(page, text)))
    told += list(parts(page, text))
    told += [Heading(1, "SEE ALSO"), Paragraph(f"{', '.join(page.others)}. Titles in quotes that are not on this page are on one of those.")]
    return told


def first(page: Page, text: str) -> str:
    """What a page begins with: what the program prints for no words and for `--help`."""
    refused = page.refused
    for number, (name, fault) in kinds_of_words(text).items():
        refused = refused.replace(f"{{kind {number}}}", f"{name}: {fault}")
    return NO_HELP.format(name=page.name, refused=refused)


def kinds_of_words(text: str) -> dict[str, tuple[str, str]]:
    """The kinds of refused words, by their numbers: a name and the fault."""
    for heading, below in cut(blocks(text)):
        if heading.text == "Refused words":
            rows = next(block for block in below if isinstance(block, Table)).rows
            return {row[0]: (row[1], row[2]) for row in rows}
    return {}


def parts(page: Page, text: str) -> Iterator[Block]:
    """The parts of docs/formats that belong to a page, with the titles that stand above them."""
    depth: int | None = None
    for heading, below in cut(blocks(text)):
        if depth is not None and heading.level <= depth:
            depth = None
        if depth is None and page.has(heading.text):
            depth = heading.level
        others = (other for other in PAGES if other is not page)
        if depth is not None and (page.has(heading.text) or not any(other.has(heading.text) for other in others)):
            yield Heading(1 if heading.level == depth else 2, heading.text)
            yield from below


def cut(found: list[Block]) -> Iterator[tuple[Heading, list[Block]]]:
    """Each title with the blocks behind it, up to the next one."""
    heading, below = Heading(0, ""), list[Block]()
    for block in found:
        if isinstance(block, Heading):
            yield heading, below
            heading, below = block, []
        else:
            below.append(block)
    yield heading, below
