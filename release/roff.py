"""Pages of the manual, as man reads them."""

from __future__ import annotations

import re

from sefwllon.markdown import Block, Code, Heading, Item, Paragraph
from sefwllon.pages import Page, content


def manual(page: Page, text: str, version: str) -> str:
    """A page that is made from the text of docs/formats."""
    about = "File Formats" if page.section == 5 else "User Commands"
    told = [f'.TH "{page.name.upper()}" "{page.section}" "" "Sefwllon {version}" "{about}"']
    for block in content(page, text):
        told += lines(block)
    return "\n".join(told) + "\n"


def lines(block: Block) -> list[str]:
    """The lines of a block."""
    if isinstance(block, Heading):
        return [f".{'SH' if block.level == 1 else 'SS'} {inline(block.text)}"]
    if isinstance(block, Paragraph):
        return [".PP", inline(block.text)]
    if isinstance(block, Item):
        return [f".IP {block.number} 4" if block.number else ".IP \\(bu 3", inline(block.text)]
    if isinstance(block, Code):
        return [".PP", ".RS 4", ".nf", *(safe(plain(line)) for line in block.lines), ".fi", ".RE"]
    told = []
    for row in block.rows:
        told += [".TP", inline(block.label(row)) if row[0] else "\\&", inline(block.told(row)) or "\\&"]
    return told


def inline(text: str) -> str:
    """A text with what stands between backticks, or between two pairs of stars, in bold."""
    told = []
    for number, part in enumerate(re.split(r"`([^`]*)`", text)):
        if number % 2:
            told.append(f"\\fB{plain(part)}\\fR")
        else:
            told.append(re.sub(r"\*\*(.+?)\*\*", r"\\fB\1\\fR", plain(part)))
    return safe("".join(told))


def plain(text: str) -> str:
    """A text whose signs mean themselves."""
    for sign, told in (("\\", "\\e"), ("-", "\\-"), ("'", "\\(aq"), ("^", "\\(ha"), ("~", "\\(ti"), ("`", "\\(ga")):
        text = text.replace(sign, told)
    return "".join(it if it.isascii() else f"\\[u{ord(it):04X}]" for it in text)


def safe(line: str) -> str:
    """A line that is no request, whatever it begins with."""
    return f"\\&{line}" if line.startswith((".", "'")) else line
