"""Makes the pages of docs/reference and what pages quote, and sets the lines to which links of pages lead.

    front/python.sh -m release.reference            writes them
    front/python.sh -m release.reference --check    says whether they are fresh

Definitions and public calls come from `release/layer_pages.py`, crates and their times from `release/crates_page.py`, wrong bodies from
`release/wrong_page.py`, measurements from `release/benchmarks.py`, what pages quote from `release/quotes.py`, the words that they explain from
`release/words.py`. All pages of docs/reference are made; another one there is an error.
"""

from __future__ import annotations

import argparse
import re
import sys
from pathlib import Path

from . import benchmarks, crates_page, layer_pages, quotes, wrong_page
from .markdown import PAGES
from .programs import TOP
from .sources import Sources

LINKING = [TOP / "README.md", TOP / "CONTRIBUTING.md", *sorted(it for it in (TOP / "docs").rglob("*.md") if PAGES not in it.parents)]
"""The pages that link to lines of the sources."""
LINK = re.compile(r"\[`(\w+)`\]\(([^)#]+)#L\d+\)")


def main(words: list[str] | None = None) -> int:
    told = argparse.ArgumentParser(prog="release.reference", description="Makes the pages of docs/reference that come from the sources.")
    told.add_argument("--check", action="store_true", help="write nothing, and say whether the pages are fresh")
    check = told.parse_args(words).check
    made = pages()
    stale = [path for path, text in made.items() if not path.is_file() or path.read_text() != text]
    for path in stale:
        if check:
            print(f"{path.relative_to(TOP)} is not what the sources say: run front/python.sh -m release.reference", file=sys.stderr)
        else:
            path.parent.mkdir(parents=True, exist_ok=True)
            path.write_text(made[path])
    others = sorted(set(PAGES.rglob("*.md")) - made.keys())
    for path in others:
        print(f"{path.relative_to(TOP)} is a page that nothing makes: remove it", file=sys.stderr)
    return 1 if others or check and stale else 0


def pages() -> dict[Path, str]:
    """The text of each page, and of the navigation of the site."""
    made = layer_pages.pages(Sources())
    made |= {crates_page.PAGE: crates_page.page(), wrong_page.PAGE: wrong_page.page(), benchmarks.PAGE: benchmarks.page()}
    return made | {page: quotes.page(relinked(page)) for page in LINKING}


def relinked(page: Path) -> str:
    """A page whose links to lines lead to where their file declares what they name; a link that finds nothing stays."""

    def leading(link: re.Match[str]) -> str:
        name, path = link[1], link[2]
        declared = re.compile(rf"(?:\b(?:record|data|fn|trait|struct|enum|type|ensures)|abbrev pub) {name}\b")
        lines = (page.parent / path).read_text().splitlines()
        places = [number for number, line in enumerate(lines, 1) if declared.search(line)]
        return f"[`{name}`]({path}#L{places[0]})" if places else link[0]

    return LINK.sub(leading, page.read_text())


if __name__ == "__main__":
    sys.exit(main())
