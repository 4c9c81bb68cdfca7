"""Builds a site of all documents by mkdocs, without a network.

The pages are copied to a folder in the layout of the repository, so that links between them lead there as here. A file of the
repository that a page links to, and that is no page or picture, becomes a page of numbered lines, so `#L13` leads to its line.
"""

from __future__ import annotations

import argparse
import html
import os
import re
import shutil
import subprocess
import sys
import tempfile
from pathlib import Path
from urllib.parse import quote

from .programs import TOP, Trouble

CONFIGURATION = TOP / "mkdocs.yml"
THEME = Path("/usr/share/mkdocs/themes/material")
LINK = re.compile(r"(\]\()([^()\s]+)(\))")
STYLE = TOP / "docs" / "site.css"
AS_THEY_ARE = (".png", ".svg", ".css")
"""The files that are copied and not shown by lines."""
LINES = """<!doctype html>
<html lang="en"><head><meta charset="utf-8"><title>{name}</title><style>
body {{ margin: 1rem; font-family: sans-serif; }} pre {{ line-height: 1.4; }}
pre a {{ display: inline-block; width: 4rem; color: #888; text-decoration: none; user-select: none; }}
span:target {{ background: #ffec99; }}
</style></head><body><h1>{name}</h1><pre>
{lines}</pre></body></html>
"""


def main(words: list[str] | None = None) -> int:
    told = argparse.ArgumentParser(prog="docs/site", description="Builds a site of all documents, without a network. Its search works if it is served: python3 -m http.server -d site/html")
    told.add_argument("--to", type=Path, default=TOP / "site" / "html", help="the folder of the site, else site/html of the repository")
    to = told.parse_args(words).to
    try:
        build(to)
    except Trouble as trouble:
        print(f"docs/site: {trouble}", file=sys.stderr)
        return 1
    print(to / "index.html")
    return 0


def build(to: Path) -> None:
    """Builds the site in a folder; each link has to lead somewhere."""
    program = shutil.which("mkdocs")
    if program is None or not THEME.is_dir():
        raise Trouble("it needs mkdocs with its theme: install Debian's mkdocs and mkdocs-material")
    with tempfile.TemporaryDirectory() as folder:
        copied(Path(folder))
        environment = dict(os.environ, SEFWLLON_PAGES=folder, PYTHONDONTWRITEBYTECODE="1")
        environment.pop("PYTHONPATH", None)
        command = [program, "build", "--strict", "--quiet", "--config-file", str(CONFIGURATION), "--site-dir", str(to.resolve())]
        if subprocess.run(command, env=environment).returncode:
            raise Trouble("mkdocs refuses the pages")


def pages() -> list[Path]:
    """The pages of the site."""
    apart = [TOP / "README.md", TOP / "CONTRIBUTING.md", TOP / "CHANGELOG.md", TOP / "front" / "README.md"]
    return [*apart, *sorted((TOP / "docs").rglob("*.md"))]


def copied(to: Path) -> None:
    """Copies the pages to a folder, with all that they link to."""
    own = set(pages())
    others = {STYLE}
    for page in own:
        place = to / page.relative_to(TOP)
        place.parent.mkdir(parents=True, exist_ok=True)
        text, found = relinked(page, own)
        place.write_text(text)
        others |= found
    for other in others:
        place = to / placed(other)
        place.parent.mkdir(parents=True, exist_ok=True)
        if other.suffix in AS_THEY_ARE:
            shutil.copy(other, place)
        else:
            place.write_text(numbered(other))


def relinked(page: Path, own: set[Path]) -> tuple[str, set[Path]]:
    """A page whose links lead to the pages of the site, and the other files that it links to."""
    found: set[Path] = set()

    def leading(link: re.Match[str]) -> str:
        path, mark, behind = link[2].partition("#")
        if not path or re.match(r"[a-z]+:", path):
            return link[0]
        target = Path(os.path.normpath(page.parent / path))
        if target in own or not target.is_file():
            return link[0]
        found.add(target)
        there = os.path.relpath(placed(target), page.parent.relative_to(TOP))
        return f"{link[1]}{quote(there)}{mark}{behind}{link[3]}"

    parts = re.split(r"(^```.*?^```$)", page.read_text(), flags=re.MULTILINE | re.DOTALL)
    return "".join(part if part.startswith("```") else LINK.sub(leading, part) for part in parts), found


def placed(file: Path) -> Path:
    """Where a file that is no page is in the site."""
    inside = file.relative_to(TOP)
    return inside if file.suffix in AS_THEY_ARE else inside.with_name(f"{inside.name}.html")


def numbered(file: Path) -> str:
    """A page with the lines of a file, each with its number."""
    lines = file.read_text(errors="replace").splitlines()
    told = "\n".join(f'<span id="L{at}"><a href="#L{at}">{at}</a>{html.escape(line)}</span>' for at, line in enumerate(lines, 1))
    return LINES.format(name=html.escape(file.relative_to(TOP).as_posix()), lines=told)


if __name__ == "__main__":
    sys.exit(main())
