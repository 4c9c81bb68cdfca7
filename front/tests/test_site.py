"""Tests of the site of the documents, which `docs/site` builds by mkdocs; passed over where mkdocs or its theme is not there."""

from __future__ import annotations

import json
import re
import shutil
import subprocess
import tempfile
import unittest
from collections.abc import Iterator
from html.parser import HTMLParser
from pathlib import Path

from .case import FRONT

TOP = FRONT.parent
THEME = Path("/usr/share/mkdocs/themes/material")
HAS_MKDOCS = shutil.which("mkdocs") is not None and THEME.is_dir()
PAGES = [*TOP.glob("*.md"), *TOP.glob("docs/**/*.md"), TOP / "front" / "README.md"]
"""All pages of the repository for readers."""


def made(page: Path) -> str:
    """The page of the site that is made from a page."""
    inside = page.relative_to(TOP)
    return inside.with_name("index.html" if page.name == "README.md" else f"{page.stem}.html").as_posix()


class Page(HTMLParser):
    """What a page of the site has: the places in it, and what it links to or loads."""

    def __init__(self, text: str) -> None:
        super().__init__()
        self.places: set[str] = set()
        self.links: list[str] = []
        self.loaded: list[str] = []
        self.feed(text)

    def handle_starttag(self, tag: str, attrs: list[tuple[str, str | None]]) -> None:
        named = {name: value or "" for name, value in attrs}
        self.places |= {named[name] for name in ("id", "name") if name in named}
        if tag == "a" and "href" in named:
            self.links.append(named["href"])
        elif tag in ("script", "img", "iframe") and "src" in named:
            self.loaded.append(named["src"])
        elif tag == "link" and named.get("rel") in ("stylesheet", "preload", "preconnect", "icon", "shortcut icon"):
            self.loaded.append(named.get("href", ""))


def outside(link: str) -> bool:
    return re.match(r"([a-z]+:)?//|[a-z]+:", link) is not None


@unittest.skipUnless(HAS_MKDOCS, "passed over: no mkdocs with mkdocs-material")
class Site(unittest.TestCase):
    @classmethod
    def setUpClass(cls) -> None:
        folder = tempfile.TemporaryDirectory()
        cls.addClassCleanup(folder.cleanup)
        cls.folder = Path(folder.name).resolve() / "site"
        cls.told = subprocess.run([str(TOP / "docs" / "site"), "--to", str(cls.folder)], capture_output=True, text=True)
        cls.pages = {path: Page(path.read_text()) for path in sorted(cls.folder.glob("**/*.html"))}

    def test_it_is_built_strictly(self):
        self.assertEqual((self.told.returncode, self.told.stderr, self.told.stdout), (0, "", f"{self.folder}/index.html\n"))

    def test_each_page_is_there_and_in_the_navigation(self):
        first = self.pages[self.folder / "index.html"]
        for page in PAGES:
            self.assertIn(self.folder / made(page), self.pages)
            self.assertTrue(page == TOP / "README.md" or made(page) in first.links, page)

    def test_nothing_is_loaded_from_elsewhere(self):
        for path, page in self.pages.items():
            self.assertEqual([it for it in page.loaded if outside(it)], [], path)
        for style in self.folder.glob("**/*.css"):
            self.assertEqual(re.findall(r"(?:@import|url\()\s*[\"']?(?:https?:)?//", style.read_text()), [], style)

    def test_each_link_leads_to_its_place(self):
        for path, link in self.inner_links():
            file, _, place = link.partition("#")
            target = (path.parent / file).resolve() if file else path
            self.assertTrue(target.exists(), f"{path.relative_to(self.folder)}: {link}")
            if place and target in self.pages:
                self.assertIn(place, self.pages[target].places, f"{path.relative_to(self.folder)}: {link}")

    def inner_links(self) -> Iterator[tuple[Path, str]]:
        """The links within the site, each with its page. The page of what is not found knows no place."""
        for path, page in self.pages.items():
            if path.name != "404.html":
                yield from ((path, link) for link in page.links if link and not outside(link))

    def test_all_pages_are_searched(self):
        found = json.loads((self.folder / "search" / "search_index.json").read_text())["docs"]
        places = {entry["location"].partition("#")[0] for entry in found}
        for page in PAGES:
            self.assertIn(made(page), places)


class NoSite(unittest.TestCase):
    def test_what_is_missing_is_named(self):
        with tempfile.TemporaryDirectory() as folder:
            for tool in ("dirname", "readlink"):
                (Path(folder) / tool).symlink_to(shutil.which(tool) or tool)
            told = subprocess.run([str(TOP / "docs" / "site")], env={"PATH": folder}, capture_output=True, text=True)
        self.assertEqual((told.returncode, told.stderr), (1, "docs/site: it needs mkdocs with its theme: install Debian's mkdocs and mkdocs-material\n"))


if __name__ == "__main__":
    unittest.main()
