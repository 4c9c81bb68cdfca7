"""The pages of docs/reference that are made from the sources are what the sources say."""

from __future__ import annotations

import re
import subprocess
import sys
import tomllib
import unittest
from functools import cache
from pathlib import Path

from .case import FRONT

TOP = FRONT.parent
PAGES = [TOP / "README.md", TOP / "CONTRIBUTING.md", FRONT / "README.md", *TOP.glob("docs/**/*.md")]
REFERENCE = TOP / "docs" / "reference"
LINK = re.compile(r"(?:\]\(|^\[\w+\]: )(?!https?:)([^)#\s]*)(?:#([^)\s]*))?", re.MULTILINE)
"""The path and the place of a link within the repository, whether it is written out or at the end of its page."""


@cache
def anchors(page: Path) -> set[str]:
    """What a link may name after `#` in a page: its headings in small letters, with `-` for blanks and without other signs."""
    headings = re.findall(r"^#+ (.*)$", re.sub(r"^```.*?^```", "", page.read_text(), flags=re.MULTILINE | re.DOTALL), re.MULTILINE)
    return {re.sub(r"[^\w -]", "", heading.lower()).strip().replace(" ", "-") for heading in headings}


@cache
def lines(file: Path) -> list[str]:
    return file.read_text().splitlines()


def layer(page: str) -> str:
    """The layer of the crate that a page is about, as docs/data/words.toml names it."""
    return re.sub(r"^the (program )?| of .*", "", page.partition('A crate of the layer "')[2].partition('"')[0].lower()).replace(" ", "-")


class Reference(unittest.TestCase):
    def test_the_made_pages_are_fresh(self):
        environment = {"PYTHONPATH": f"{TOP}:{FRONT}", "PYTHONDONTWRITEBYTECODE": "1"}
        command = [sys.executable, "-P", "-m", "release.reference", "--check"]
        told = subprocess.run(command, cwd=TOP, env=environment, capture_output=True, text=True)
        self.assertEqual((told.returncode, told.stderr), (0, ""))

    def test_each_measurement_says_whether_its_goal_is_met_and_what_bounds_what_is_missed(self):
        parts = tomllib.loads((TOP / "docs" / "data" / "benchmarks.toml").read_text())["part"]
        for row in (row for part in parts for row in part["row"]):
            with self.subTest(f"{row['script']}: {row['what']}"):
                self.assertEqual("goal" in row, "met" in row)
                self.assertTrue(row.get("met", True) or row.get("bound"))
                self.assertTrue(not row["script"].endswith(".sh") or (TOP / "bench" / row["script"]).is_file())
                self.assertLessEqual(max(len(cell.split()) for cell in row.values() if isinstance(cell, str)), 25)

    def test_a_link_to_a_line_leads_to_what_it_names(self):
        links = [(page, *it) for page in PAGES for it in re.findall(r"\[`(\w+)`\]\(([^)#]+)#L(\d+)\)", page.read_text())]
        self.assertTrue(links)
        for page, name, path, line in links:
            self.assertIn(name, lines(page.parent / path)[int(line) - 1], f"{page.name}: {name}")

    def test_a_link_leads_somewhere(self):
        for page in PAGES:
            for path in {path for path, _ in LINK.findall(page.read_text())}:
                self.assertTrue((page.parent / path).exists(), f"{page.name}: {path}")

    def test_a_link_to_a_heading_finds_it(self):
        for page in PAGES:
            for path, anchor in LINK.findall(page.read_text()):
                if anchor and not re.match(r"L\d", anchor):
                    with self.subTest(f"{page.name}: {path}#{anchor}"):
                        self.assertIn(anchor, anchors(page.parent / path if path else page))

    def test_a_row_of_definitions_or_calls_leads_to_the_line_of_its_name(self):
        for page in (*REFERENCE.glob("definitions/*.md"), *REFERENCE.glob("calls/*.md")):
            rows = re.findall(r"^\| `(?:\w+::)?([^`]+)` \| .* \| \[([^]:]+):(\d+)\]\(([^)#]+)#L(\d+)\) \|$", page.read_text(), re.MULTILINE)
            self.assertEqual(len(rows), len(re.findall(r"^\| `", page.read_text(), re.MULTILINE)))
            for name, file, told, path, line in rows:
                self.assertEqual((file, told), (Path(path).name, line))
                self.assertIn(name, lines(page.parent / path)[int(line) - 1], f"{page.name}: {name}")

    def test_the_pages_of_definitions_and_calls_lead_to_the_page_of_each_crate(self):
        for kind in ("definitions", "calls"):
            index, pages = (REFERENCE / f"{kind}.md").read_text(), sorted(REFERENCE.glob(f"{kind}/*.md"))
            self.assertTrue(pages)
            self.assertEqual(sorted(re.findall(rf"\[(\w+)\]\(({kind}/[^)#]+)\)", index)), sorted((page.stem, f"{kind}/{page.name}") for page in pages))
            for page in pages:
                self.assertIn(f"](../{kind}.md)", page.read_text())

    def test_what_a_clause_cites_leads_to_its_definition(self):
        defined = {page.stem: page.read_text() for page in REFERENCE.glob("definitions/*.md")}
        for page in REFERENCE.glob("calls/*.md"):
            text = page.read_text()
            cited = set(re.findall(r"\[`([^`]+)`\]\[(\w+)\]", text))
            self.assertEqual({crate for _, crate in cited}, set(re.findall(r"^\[(\w+)\]: \.\./definitions/\1\.md$", text, re.MULTILINE)))
            for name, crate in cited:
                self.assertIn(f"`{name}`", defined[crate].partition("Cited by no clause")[0], f"{page.name}: {name}")

    def test_each_word_is_listed_on_a_page_of_each_of_its_layers(self):
        """And no page lists a word twice."""
        listed: dict[str, set[str]] = {}
        for page in REFERENCE.glob("*/*.md"):
            text = page.read_text()
            table = text.partition("| Word | Means |\n|---|---|\n")[2].partition("\n\n")[0]
            told = re.findall(r"^\| ([^|]+) \|", table, re.MULTILINE)
            self.assertEqual(len(set(told)), len(told))
            listed.setdefault(layer(text), set()).update(told)
        for row in tomllib.loads((TOP / "docs" / "data" / "words.toml").read_text())["word"]:
            for used in row.get("layers", ["*"]):
                with self.subTest(f"{row['word']}: {used}"):
                    self.assertIn(row["word"], set.union(*listed.values()) if used == "*" else listed[used])


if __name__ == "__main__":
    unittest.main()
