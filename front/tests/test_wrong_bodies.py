"""Tests of the wrong bodies: each is still an edit of its crate, whether the gate tries it or `wrong/try`."""

from __future__ import annotations

import os
import re
import signal
import subprocess
import tempfile
import tomllib
import unittest
from pathlib import Path

from .case import FRONT

TOP = FRONT.parent
MOST = 30
"""How many crates keep wrong bodies for the gate at most, since it proves each of these once more."""

STAND_IN = """#!/bin/sh
for edit in crates/*/must-fail/*.edit; do
    crate=${edit#crates/} && crate=${crate%%/*}
    echo "rt: must-fail $crate/${edit##*/}: $SAYS"
done
"""
"""A stand-in for the kit's `rt ci`, which says the same of each edit."""


def tried_by_the_gate() -> list[Path]:
    return sorted(TOP.glob("crates/*/must-fail/*"))


def set_apart() -> list[Path]:
    return sorted(TOP.glob("wrong/*/*"))


def crate_of(edit: Path) -> Path:
    """The folder of the crate that an edit changes."""
    return TOP / "crates" / edit.relative_to(TOP).parts[1]


def fault(edit: Path) -> str | None:
    """What keeps an edit from being applied to its crate, if anything does, by the rules of `rt`."""
    path, old, texts, first = "", "", dict[str, str](), dict[str, str]()
    for number, line in enumerate(edit.read_text().splitlines(), 1):
        word, _, text = line.partition(": ")
        if word == "file" and re.match(r"(src|specs|proofs)/", text) and (crate_of(edit) / text).is_file():
            path = text
            texts.setdefault(path, (crate_of(edit) / path).read_text())
            first.setdefault(path, texts[path])
        elif word == "old" and path and not old and (found := texts[path].count(text)) == 1:
            old = text
        elif word == "old" and path and not old:
            return f"line {number}: this text stands {found} times in {path}"
        elif word == "new" and old:
            texts[path], old = texts[path].replace(old, text), ""
        else:
            return f"line {number}: it names no file of the crate, or is no old text in a file, or no new one behind it"
    return "an old text has no new one behind it" if old else "nothing is changed" if texts == first else None


class WrongBodies(unittest.TestCase):
    def test_each_is_an_edit_of_its_crate(self):
        self.assertTrue(tried_by_the_gate() and set_apart())
        for edit in [*tried_by_the_gate(), *set_apart()]:
            with self.subTest(str(edit.relative_to(TOP))):
                self.assertRegex(edit.name, r"\A[a-z0-9_]+\.edit\Z")
                self.assertTrue((crate_of(edit) / "src").is_dir())
                self.assertIsNone(fault(edit))

    def test_no_crate_has_two_of_one_name(self):
        names = [(crate_of(edit).name, edit.name) for edit in [*tried_by_the_gate(), *set_apart()]]
        self.assertEqual(len(set(names)), len(names))

    def test_the_gate_tries_those_whose_promise_is_named(self):
        named = tomllib.loads((TOP / "docs" / "data" / "wrong-bodies.toml").read_text())
        self.assertEqual(sorted(named), sorted(f"{crate_of(edit).name}/{edit.stem}" for edit in tried_by_the_gate()))
        for edit, said in named.items():
            self.assertRegex(said["body"], r"\A[A-Z`].*\.\Z", edit)
            self.assertTrue(said["refused"], edit)

    def test_the_page_has_each_by_its_name(self):
        page = (TOP / "docs" / "reference" / "wrong-bodies.md").read_text()
        for edit in [*tried_by_the_gate(), *set_apart()]:
            self.assertIn(f"{crate_of(edit).name}/{edit.stem}", page)

    def test_the_gate_tries_those_of_few_crates(self):
        self.assertLessEqual(len({crate_of(edit) for edit in tried_by_the_gate()}), MOST)


class Try(unittest.TestCase):
    """`wrong/try`, with a stand-in for `rt`."""

    def tried(self, *words: str, says: str) -> tuple[int, list[str]]:
        with tempfile.TemporaryDirectory() as name:
            rt = Path(name) / "rt"
            rt.write_text(STAND_IN)
            rt.chmod(0o755)
            environment = dict(os.environ, PATH=f"{name}:{os.environ['PATH']}", SAYS=says, PYTHONDONTWRITEBYTECODE="1")
            told = subprocess.run([str(TOP / "wrong" / "try"), *words], env=environment, capture_output=True, text=True)
        return told.returncode, told.stdout.splitlines()

    def test_a_line_for_each_edit(self):
        told = self.tried("util_kernel", "cost_table", says="refused, as it must be: src/lib.rt:1:1: error")
        edits = [edit for crate in ("util_kernel", "cost_table") for edit in set_apart() if crate_of(edit).name == crate]
        self.assertEqual(told, (0, [f"{crate_of(edit).name}/{edit.stem}: refused: src/lib.rt:1:1: error" for edit in edits]))

    def test_one_that_is_not_refused(self):
        for says in ("NOT REFUSED: the crate is still proved", "BAD EDIT: it changes nothing", "NOT TRIED: run it again"):
            status, lines = self.tried("util_kernel", says=says)
            self.assertEqual((status, {line.partition(": ")[2] for line in lines}), (1, {says}))

    def test_one_that_is_not_tried(self):
        with tempfile.TemporaryDirectory() as name:
            environment = dict(os.environ, PATH=f"{name}:{os.environ['PATH']}", PYTHONDONTWRITEBYTECODE="1")
            (Path(name) / "rt").symlink_to("/bin/true")
            told = subprocess.run([str(TOP / "wrong" / "try"), "util_kernel"], env=environment, capture_output=True, text=True)
        self.assertEqual(told.returncode, 1)
        self.assertEqual({line.partition(": ")[2] for line in told.stdout.splitlines()}, {"NOT TRIED"})

    def test_one_that_is_terminated_ends_rt(self):
        with tempfile.TemporaryDirectory() as name:
            rt = Path(name) / "rt"
            rt.write_text("#!/bin/sh\necho $$\nexec sleep 60\n")
            rt.chmod(0o755)
            environment = dict(os.environ, PATH=f"{name}:{os.environ['PATH']}", PYTHONDONTWRITEBYTECODE="1")
            tried = subprocess.Popen([str(TOP / "wrong" / "try"), "util_kernel"], env=environment, stderr=subprocess.PIPE, stdout=subprocess.DEVNULL, text=True)
            with tried:
                assert tried.stderr
                number = int(tried.stderr.readline())
                tried.terminate()
        self.assertEqual(tried.returncode, 128 + signal.SIGTERM)
        self.assertRaises(ProcessLookupError, os.kill, number, 0)

    def test_a_folder_that_is_not_there(self):
        self.assertEqual(self.tried("dcop_nothing", says="")[0], 2)
