"""Tests of the start of the command: its version, its modules, what they import, and the Python that runs it."""

from __future__ import annotations

import os
import shutil
import subprocess
import sys
import tempfile
import unittest
from pathlib import Path

from sefwllon import __version__
from sefwllon.cli import COMMANDS

from .case import FRONT


def python(*words: str, path: Path = FRONT) -> str:
    """What Python prints with these words, in this folder and with its packages."""
    environment = dict(os.environ, PYTHONPATH=str(path), PYTHONDONTWRITEBYTECODE="1")
    return subprocess.run([sys.executable, *words], cwd=path, env=environment, capture_output=True, text=True, check=True).stdout


class Entry(unittest.TestCase):
    def test_the_version_is_that_of_the_file(self):
        wanted = (FRONT.parent / "VERSION").read_text().strip()
        self.assertEqual(__version__, wanted)
        self.assertEqual(python("-m", "sefwllon", "--version"), f"sefwllon {wanted}\n")
        script = subprocess.run([str(FRONT / "sefwllon.sh"), "--version"], capture_output=True, text=True)
        self.assertEqual((script.returncode, script.stdout), (0, f"sefwllon {wanted}\n"))

    def test_an_installed_version_is_that_of_the_file_beside_it(self):
        with tempfile.TemporaryDirectory() as name:
            folder = Path(name) / "lib"
            shutil.copytree(FRONT / "sefwllon", folder / "sefwllon", ignore=shutil.ignore_patterns("__pycache__"))
            self.assertEqual(python("-m", "sefwllon", "--version", path=folder), "sefwllon unknown\n")
            for place, version in ((Path(name), "1.2.3"), (folder / "sefwllon", "4.5.6")):
                (place / "VERSION").write_text(f"{version}\n")
                self.assertEqual(python("-m", "sefwllon", "--version", path=folder), f"sefwllon {version}\n")

    def test_each_module_of_commands_is_named(self):
        there = {file.stem for file in (FRONT / "sefwllon" / "commands").glob("*.py")} - {"__init__"}
        self.assertEqual(there, set(COMMANDS))

    def test_the_start_imports_what_python_brings_alone(self):
        told = python(
            "-c",
            "import sys; before = set(sys.modules); from sefwllon.cli import parser; parser()\n"
            "print(*sorted({name.split('.')[0] for name in set(sys.modules) - before} - sys.stdlib_module_names))",
        )
        self.assertEqual(told, "sefwllon\n")
