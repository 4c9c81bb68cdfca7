"""Puts the clone's VERSION and docs/formats into the package that is built; all else stands in pyproject.toml."""

from pathlib import Path

from setuptools import setup
from setuptools.command.build_py import build_py

CLONE = Path(__file__).resolve().parents[1]


class WithVersion(build_py):
    """Builds the package, with its version and with what manual pages are made of."""

    def run(self) -> None:
        super().run()
        if not self.editable_mode:
            package = Path(self.build_lib) / "sefwllon"
            self.copy_file(str(CLONE / "VERSION"), str(package / "VERSION"))
            self.copy_tree(str(CLONE / "docs" / "formats"), str(package / "formats"))


setup(cmdclass={"build_py": WithVersion})
