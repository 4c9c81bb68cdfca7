"""`./install`: puts the programs, `sefwllon`, their manual and more below a folder, and takes just these away again."""

from __future__ import annotations

import argparse
import os
import shutil
import site
import sys
from pathlib import Path

from .programs import BUILT, UNPROVED, Trouble
from .tree import HOME, Piece, Places, tree

BASH_COMPLETION = Path("/usr/share/bash-completion/bash_completion")
"""What has bash look for the words of a program when they are wanted."""

MANIFEST = "share/sefwllon/manifest"
"""What was installed: the path of each file below the prefix, and of each folder that was made, with a `/` behind it."""


def main(words: list[str] | None = None) -> int:
    options = parser().parse_args(words)
    prefix = Path(os.path.abspath(os.path.expanduser(options.prefix)))
    try:
        if options.uninstall:
            uninstall(prefix)
            print(f"install: Sefwllon is taken away from {prefix}")
        else:
            found = tree(Path(options.programs), Places(python=packages_below(prefix)))
            changed = install(prefix, found)
            print(f"install: {changed or 'no'} of {len(found)} files are new in {prefix}")
            print(*hints(prefix, found), sep="\n")
    except (Trouble, OSError) as trouble:
        print(f"install: {trouble}", file=sys.stderr)
        return 1
    return 0


def parser() -> argparse.ArgumentParser:
    told = argparse.ArgumentParser(prog="./install", description="Installs the built programs, sefwllon, and their manual, completion and editor grammars.")
    told.add_argument("prefix", metavar="PREFIX", nargs="?", default="~/.local", help="where to: below it stand bin, lib and share (~/.local)")
    told.add_argument("--uninstall", action="store_true", help="take away what was installed there, and nothing else")
    told.add_argument("--programs", metavar="FOLDER", default=str(BUILT), help=f"where the built programs stand ({BUILT.name}/ of the clone)")
    return told


def packages_below(prefix: Path) -> str | None:
    """The folder below the prefix in which this Python looks for packages, if there is one."""
    for folder in [site.getusersitepackages(), *site.getsitepackages()]:
        if Path(folder).is_relative_to(prefix / "lib"):
            return str(Path(folder).relative_to(prefix))
    return None


def install(prefix: Path, found: dict[str, Piece]) -> int:
    """Makes what is below the prefix what it has to be, and gives how many files were not so yet."""
    earlier = manifest(prefix)
    taken = [path for path in found if path not in earlier and os.path.lexists(prefix / path) and not is_there(prefix / path, found[path])]
    if taken:
        raise Trouble(f"{prefix / taken[0]} is there, and was not installed by this: move it away, or name another PREFIX")
    folders = {path for path in earlier if path.endswith("/")}
    changed = 0
    for path, piece in found.items():
        if not is_there(prefix / path, piece):
            folders |= made(prefix, path)
            write(prefix / path, piece)
            changed += 1
    for path in earlier - found.keys() - folders - {MANIFEST}:
        (prefix / path).unlink(missing_ok=True)
    folders |= made(prefix, MANIFEST)
    text = "".join(f"{path}\n" for path in sorted({*found, *folders, MANIFEST}))
    if not is_there(prefix / MANIFEST, Piece(text.encode())):
        write(prefix / MANIFEST, Piece(text.encode()))
    return changed


def uninstall(prefix: Path) -> None:
    """Takes away what was installed, and the folders that were made for it, where nothing else is in them."""
    earlier = manifest(prefix)
    if not earlier:
        raise Trouble(f"nothing was installed in {prefix}: {prefix / MANIFEST} is not there")
    for folder in sorted((prefix / HOME).rglob("__pycache__")):
        shutil.rmtree(folder)
    for path in earlier:
        if not path.endswith("/"):
            (prefix / path).unlink(missing_ok=True)
    for path in sorted((path for path in earlier if path.endswith("/")), reverse=True):
        if (prefix / path).is_dir() and not any((prefix / path).iterdir()):
            (prefix / path).rmdir()


def manifest(prefix: Path) -> set[str]:
    """What was installed, by what was written down then."""
    try:
        return set((prefix / MANIFEST).read_text().splitlines())
    except FileNotFoundError:
        return set()


def is_there(path: Path, piece: Piece) -> bool:
    """Whether just this stands there."""
    if path.is_symlink():
        return os.readlink(path) == piece.link
    return piece.link is None and path.is_file() and os.access(path, os.X_OK) == piece.runs and path.read_bytes() == piece.data


def made(prefix: Path, path: str) -> set[str]:
    """Makes the folders that a file wants, and gives those that were not there."""
    lacking = [it for it in Path(path).parents if not (prefix / it).is_dir()]
    (prefix / path).parent.mkdir(parents=True, exist_ok=True)
    return {f"{it}/" for it in lacking}


def write(path: Path, piece: Piece) -> None:
    """Puts a file or a link in its place, whole or not at all."""
    new = path.with_name(f".{path.name}.new")
    new.unlink(missing_ok=True)
    if piece.link is not None:
        new.symlink_to(piece.link)
    else:
        new.write_bytes(piece.data)
        new.chmod(0o755 if piece.runs else 0o644)
    new.replace(path)


def hints(prefix: Path, found: dict[str, Piece]) -> list[str]:
    """What is left to do by hand."""
    told = []
    if f"{HOME}/{BUILT.name}/{UNPROVED}" in found:
        told.append("These programs were compiled without proofs, and answers say so: `./build` makes the proved ones.")
    if str(prefix / "bin") not in os.environ.get("PATH", "").split(os.pathsep):
        told.append(f"{prefix / 'bin'} is not on the path: put `export PATH=\"{prefix / 'bin'}:$PATH\"` into ~/.profile.")
    share = prefix / "share"
    # zsh has a `_dcop` of its own, for a desktop program of that name: whose folder is first is used.
    told.append(f"zsh: `fpath=({share}/zsh/site-functions $fpath)` before `compinit` in ~/.zshrc; fish looks by itself below ~/.local and /usr.")
    if BASH_COMPLETION.is_file():
        told.append("bash: a new shell looks by itself below ~/.local and /usr.")
    else:
        files = f"{share}/bash-completion/completions"
        told.append(f"bash: `for it in {files}/*; do . $it; done` in ~/.bashrc, or install Debian's bash-completion, which looks by itself below ~/.local and /usr.")
    told.append(f"vim: `set runtimepath+={share}/vim/vimfiles` in ~/.vimrc.")
    told.append(f"VS Code: `ln -s {share}/sefwllon/vscode ~/.vscode/extensions/sefwllon-dcop`.")
    return told


if __name__ == "__main__":
    sys.exit(main())
