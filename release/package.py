"""`./package`: a Debian package and a tarball of what `./install` installs. Built twice of the same, they are the same bytes."""

from __future__ import annotations

import argparse
import gzip
import hashlib
import io
import os
import re
import shutil
import subprocess
import sys
import tarfile
import tempfile
from pathlib import Path

from .programs import BUILT, TOP, UNPROVED, Trouble, version
from .tree import DOCS, HOME, Piece, Places, tree

PACKAGES = TOP / "packages"
"""Where packages are left, where nothing else is said."""

MAINTAINER = "Sefwllon maintainers <maintainers@users.noreply.sefwllon.example>"
DEPENDS = "python3 (>= 3.11)"
RECOMMENDS = ("python3-yaml", "python3-icalendar", "python3-flask", "node-d3")
"""What files of pyDCOP, calendars and pages need, by Debian's names."""

DEBIAN = Places(zsh="share/zsh/vendor-completions", python="lib/python3/dist-packages")
"""Where Debian's zsh and Python look."""

CLEAN = f"""#!/bin/sh
set -e
find "${{DPKG_ROOT:-}}/usr/{HOME}/front" -name __pycache__ -type d -prune -exec rm -rf '{{}}' +
"""
"""What is run before the package is taken away: what Python keeps of its modules goes too."""


def main(words: list[str] | None = None) -> int:
    options = parser().parse_args(words)
    folder, to = Path(options.programs), Path(options.to)
    try:
        moment = made_at()
        plain, debian = tree(folder, Places()), tree(folder, DEBIAN)
        to.mkdir(parents=True, exist_ok=True)
        made = [tarball(plain, to, moment)]
        if shutil.which("dpkg-deb"):
            made.append(package(debian, to, moment, (folder / UNPROVED).is_file()))
        else:
            print("package: dpkg-deb is not there, so no Debian package is made: install dpkg", file=sys.stderr)
    except (Trouble, OSError) as trouble:
        print(f"package: {trouble}", file=sys.stderr)
        return 1
    if (folder / UNPROVED).is_file():
        print("package: these programs were compiled without proofs, which the packages say: `./build` makes the proved ones", file=sys.stderr)
    print(*made, sep="\n")
    return 0 if len(made) == 2 else 1


def parser() -> argparse.ArgumentParser:
    told = argparse.ArgumentParser(prog="./package", description="Makes a Debian package and a tarball of the built programs and sefwllon.")
    told.add_argument("--to", metavar="FOLDER", default=str(PACKAGES), help=f"where they are left ({PACKAGES.name}/ of the clone)")
    told.add_argument("--programs", metavar="FOLDER", default=str(BUILT), help=f"where the built programs stand ({BUILT.name}/ of the clone)")
    return told


def made_at() -> int:
    """The moment that all files have: `SOURCE_DATE_EPOCH`, or that of the last commit."""
    told = os.environ.get("SOURCE_DATE_EPOCH", "")
    if not told:
        ran = subprocess.run(["git", "log", "-1", "--format=%ct"], cwd=TOP, capture_output=True, text=True)
        told = ran.stdout.strip()
    if not told.isdecimal():
        raise Trouble("the clone has no commit that says which moment the files have: set SOURCE_DATE_EPOCH to a number of seconds")
    return int(told)


def tarball(found: dict[str, Piece], to: Path, moment: int) -> Path:
    """The tarball, whose folder can be put anywhere."""
    name = f"sefwllon-{version()}"
    kept = io.BytesIO()
    with tarfile.open(fileobj=kept, mode="w", format=tarfile.PAX_FORMAT) as archive:
        folders = sorted({str(it) for path in found for it in Path(path).parents})
        for path in folders:
            archive.addfile(entry(f"{name}/{path}".removesuffix("/."), moment, 0o755, tarfile.DIRTYPE))
        for path, piece in found.items():
            if piece.link is not None:
                archive.addfile(entry(f"{name}/{path}", moment, 0o777, tarfile.SYMTYPE, link=piece.link))
            else:
                archive.addfile(entry(f"{name}/{path}", moment, 0o755 if piece.runs else 0o644, size=len(piece.data)), io.BytesIO(piece.data))
    made = to / f"{name}-linux-amd64.tar.gz"
    made.write_bytes(gzip.compress(kept.getvalue(), mtime=moment))
    return made


def entry(path: str, moment: int, mode: int, kind: bytes = tarfile.REGTYPE, size: int = 0, link: str = "") -> tarfile.TarInfo:
    told = tarfile.TarInfo(path)
    told.type, told.mode, told.mtime, told.size, told.linkname = kind, mode, moment, size, link
    told.uname = told.gname = "root"
    return told


def package(found: dict[str, Piece], to: Path, moment: int, is_unproved: bool) -> Path:
    """The Debian package."""
    path = to / f"sefwllon_{version()}_amd64.deb"
    pieces = {f"usr/{name}": piece for name, piece in debian(found, moment).items()}
    sums = "".join(f"{hashlib.md5(piece.data).hexdigest()}  {name}\n" for name, piece in pieces.items() if piece.link is None)
    size = sum(-(-len(piece.data) // 1024) for piece in pieces.values())
    libc = max((it for piece in pieces.values() if piece.runs for it in libc_of(piece.data)), default=(2, 0))
    pieces["DEBIAN/control"] = Piece(control(size, libc, is_unproved).encode())
    pieces["DEBIAN/md5sums"] = Piece(sums.encode())
    pieces["DEBIAN/prerm"] = Piece(CLEAN.encode(), runs=True)
    with tempfile.TemporaryDirectory(prefix="sefwllon-package-") as name:
        lay_out(Path(name), pieces, moment)
        command = ["dpkg-deb", "--root-owner-group", "-Zgzip", "-z9", "--build", name, str(path)]
        ran = subprocess.run(command, env={**os.environ, "SOURCE_DATE_EPOCH": str(moment)}, capture_output=True, text=True)
    if ran.returncode:
        raise Trouble(f"dpkg-deb made no package: {ran.stderr.strip()}")
    return path


def debian(found: dict[str, Piece], moment: int) -> dict[str, Piece]:
    """What is installed, as Debian wants it: pages and news packed, and the licences in one file."""
    told = {}
    for path, piece in found.items():
        if path.startswith("share/man/"):
            told[f"{path}.gz"] = Piece(gzip.compress(piece.data, mtime=0))
        elif path == f"{DOCS}/CHANGELOG.md":
            told[f"{DOCS}/changelog.gz"] = Piece(gzip.compress(piece.data, mtime=0))
        else:
            told[path] = piece
    told[f"{DOCS}/copyright"] = Piece(b"\n".join(told.pop(f"{DOCS}/{name}").data for name in ("LICENSE", "NOTICE")))
    return dict(sorted(told.items()))


def libc_of(program: bytes) -> list[tuple[int, int]]:
    """The versions of the C library that a program names."""
    return [(int(it[1]), int(it[2])) for it in re.finditer(rb"\0GLIBC_(\d+)\.(\d+)", program)]


def control(size: int, libc: tuple[int, int], is_unproved: bool) -> str:
    """What Debian is told of the package."""
    unproved = " The programs of this package were compiled without proofs, and answers say so.\n" if is_unproved else ""
    return (
        f"Package: sefwllon\nVersion: {version()}\nArchitecture: amd64\nMaintainer: {MAINTAINER}\n"
        f"Installed-Size: {size}\nDepends: libc6 (>= {libc[0]}.{libc[1]}), {DEPENDS}\nRecommends: {', '.join(RECOMMENDS)}\nSection: science\nPriority: optional\n"
        "Description: distributed constraint optimisation with answers that can be checked\n"
        " dcop solves problems of variables and cost tables by DPOP and by ADOPT, says how\n"
        " far from the best an answer may be, and checks the certificates of answers.\n"
        " sefwllon is a command for people around it: timetables, other tools' files,\n"
        f" pictures, a page in the browser.\n{unproved}"
    )


def lay_out(folder: Path, pieces: dict[str, Piece], moment: int) -> None:
    """Writes the files, all with the same moment, whatever the umask is."""
    folder.chmod(0o755)
    for path, piece in pieces.items():
        place = folder / path
        place.parent.mkdir(parents=True, exist_ok=True)
        if piece.link is not None:
            place.symlink_to(piece.link)
        else:
            place.write_bytes(piece.data)
            place.chmod(0o755 if piece.runs else 0o644)
    for place in [*folder.rglob("*"), folder]:
        if place.is_dir() and not place.is_symlink():
            place.chmod(0o755)
        os.utime(place, (moment, moment), follow_symlinks=False)


if __name__ == "__main__":
    sys.exit(main())
