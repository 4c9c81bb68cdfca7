"""A clean Debian in a folder: the packages that each Debian has, and Python, as this machine has them, without a network.

Its files are those that these packages own, and its list of packages names them alone: so what is installed there depends on nothing else of
this machine."""

from __future__ import annotations

import os
import re
import shlex
import shutil
import stat
import subprocess
from pathlib import Path

WANTED = ("python3", "grep", "findutils", "gzip")
"""What is there besides the packages that are called essential."""
FIELDS = "${Package}\t${binary:Package}\t${Essential}\t${Pre-Depends}, ${Depends}\t${Provides}\n"


def can_be_made() -> bool:
    """Whether this is a Debian whose user may make one."""
    return os.geteuid() == 0 and all(map(shutil.which, ("dpkg-query", "tar", "chroot"))) and Path("/var/lib/dpkg/status").is_file()


def packages() -> dict[str, str]:
    """The packages by their names, each by the name that dpkg knows its files by: the essential ones, those that are wanted, and all below them."""
    told = subprocess.run(["dpkg-query", "--show", f"--showformat={FIELDS}"], capture_output=True, text=True, check=True).stdout
    rows = {row[0]: row for row in (line.split("\t") for line in told.splitlines())}
    provided = {name: row[0] for row in rows.values() for name in names(row[4])}
    found: dict[str, str] = {}
    left = [*WANTED, *(name for name, row in rows.items() if row[2] == "yes")]
    while left:
        name = left.pop()
        if name not in found:
            found[name] = rows[name][1]
            for either in rows[name][3].split(","):
                here = [provided.get(other, other) for other in names(either, "|")]
                left += [other for other in here if other in rows][:1]
    return found


def names(told: str, mark: str = ",") -> list[str]:
    """The names of a list of packages, without their versions."""
    return [re.split(r"[ (:]", word.strip())[0] for word in told.split(mark) if word.strip()]


def make(root: Path) -> None:
    """Makes it in a folder that is not there yet."""
    found = packages()
    for name in ("bin", "sbin", "lib", "lib32", "lib64", "libx32"):
        if Path("/", name).is_symlink():
            (root / "usr" / name).mkdir(parents=True)
            (root / name).symlink_to(f"usr/{name}")
    listed = subprocess.run(["dpkg-query", "--listfiles", *found.values()], capture_output=True, text=True, check=True).stdout
    there = sorted({line[1:] for line in listed.splitlines() if line.startswith("/") and len(line) > 2 and os.path.lexists(line)})
    copied = f"set -o pipefail; tar -C / --no-recursion -cf - -T - | tar -C {shlex.quote(str(root))} --keep-directory-symlink -xpf -"
    subprocess.run(["bash", "-c", copied], input="\n".join(there), text=True, check=True)
    for name in ("passwd", "group"):
        shutil.copy(root / "usr/share/base-passwd" / f"{name}.master", root / "etc" / name)
    for name in ("null", "zero", "urandom"):
        (root / "dev").mkdir(exist_ok=True)
        os.mknod(root / "dev" / name, 0o666 | stat.S_IFCHR, os.stat(f"/dev/{name}").st_rdev)
    database(root / "var/lib/dpkg", found)


def database(folder: Path, found: dict[str, str]) -> None:
    """The list of what is installed, as dpkg keeps it."""
    (folder / "updates").mkdir(parents=True, exist_ok=True)
    (folder / "info").mkdir(exist_ok=True)
    for stanza in Path("/var/lib/dpkg/status").read_text().split("\n\n"):
        if stanza.strip() and stanza.split("\n", 1)[0].removeprefix("Package: ") in found:
            with open(folder / "status", "a", encoding="utf-8") as status:
                status.write(f"{stanza.strip()}\n\n")
    (folder / "available").touch()
    for name in found.values():
        for file in Path("/var/lib/dpkg/info").glob(f"{name}.list"):
            shutil.copy(file, folder / "info")
    shutil.copy("/var/lib/dpkg/info/format", folder / "info")
