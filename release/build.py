"""`./build`: proves and builds the programs, or compiles them without proofs."""

from __future__ import annotations

import argparse
import os
import re
import shutil
import signal
import subprocess
import sys
import tempfile
import threading
import time
from collections.abc import Callable, Iterator
from concurrent.futures import ThreadPoolExecutor
from contextlib import contextmanager
from pathlib import Path

from .programs import BUILT, PROGRAMS, TOP, UNPROVED, Trouble, stood_on, there, version

EVERY = 60
"""After how many seconds it is said again how far it is."""

MEMORY = 5 << 30
"""How many bytes of memory a program that is compiled without proofs wants."""

TAIL = 30
"""How many of the last lines are shown of what failed."""

DONE = re.compile(r"rt: (\w+) (?:proved|is kept)\b")
"""What `rt ci` says of a crate that is proved."""


def main(words: list[str] | None = None) -> int:
    options = parser().parse_args(words)
    programs, to = there(), Path(options.to)
    signal.signal(signal.SIGTERM, signal.default_int_handler)
    if options.list:
        print(*(f"{name}: {crate}" for name, crate in programs.items()), sep="\n")
        print("crates:", *stood_on(list(programs.values())))
        return 0
    try:
        with tempfile.TemporaryDirectory(prefix="sefwllon-build-") as name:
            look_at(to)
            made = (quick if options.quick else proved)(programs, Path(name))
            publish(made, to, options.quick)
    except Trouble as trouble:
        print(f"build: {trouble}", file=sys.stderr)
        return 1
    except KeyboardInterrupt:
        return 130
    print(*(to / program for program in made), sep="\n")
    return 0


def parser() -> argparse.ArgumentParser:
    told = argparse.ArgumentParser(prog="./build", description=f"Proves and builds the programs, and leaves them in {BUILT.name}/.")
    told.add_argument(
        "--quick", action="store_true", help=f"compile them without proofs, which takes minutes; {BUILT.name}/{UNPROVED} then says so"
    )
    told.add_argument("--to", metavar="FOLDER", default=str(BUILT), help=f"where they are left ({BUILT.name}/ of the clone)")
    told.add_argument("--list", action="store_true", help="print each program with its crate, and the crates that are proved, and build nothing")
    return told


def proved(programs: dict[str, str], folder: Path) -> dict[str, Path]:
    """Proves a copy that has only the crates below the programs, and gives the programs that are built there."""
    need("rt", "the Rattle kit's rt is not on the path: it proves and builds the programs")
    crates = stood_on(list(programs.values()))
    copy_crates(crates, folder)
    print(f"build: {len(crates)} crates are to be proved; some versions of the kit skip what they proved before", flush=True)
    done: set[str] = set()
    lines: list[str] = []
    with said(lambda: f"{len(done)} of {len(crates)} crates are proved"):
        with subprocess.Popen(["rt", "ci"], cwd=folder, stdout=subprocess.PIPE, stderr=subprocess.STDOUT, text=True) as process:
            assert process.stdout
            try:
                for line in process.stdout:
                    lines.append(line)
                    done |= {found[1] for found in [DONE.match(line)] if found and found[1] in crates}
            except KeyboardInterrupt:
                process.terminate()
                raise
    if process.returncode < 0:
        raise Trouble(f"`rt ci` was ended by the signal {-process.returncode}: run this again")
    if process.returncode:
        raise Trouble(f"not all is proved; the last lines of `rt ci`:\n{''.join(lines[-TAIL:])}")
    return {name: folder / "crates" / crate / "out" / crate for name, crate in programs.items()}


def copy_crates(crates: list[str], folder: Path) -> None:
    """Copies crates to the top of a repository of their own, without what earlier runs left and without their wrong bodies."""
    (folder / ".git").mkdir()
    shutil.copy(TOP / "HANDLES", folder)
    for crate in crates:
        shutil.copytree(TOP / "crates" / crate, folder / "crates" / crate, ignore=shutil.ignore_patterns("out", "must-fail"))
    lines = (TOP / "crates.txt").read_text().splitlines(keepends=True)
    (folder / "crates.txt").write_text("".join(line for line in lines if re.split(r"[\s:]", line)[0] in crates))


def quick(programs: dict[str, str], folder: Path) -> dict[str, Path]:
    """Compiles the programs without proofs, as many side by side as there is room for."""
    need("rt", "the Rattle kit's rt is not on the path: it compiles the programs")
    print(f"build: {len(programs)} programs are compiled without proofs", flush=True)
    done: list[str] = []

    def one(name: str) -> None:
        command = [str(TOP / "bench" / "unproved.sh"), str(folder / name), programs[name]]
        ran = subprocess.run(command, stdout=subprocess.PIPE, stderr=subprocess.STDOUT, stdin=subprocess.DEVNULL, text=True)
        if ran.returncode:
            raise Trouble(f"{name} is not compiled:\n{''.join(ran.stdout.splitlines(keepends=True)[-TAIL:])}")
        done.append(name)

    with said(lambda: f"{len(done)} of {len(programs)} programs are compiled"), ThreadPoolExecutor(at_a_time()) as pool:
        try:
            list(pool.map(one, programs))
        except BaseException:
            pool.shutdown(wait=False, cancel_futures=True)
            raise
    return {name: folder / name for name in programs}


def at_a_time() -> int:
    """How many programs are compiled side by side: each takes two processors."""
    free = os.sysconf("SC_AVPHYS_PAGES") * os.sysconf("SC_PAGE_SIZE")
    try:
        told = re.search(r"MemAvailable: *(\d+) kB", Path("/proc/meminfo").read_text())
        free = int(told[1]) << 10 if told else free
    except OSError:
        pass
    return max(1, min((os.cpu_count() or 1) // 2, free // MEMORY))


@contextmanager
def said(far: Callable[[], str]) -> Iterator[None]:
    """Says now and then how far it is, and how long that took."""
    began, over = time.monotonic(), threading.Event()

    def tell() -> None:
        print(f"build: {far()}, after {(time.monotonic() - began) / 60:.0f} minutes", flush=True)

    def watch() -> None:
        while not over.wait(EVERY):
            tell()

    watcher = threading.Thread(target=watch, daemon=True)
    watcher.start()
    try:
        yield
    finally:
        over.set()
        watcher.join()
        tell()


def look_at(to: Path) -> None:
    """Sees that nothing stands where the programs go but what an earlier run left there."""
    others = sorted(it.name for it in to.iterdir() if it.name not in (*PROGRAMS, UNPROVED)) if to.is_dir() else []
    if others:
        raise Trouble(f"{to / others[0]} is no program of Sefwllon, and the programs replace all that is in {to}: move it away, or name another folder by --to")


def publish(made: dict[str, Path], to: Path, is_quick: bool) -> None:
    """Puts the programs in the place of those that were there; nothing is called proved meanwhile that is not."""
    lacking = [name for name, path in made.items() if not path.is_file()]
    if lacking:
        raise Trouble(f"{', '.join(lacking)}: nothing was built")
    shutil.rmtree(to, ignore_errors=True)
    to.mkdir(parents=True)
    if is_quick:
        text = f"The programs of this folder were compiled without proofs, by `./build --quick` of Sefwllon {version()}.\n`./build` makes the proved ones.\n"
        (to / UNPROVED).write_text(text)
    for name, path in made.items():
        shutil.copyfile(path, to / name)
        (to / name).chmod(0o755)


def need(tool: str, why: str) -> None:
    if shutil.which(tool) is None:
        raise Trouble(why)


if __name__ == "__main__":
    sys.exit(main())
