"""Tests of `./build`, `./install` and `./package`: what is installed works, and what is taken away is gone."""

from __future__ import annotations

import json
import os
import pty
import re
import select
import shutil
import subprocess
import tarfile
import tempfile
import time
import unittest
from collections.abc import Iterator
from pathlib import Path

from sefwllon import __version__, programs
from sefwllon.pages import formats

from . import clean
from .case import FRONT, ORDER, PROBLEMS, REAL, SEARCH, SERVE, TRACE

TOP = FRONT.parent
PAIR = PROBLEMS / "pair.dcop"
SOLVED = "status solved\nmethod dpop\nerror 0\ndeliveries 2\ncost 2\nlower 2\nupper 2\nvalue x 1\nvalue y 0\nend\n"
"""What `dcop solve` prints of it."""
NEEDED = {"dcop": REAL, "dcop_order": ORDER, "dcop_search": SEARCH}
BUILT = {name: path for name, path in {**NEEDED, "dcop_serve": SERVE, "dcop_trace": TRACE}.items() if path}
VARIABLES = [variable for variable, _ in programs.PLACES.values()]
BASH_COMPLETION = Path("/usr/share/bash-completion/bash_completion")
"""What has bash look for the words of a program when they are wanted."""


STAND_IN = """#!/bin/sh
[ "$*" = ci ] && [ ! -d crates/dcop_base/must-fail ] && [ ! -d crates/worked_cases ] || exit 1
for crate in crates/*; do
    echo "rt: ${crate#crates/} proved"
    [ ! -f "$crate/src/main.rt" ] || { mkdir "$crate/out" && echo program > "$crate/out/${crate#crates/}"; }
done
"""
"""A stand-in for the kit's `rt ci`, which proves nothing."""


def ran(*words: object, home: Path, text: str = "") -> subprocess.CompletedProcess[str]:
    """What a command does for a user with this home, who has named no program."""
    kept = {name: value for name, value in os.environ.items() if name not in [*VARIABLES, "PYTHONPATH"]}
    environment = {**kept, "HOME": str(home), "PATH": f"{home}/.local/bin:{os.environ['PATH']}", "SOURCE_DATE_EPOCH": "1700000000"}
    return subprocess.run([str(it) for it in words], cwd=home, env=environment, input=text, capture_output=True, text=True)


def typed(shell: str, keys: str, wanted: str, home: Path) -> str:
    """What a shell on a terminal shows after these keys and a tab, once it shows what is wanted; or after a minute."""
    child, terminal = pty.fork()
    if child == 0:
        os.chdir(home)
        os.execvpe(shell, [shell, "-i"], {**os.environ, "HOME": str(home), "TERM": "dumb", "PATH": f"{home}/.local/bin:{os.environ['PATH']}"})
    shown, sent, end = "", False, time.monotonic() + 60
    while wanted not in shown and time.monotonic() < end:
        if select.select([terminal], [], [], 0.1)[0]:
            shown += re.sub(r"\x1b\[[0-9;?]*[a-zA-Z]|\x07", "", os.read(terminal, 65536).decode(errors="replace"))
        if not sent and "ready" in shown:
            os.write(terminal, f"{keys}\t".encode())
            shown, sent = "", True
    os.write(terminal, b"\x03exit\n")
    os.close(terminal)
    os.waitpid(child, 0)
    return shown


def options_of(text: str) -> Iterator[tuple[str, str]]:
    """Each option in the text of docs/formats, behind the program whose it is."""
    program = "dcop"
    for line in text.splitlines():
        if line.startswith("#"):
            found = re.search(r"Words of `(\w+)`", line)
            program = found[1] if found else "dcop"
        found = re.match(r"\| `(--\w+)` \|", line)
        if found:
            yield program, found[1]


def stands(folder: Path) -> dict[str, object]:
    """All that is below a folder: links, bytes, modes and when it was written."""
    found: dict[str, object] = {}
    for path in sorted(folder.rglob("*")):
        told = path.lstat()
        what = os.readlink(path) if path.is_symlink() else path.read_bytes() if path.is_file() else None
        found[str(path.relative_to(folder))] = (what, told.st_mode, None if what is None else told.st_mtime_ns)
    return found


def stands_on() -> dict[str, list[str]]:
    """Each crate of `crates.txt`, in its order, with the libraries that it stands on."""
    lines = [line.partition("#")[0].split(":") for line in (TOP / "crates.txt").read_text().splitlines()]
    return {name.split()[0]: uses.split() for name, uses in (line for line in lines if len(line) == 2)}


class Crates(unittest.TestCase):
    def test_each_crate_stands_below_those_that_use_it(self):
        above = list(stands_on().items())
        for place, (name, _) in enumerate(above):
            users = [user for user, uses in above[:place] if name in uses]
            self.assertEqual(users, [], name)

    def test_the_page_has_the_crates_in_their_order(self):
        layers = (TOP / "docs" / "reference" / "crates.md").read_text().partition("\n## ")[2]
        rows = re.findall(r"^\| (\w+) \| ", layers, re.MULTILINE)
        self.assertEqual([name for name in rows if name != "Crate"], list(stands_on()))

    def test_only_what_the_programs_stand_on_is_proved(self):
        told = subprocess.run([str(TOP / "build"), "--list"], capture_output=True, text=True, check=True).stdout
        named = dict(line.split(": ", 1) for line in told.splitlines())
        crates = named.pop("crates").split()
        below = stands_on()
        wanted = set(named.values())
        while any(set(below[crate]) & set(below) - wanted for crate in wanted):
            wanted |= {it for crate in wanted for it in below[crate] if it in below}
        self.assertEqual((set(crates), len(crates)), (wanted, len(wanted)))
        self.assertFalse([crate for crate in crates if crate.startswith("test_") or crate == "worked_cases"])
        for name, (_, crate) in programs.PLACES.items():
            self.assertEqual(named.get(name), crate if crate in below else None)

    def test_what_is_proved_is_built_in_the_place_of_what_was_not(self):
        with tempfile.TemporaryDirectory() as name:
            home = Path(name)
            (home / ".local" / "bin").mkdir(parents=True)
            rt = home / ".local" / "bin" / "rt"
            rt.write_text(STAND_IN)
            rt.chmod(0o755)
            (home / "built").mkdir()
            (home / "built" / "UNPROVED").write_text("")
            told = ran(TOP / "build", "--to", home / "built", home=home)
            self.assertEqual(told.returncode, 0, told.stderr)
            made = sorted(it.name for it in (home / "built").iterdir())
            self.assertEqual((set(programs.PLACES) & set(made) >= {"dcop", "dcop_order", "dcop_search"}, "UNPROVED" in made), (True, False))
            self.assertEqual(told.stdout.splitlines()[-len(made) :], [str(home / "built" / name) for name in made])
            self.assertRegex(told.stdout, r"build: (\d+) of \1 crates are proved, after 0 minutes\n")
            rt.write_text("#!/bin/sh\necho rt: dcop_base NOT PROVED\nexit 1\n")
            told = ran(TOP / "build", "--to", home / "built", home=home)
            self.assertEqual((told.returncode, sorted(it.name for it in (home / "built").iterdir())), (1, made))
            self.assertIn("not all is proved; the last lines of `rt ci`:\nrt: dcop_base NOT PROVED\n", told.stderr)
            (home / "built" / "own").write_text("")
            self.assertIn("own is no program of Sefwllon", ran(TOP / "build", "--to", home / "built", home=home).stderr)

    def test_the_version_is_told_once(self):
        self.assertIn(f"\nversion: {__version__}\n", (TOP / "CITATION.cff").read_text())
        self.assertIn(f"\n## {__version__}\n", (TOP / "CHANGELOG.md").read_text())


@unittest.skipUnless(all(NEEDED.values()), "no built programs")
class Installed(unittest.TestCase):
    """What `./install` does for a user who has not proved the programs."""

    @classmethod
    def setUpClass(cls) -> None:
        folder = tempfile.TemporaryDirectory()
        cls.addClassCleanup(folder.cleanup)
        cls.home = Path(folder.name)
        cls.programs, cls.prefix = cls.home / "programs", cls.home / ".local"
        cls.programs.mkdir()
        for name, path in BUILT.items():
            shutil.copy(path, cls.programs / name)
        (cls.programs / "UNPROVED").write_text("compiled without proofs\n")
        cls.told = cls.install()
        cls.first = stands(cls.prefix)

    @classmethod
    def install(cls, *words: object) -> subprocess.CompletedProcess[str]:
        return ran(TOP / "install", "--programs", cls.programs, *words, home=cls.home)

    def test_a_second_time_changes_nothing(self):
        self.assertEqual(self.told.returncode, 0, self.told.stderr)
        self.assertIn("These programs were compiled without proofs", self.told.stdout)
        again = self.install()
        self.assertIn(f"install: no of {self.told.stdout.split()[3]} files are new", again.stdout)
        self.assertEqual({path: it for path, it in stands(self.prefix).items() if "__pycache__" not in path}, self.first)

    def test_the_programs_are_found_by_their_names(self):
        self.assertEqual(ran("dcop", "solve", home=self.home, text=PAIR.read_text()).stdout, SOLVED)
        self.assertEqual(ran("sefwllon", "--version", home=self.home).stdout, f"sefwllon {__version__}\n")
        told = ran("sefwllon", "solve", PAIR, home=self.home).stdout
        self.assertEqual(told.splitlines()[0], "cost 2, and none is better (verified by a check that was compiled without proofs)")

    def test_a_timetable_is_made_from_any_folder(self):
        (self.home / "elsewhere").mkdir()
        shutil.copy(FRONT / "examples" / "meetings.csv", self.home / "elsewhere")
        told = ran("env", "-C", "elsewhere", "sefwllon", "meetings", "meetings.csv", home=self.home)
        self.assertEqual((told.returncode, told.stdout.splitlines()[0]), (0, "cost 0, and none is better (verified by a check that was compiled without proofs)"), told.stderr)

    @unittest.skipUnless(shutil.which("man"), "passed over: no man")
    def test_man_finds_the_pages(self):
        for name in [*BUILT, "sefwllon"]:
            self.assertEqual(ran("man", "--where", name, home=self.home).stdout, f"{self.prefix}/share/man/man1/{name}.1\n")
        self.assertEqual(ran("man", "--where", "5", "dcop", home=self.home).stdout, f"{self.prefix}/share/man/man5/dcop.5\n")
        told = ran("man", "dcop", home=self.home)
        self.assertEqual((told.returncode, told.stderr), (0, ""))
        self.assertIn("dcop - solve a problem of distributed constraint optimisation", " ".join(told.stdout.split()))
        self.assertRegex(told.stdout, r"\n +2\. +Each +pair +is +tested")

    def test_python_finds_the_package(self):
        told = ran(FRONT / "python.sh", "-c", "import sefwllon; print(sefwllon.__version__)", home=self.home)
        self.assertEqual(told.stdout, f"{__version__}\n", told.stderr)

    def test_the_help_of_a_program_is_its_page(self):
        refused = [ran("dcop", *words, home=self.home).stdout.strip() for words in ((), ("--help",))]
        told = " ".join(ran("sefwllon", "dcop", "--help", home=self.home).stdout.split())
        self.assertIn(f"without words it prints `{refused[0]}` (NoCommand: no word is given), and for `--help` `{refused[1]}`", told)
        self.assertLess(told.index(refused[1]), 700)
        for name in BUILT.keys() - {"dcop", "dcop_serve"}:
            refused = ran(name, "--help", home=self.home).stdout.strip()
            told = " ".join(ran("sefwllon", name, "--help", home=self.home).stdout.split())
            self.assertIn(f"for `--help` it prints `{refused}`", told)
        if SERVE:
            refused = [ran("dcop_serve", *words, home=self.home).stdout.strip() for words in ((), ("--help",))]
            told = " ".join(ran("sefwllon", "dcop_serve", "--help", home=self.home).stdout.split())
            self.assertIn(f"without words it prints `{refused[0]}`, and for `--help` `{refused[1]}`", told)
        ended = ran("sefwllon", "dcop", "solve", home=self.home)
        self.assertEqual((ended.returncode, ended.stdout), (3, ""))
        self.assertIn("write `dcop solve`", ended.stderr)

    def test_the_pages_of_the_manual(self):
        pages = sorted((self.prefix / "share/man").rglob("*.*"))
        self.assertEqual([it.name for it in pages], [*(f"{name}.1" for name in sorted([*BUILT, "sefwllon"])), "dcop.5"])
        told = (self.prefix / "share/man/man1/dcop.1").read_text().replace("\\-", "-")
        for place, option in options_of(formats()):
            if place in BUILT:
                page = self.prefix / f"share/man/man1/{place}.1"
                self.assertIn(f"\\fB{option}\\fR", page.read_text().replace("\\-", "-"), page)
        self.assertIn("\\fBrefused words at 1 kind 2\\fR (UnknownCommand: the first word is no command)", told)
        self.assertLess(told.index("refused words at 1 kind 2"), told.index(".SH Command words"))
        if shutil.which("groff"):
            for page in pages:
                made = subprocess.run(["groff", "-man", "-Tutf8", "-ww", str(page)], capture_output=True, text=True)
                self.assertEqual((made.returncode, made.stderr), (0, ""), page)

    def test_bash_completes_words(self):
        folder = self.prefix / "share/bash-completion/completions"
        for line, wanted in (
            ("dcop re", "replay"),
            ("dcop solve --me", "--method"),
            ("dcop solve --method ", "plain dpop adopt auto cut"),
            ("dcop_search --format w", "wcsp"),
            *([("dcop_trace --fo", "--format")] if TRACE else []),
            ("sefwllon meet", "meetings"),
            ("sefwllon solve --method ad", "adopt"),
            ("sefwllon draw g", "graph"),
        ):
            words = [*line.split(), ""] if line.endswith(" ") else line.split()
            quoted = " ".join(f"'{word}'" for word in words)
            script = f". {folder / words[0]}; COMP_WORDS=({quoted}); COMP_CWORD={len(words) - 1}; _sefwllon_{words[0]} 2> /dev/null; echo ${{COMPREPLY[*]}}"
            self.assertEqual(subprocess.run(["bash", "-c", script], capture_output=True, text=True).stdout, f"{wanted}\n")

    @unittest.skipUnless(BASH_COMPLETION.is_file(), "passed over: no bash-completion")
    def test_bash_finds_the_words_by_itself(self):
        for name in ({*BUILT} - {"dcop_serve"}) | {"sefwllon"}:
            told = ran("bash", "-c", f". {BASH_COMPLETION}; _completion_loader {name}; complete -p {name}", home=self.home)
            self.assertEqual(told.stdout, f"complete -F _sefwllon_{name} {name}\n", told.stderr)

    @unittest.skipUnless(shutil.which("fish"), "passed over: no fish")
    def test_fish_completes_words(self):
        for line, wanted in (("dcop so", "solve"), ("dcop solve --me", "--method"), ("dcop solve --method ad", "adopt"), ("sefwllon meet", "meetings")):
            told = ran("fish", "-c", f'complete -C "{line}"', home=self.home)
            self.assertEqual(told.stdout.split()[:1], [wanted], told.stderr)

    @unittest.skipUnless(shutil.which("zsh"), "passed over: no zsh")
    def test_zsh_completes_words(self):
        hint = re.search(r"zsh: `(.*?)`", self.told.stdout)
        self.assertIsNotNone(hint)
        (self.home / ".zshrc").write_text(f"{hint[1]}\nautoload -Uz compinit; compinit -u -d {self.home}/.zcompdump\nPS1=ready\n")
        for line, wanted in (("dcop so", "dcop solve "), ("dcop solve --meth", "--method "), ("sefwllon meet", "sefwllon meetings ")):
            self.assertIn(wanted, typed("zsh", line, wanted, home=self.home))

    def test_the_files_of_other_shells_and_of_editors_are_sound(self):
        for shell, found in (("zsh", "share/zsh/site-functions/_*"), ("fish", "share/fish/vendor_completions.d/*.fish")):
            files = sorted(self.prefix.glob(found))
            self.assertEqual({it.stem.removeprefix("_") for it in files}, {*BUILT, "sefwllon"} - {"dcop_serve"})
            for file in files if shutil.which(shell) else []:
                made = subprocess.run([shell, "-n", str(file)], capture_output=True, text=True)
                self.assertEqual((made.returncode, made.stderr), (0, ""), file)
        folder = self.prefix / "share/sefwllon/vscode"
        self.assertEqual(json.loads((folder / "package.json").read_text())["version"], __version__)
        grammar = json.loads((folder / "syntaxes/dcop.tmLanguage.json").read_text())
        rules = [re.compile(it["match"]) for it in grammar["patterns"]]
        for line in (line for file in PROBLEMS.glob("*.dcop") for line in file.read_text().splitlines() if line.strip()):
            self.assertTrue(any(rule.search(line) for rule in rules), line)
        self.assertTrue((self.prefix / "share/vim/vimfiles/syntax/dcop.vim").is_file())

    def test_what_was_there_stays_and_all_else_is_taken_away(self):
        prefix = self.home / "other" / "prefix"
        (prefix / "bin").mkdir(parents=True)
        (prefix / "bin" / "dcop").write_text("another program\n")
        refused = self.install(prefix)
        self.assertEqual((refused.returncode, len(stands(prefix))), (1, 2))
        self.assertIn(f"{prefix}/bin/dcop is there, and was not installed by this", refused.stderr)
        (prefix / "bin" / "dcop").rename(prefix / "bin" / "own")
        before = stands(prefix)
        self.assertEqual(self.install(prefix).returncode, 0)
        ran(prefix / "bin" / "sefwllon", "--version", home=self.home)
        self.assertEqual(self.install(prefix, "--uninstall").returncode, 0)
        self.assertEqual(stands(prefix), before)
        again = self.install(prefix, "--uninstall")
        self.assertEqual(again.returncode, 1)
        self.assertIn(f"nothing was installed in {prefix}", again.stderr)

    def test_a_prefix_that_was_not_there_is_gone(self):
        prefix = self.home / "new"
        self.assertEqual(self.install(prefix).returncode, 0)
        self.assertEqual(self.install("--uninstall", prefix).returncode, 0)
        self.assertFalse(prefix.exists())

    def test_what_makes_the_programs_is_told_where_they_are_missing(self):
        told = ran(TOP / "install", "--programs", self.home, self.home / "none", home=self.home)
        self.assertEqual(told.returncode, 1)
        self.assertIn("`./build` makes the programs, and `./build --quick` makes them without proofs", told.stderr)
        self.assertFalse((self.home / "none").exists())

    def test_packages_are_the_same_twice_and_work(self):
        made = [ran(TOP / "package", "--programs", self.programs, "--to", self.home / to, home=self.home) for to in ("a", "b")]
        if not shutil.which("dpkg-deb"):
            self.skipTest("dpkg-deb is not there")
        self.assertEqual([it.returncode for it in made], [0, 0], made[0].stderr)
        names = [f"sefwllon-{__version__}-linux-amd64.tar.gz", f"sefwllon_{__version__}_amd64.deb"]
        for name in names:
            self.assertEqual((self.home / "a" / name).read_bytes(), (self.home / "b" / name).read_bytes())
        with tarfile.open(self.home / "a" / names[0]) as archive:
            archive.extractall(self.home / "unpacked")
        subprocess.run(["dpkg-deb", "-x", str(self.home / "a" / names[1]), str(self.home / "root")], check=True)
        for top in (self.home / "unpacked" / f"sefwllon-{__version__}", self.home / "root" / "usr"):
            self.assertEqual(ran(top / "bin" / "dcop", "solve", home=self.home, text=PAIR.read_text()).stdout, SOLVED)
            self.assertEqual(ran(top / "bin" / "sefwllon", "--version", home=self.home).stdout, f"sefwllon {__version__}\n")
        told = subprocess.run(["dpkg-deb", "-f", str(self.home / "a" / names[1])], capture_output=True, text=True).stdout
        self.assertIn(f"\nVersion: {__version__}\n", told)
        self.assertIn("compiled without proofs", told)

    def package(self) -> Path:
        """The Debian package."""
        made = ran(TOP / "package", "--programs", self.programs, "--to", self.home / "package", home=self.home)
        self.assertEqual(made.returncode, 0, made.stderr)
        return self.home / "package" / f"sefwllon_{__version__}_amd64.deb"

    @unittest.skipUnless(shutil.which("dpkg") and os.geteuid() == 0, "passed over: no dpkg, or not as root")
    def test_dpkg_installs_the_package_and_takes_it_away(self):
        """Into a folder of its own that has nothing but the list of what is installed; what it depends on is that of this machine."""
        root = self.home / "own"
        for name in ("status", "available"):
            (root / "var/lib/dpkg/updates").mkdir(parents=True, exist_ok=True)
            (root / "var/lib/dpkg/info").mkdir(exist_ok=True)
            (root / "var/lib/dpkg" / name).touch()

        def dpkg(*words: str) -> None:
            command = ["dpkg", f"--root={root}", "--log=/dev/null", "--force-depends", "--force-script-chrootless", *words]
            told = subprocess.run(command, capture_output=True, text=True)
            self.assertEqual(told.returncode, 0, told.stderr)

        before = {path for path in stands(root) if not path.startswith("var")}
        dpkg("--install", str(self.package()))
        self.assertEqual(ran(root / "usr/bin/dcop", "solve", home=self.home, text=PAIR.read_text()).stdout, SOLVED)
        told = ran(root / "usr/bin/sefwllon", "solve", root / "usr/share/doc/sefwllon/examples/pair.dcop", home=self.home).stdout
        self.assertEqual(told.splitlines()[0], "cost 2, and none is better (verified by a check that was compiled without proofs)")
        dpkg("--purge", "sefwllon")
        self.assertEqual({path for path in stands(root) if not path.startswith("var")}, before)

    @unittest.skipUnless(clean.can_be_made(), "passed over: no Debian, or not as root")
    def test_the_package_works_on_a_debian_without_the_kit(self):
        root = self.home / "clean"
        clean.make(root)

        def inside(command: str) -> str:
            told = subprocess.run(
                ["chroot", str(root), "/usr/bin/env", "-i", "HOME=/root", "PATH=/usr/sbin:/usr/bin:/sbin:/bin", "LANG=C.UTF-8", "sh", "-ec", command],
                stdin=subprocess.DEVNULL, capture_output=True, text=True,
            )  # fmt: skip
            self.assertEqual((told.returncode, told.stderr), (0, ""), command)
            return told.stdout

        shutil.copy(self.package(), root / "sefwllon.deb")
        find = "find / -xdev -name '*sefwllon*' -o -xdev -name 'dcop*' | grep -v '^/sefwllon.deb$' | sort || true"
        before = inside(find)
        inside("dpkg --install /sefwllon.deb")
        self.assertEqual(inside("! command -v rt"), "")
        docs = "/usr/share/doc/sefwllon"
        self.assertEqual(inside(f"cd /tmp; dcop solve < {docs}/examples/pair.dcop"), SOLVED)
        told = inside(f"cd /tmp; sefwllon meetings {docs}/front/examples/meetings.csv")
        self.assertEqual(told.splitlines()[0], "cost 0, and none is better (verified by a check that was compiled without proofs)")
        self.assertEqual(inside("python3 -c 'import sefwllon; print(sefwllon.__version__)'"), f"{__version__}\n")
        for name in [*BUILT, "sefwllon"]:
            self.assertIn(f'.TH "{name.upper()}"', inside(f"zcat /usr/share/man/man1/{name}.1.gz").replace(".TH SEFWLLON", '.TH "SEFWLLON"'))
        inside("dpkg --purge sefwllon")
        self.assertEqual(inside(find), before)

    def test_the_programs_need_the_c_library_alone(self):
        for name in BUILT:
            told = subprocess.run(["ldd", str(self.programs / name)], capture_output=True, text=True).stdout
            needed = {Path(line.split()[0]).name for line in told.splitlines() if line.startswith("\t")}
            self.assertLessEqual(needed, {"linux-vdso.so.1", "libc.so.6", "ld-linux-x86-64.so.2", "statically"}, name)
