"""Tests of many problems and many runs: what is generated, swept, drawn, and shared out on this machine."""

from __future__ import annotations

import hashlib
import io
import os
import random
import signal
import subprocess
import sys
import tempfile
import unittest
from math import prod
from pathlib import Path
from unittest import mock

from sefwllon.lab import needs, parcel, runs
from sefwllon.lab.generators import KINDS
from sefwllon.lab.measured import measured
from sefwllon.lab.pool import Local, Task
from sefwllon.lab.rows import COLUMNS, line_of, read_rows
from sefwllon.lab.slices import restricted
from sefwllon.lab.sweep import Told
from sefwllon.lab.trees import tree_of
from sefwllon.problem import Problem, Table, Trouble, Variable, parse
from sefwllon.report import read_tree

from .case import FAKE, FAKE_SEARCH, FRONT, ORDER, PAIR, REAL, SEARCH, Case
from .lab import HAS, SECONDS, begun, held, script, steady, until
from .test_chain import drawn, optimum

PROGRAMS = {"program": REAL or FAKE, "order": ORDER or FAKE, "search": SEARCH or FAKE_SEARCH}
"""The real programs, and stand-ins for those that are not there."""


class Lab(Case):
    """A test with a folder, and with problems in it."""

    def setUp(self) -> None:
        super().setUp()
        folder = tempfile.TemporaryDirectory()
        self.addCleanup(folder.cleanup)
        self.folder = folder.name
        self.out = f"{self.folder}/results.csv"

    def problems(self, count: int = 3) -> str:
        """A folder of small problems that are drawn here."""
        place = Path(self.folder) / "problems"
        place.mkdir()
        for at in range(count):
            (place / f"p{at}.dcop").write_text(drawn(at, "max" if at % 2 else "min").text())
        return str(place)

    def swept(self, *words: str) -> tuple[int, str, str]:
        return self.front("sweep", *words, "-o", self.out, **PROGRAMS)


@unittest.skipUnless(HAS["networkx"], "passed over: no python3-networkx")
class Generate(Lab):
    def test_the_same_words_write_the_same_bytes_and_a_count_only_adds(self):
        for kind in KINDS:
            for folder, count in (("one", "2"), ("two", "3")):
                status, said, why = self.front("generate", kind, "--count", count, "--seed", "7", "-o", f"{self.folder}/{folder}")
                self.assertEqual((status, said, why), (0, f"{count} problems in {self.folder}/{folder}\n", ""))
        one, two = ({it.name: it.read_bytes() for it in Path(self.folder, name).iterdir()} for name in ("one", "two"))
        self.assertEqual(len(two), 3 * len(KINDS))
        self.assertLessEqual(one.items(), two.items())
        self.assertEqual(len(set(two.values())), len(two))

    def test_each_kind_is_what_its_numbers_say(self):
        def problem(*words):
            with tempfile.TemporaryDirectory() as folder:
                self.assertEqual(self.front("generate", *words, "-o", folder)[0], 0)
                (path,) = Path(folder).iterdir()
                return parse(path.read_text())

        made = problem("colouring", "--variables", "9", "--colours", "4", "--links", "3", "--costs", "2..5")
        self.assertEqual((len(made.variables), {v.size for v in made.variables}, len(made.tables)), (9, {4}, 27))
        for table in made.tables:
            self.assertTrue(all((2 <= cost <= 5) if at % 5 == 0 else cost == 0 for at, cost in enumerate(table.costs)))
        made = problem("grid", "--rows", "3", "--columns", "4", "--size", "2")
        self.assertEqual((len(made.variables), len(made.tables)), (12, 17))
        self.assertEqual(len(problem("grid", "--rows", "3", "--columns", "4", "--torus").tables), 24)
        made = problem("random", "--variables", "10", "--density", "0.4", "--tightness", "0.5", "--costs", "1..9")
        self.assertEqual((len(made.tables), {sum(cost > 0 for cost in table.costs) for table in made.tables}), (18, {8}))
        self.assertEqual(len(problem("scale-free", "--variables", "10", "--links", "3").tables), 21)
        made = problem("meetings", "--meetings", "5", "--people", "4", "--attend", "3", "--slots", "2", "--left", "7", "--clash", "50")
        self.assertEqual((made.variables[0].values, made.tables[0].costs[2]), (("s0", "s1", "none"), 7))
        self.assertEqual(len(made.tables), 5 + 10)
        self.assertEqual(made.tables[5].costs, (50, 0, 0, 0, 50, 0, 0, 0, 0))
        made = problem("sensors", "--rows", "2", "--columns", "2", "--targets", "4")
        self.assertEqual(len(made.tables), 4 + 4)

    @unittest.skipUnless(REAL, "passed over: no built dcop")
    def test_a_drill_is_that_of_dcop(self):
        self.front("generate", "drill", "--variables", "12", "--size", "3", "--degree", "3", "--top", "50", "--seed", "5", "--count", "2", "-o", self.folder)
        for at in range(2):
            text = Path(self.folder, f"drill-5-{at:04}.dcop").read_text()
            words = ["--vars", "12", "--size", "3", "--degree", "3", "--top", "50", "--seed", str(5 + at), "--method", "dpop"]
            solved = subprocess.run([REAL, "solve", "--method", "dpop"], input=text, capture_output=True, text=True).stdout
            told = subprocess.run([REAL, "drill", *words], capture_output=True, text=True).stdout
            cost = next(line for line in told.splitlines() if line.startswith("cost "))
            self.assertIn(f"\n{cost}\n", solved)
            values = [int(line.split()[2]) for line in solved.splitlines() if line.startswith("value ")]
            self.assertIn(f"\nmark {sum((place + 1) * value for place, value in enumerate(values))}\n", told)

    def test_another_problem_that_is_there_is_kept(self):
        Path(self.folder, "grid-0-0000.dcop").write_text(PAIR)
        status, _, why = self.front("generate", "grid", "-o", self.folder)
        self.assertEqual(status, 3)
        self.assertIn("grid-0-0000.dcop exists already and has another problem: name another folder by -o", why)
        self.assertEqual(Path(self.folder, "grid-0-0000.dcop").read_text(), PAIR)

    def test_wrong_numbers_are_told(self):
        for words, wanted in (
            (("sensors", "--targets", "99"), "--targets must be from 1 to 40"),
            (("meetings", "--attend", "11"), "--attend must be from 1 to"),
            (("scale-free", "--links", "30"), "no graph has these numbers"),
            (("random", "--variables", "1001", "--density", "0"), "dcop takes up to 1000"),
        ):
            status, _, why = self.front("generate", *words, "-o", self.folder)
            self.assertEqual((status, wanted in why), (3, True), why)


class Needs(Lab):
    def test_a_missing_library_is_named_with_its_package(self):
        problems = self.problems(1)
        Path(self.out).write_text(line_of(COLUMNS) + line_of("x" if name in ("file", "method") else "" for name in COLUMNS))
        for words, package in (
            (("generate", "grid", "-o", self.folder), "python3-networkx"),
            (("plot", self.out, "-o", self.folder), "python3-matplotlib"),
            (("sweep", problems, "--methods", "dpop", "-o", f"{self.folder}/new.csv", "--cluster", "127.0.0.1:9"), "python3-distributed"),
            (("solve", f"{problems}/p0.dcop", "--cluster", "127.0.0.1:9"), "python3-distributed"),
        ):
            with mock.patch.object(needs, "import_module", side_effect=ImportError):
                status, _, why = self.front(*words, **PROGRAMS)
            self.assertEqual((status, f"install Debian's package {package}" in why), (3, True), why)


class Sweep(Lab):
    def test_each_exact_method_has_the_best_sum(self):
        methods = "plain,dpop,order,search,cut,auto,adopt:budget=10000000" if REAL and ORDER and SEARCH else "plain,dpop,order,search"
        status, said, why = self.swept(self.problems(4), "--methods", methods)
        count = 4 * len(methods.split(","))
        self.assertEqual((status, said), (0, f"{count} of {count} runs are in {self.out}, {count} of them new\n"), why)
        rows = read_rows(self.out)
        for row in rows:
            problem = drawn(int(Path(row["file"]).stem[1:]), row["goal"])
            best = str(optimum(problem))
            self.assertEqual((row["status"], row["cost"], row["lower"], row["upper"], row["gap"], row["exit"]), ("solved", best, best, best, "0", "0"), row)
            self.assertEqual((row["variables"], row["time"]), (str(len(problem.variables)), "10.0"))
            self.assertIn("dcop_search " if row["method"] == "search" else "dcop ", row["versions"])
            self.assertTrue(row["bounds"].endswith(f" {best} {best}"), row)
        self.assertEqual(sorted((row["file"], row["method"]) for row in rows), sorted({(row["file"], row["method"]) for row in rows}))

    @unittest.skipUnless(REAL, "passed over: no built dcop")
    def test_the_figures_of_dpop_are_those_of_its_certificate(self):
        status, _, why = self.swept(self.problems(6), "--methods", "dpop:certificate=yes,adopt:error=3:budget=500")
        self.assertEqual(status, 0, why)
        for row in read_rows(self.out):
            text = Path(row["file"]).read_text()
            if row["method"] != "dpop:certificate=yes":
                self.assertEqual((row["messages"] != "", row["util_messages"], row["longest_chain"]), (True, "", ""))
                continue
            told = subprocess.run([REAL, "solve", "--method", "dpop", "--certificate", "yes"], input=text, capture_output=True, text=True).stdout
            below = [line.split(" : ") for line in told.splitlines() if line.startswith("util ") and line.split()[2] != "-"]
            sent = [(len(scope.split()), len(cells.split())) for _, scope, cells in below]
            self.assertEqual(int(row["sum_util"]), sum(cells for _, cells in sent))
            self.assertEqual(int(row["greatest_util"]), max((cells for _, cells in sent), default=0))
            self.assertEqual(int(row["bytes"]), sum(17 + 4 * names + 8 * cells + 13 + 6 * names for names, cells in sent))
            self.assertEqual((int(row["messages"]), int(row["util_messages"])), (2 * len(sent), len(sent)))

    @unittest.skipUnless(REAL, "passed over: no built dcop")
    def test_the_tree_is_that_of_dcop(self):
        draw = random.Random(1)
        for count in [*range(1, 12)] * 4 + [300]:
            variables = [Variable(f"v{at}", draw.randrange(1, 3)) for at in draw.sample(range(count), count)]
            scopes = [draw.sample(range(count), min(count, draw.randrange(1, 5))) for _ in range(draw.randrange(2 * count))]
            tables = [Table(tuple(scope), (1,) * prod(variables[at].size for at in scope)) for scope in scopes]
            problem = Problem("min", variables, tables)
            told = subprocess.run([REAL, "tree"], input=problem.text(), capture_output=True, text=True).stdout
            self.assertEqual(tree_of(problem), read_tree(told), problem.text())

    def test_what_is_refused_or_wrong_has_a_row(self):
        wide, bad = self.file("wide.dcop", PAIR), self.file("bad.dcop", PAIR.replace("end", "and"))
        with mock.patch.dict(os.environ, FAKE="wide"):
            status, _, _ = self.front("sweep", wide, bad, "--methods", "dpop", "-o", self.out, fake="wide")
        self.assertEqual(status, 0)
        told = {Path(row["file"]).name: (row["status"], row["exit"], row["why"]) for row in read_rows(self.out)}
        self.assertEqual(told["wide.dcop"][:2], ("wide", "4"))
        self.assertEqual(told["bad.dcop"][0], "refused")
        self.assertIn("line 6", told["bad.dcop"][2])

    def test_the_same_command_goes_on(self):
        problems = self.problems(3)
        self.assertEqual(self.swept(problems, "--methods", "dpop,plain")[0], 0)
        whole = Path(self.out).read_text()
        lines = whole.splitlines(keepends=True)
        self.assertEqual(self.swept(problems, "--methods", "dpop,plain")[1], f"6 of 6 runs are in {self.out}, 0 of them new\n")
        self.assertEqual(Path(self.out).read_text(), whole)
        rows = steady(self.out)
        Path(self.out).write_text("".join(lines[:4]) + lines[4][:30])
        self.assertEqual(self.swept(problems, "--methods", "dpop,plain")[1], f"6 of 6 runs are in {self.out}, 3 of them new\n")
        self.assertEqual(steady(self.out), rows)
        for words, new in ((("--methods", "dpop", "--time", "9s"), 3), (("--methods", "dpop,plain"), 0)):
            self.assertIn(f", {new} of them new\n", self.swept(problems, *words)[1])

    def test_what_can_t_be_is_a_sentence_and_nothing_is_lost(self):
        problems, empty, other = self.problems(1), f"{self.folder}/empty", self.file("other.csv", "a,b\n1,2\n")
        short = self.file("short.csv", line_of(COLUMNS) + "x,y\n")
        Path(empty).mkdir()
        for words, wanted in (
            ((problems, "-o", other), f"{other}, line 1: that is not a file of results of `sefwllon sweep`"),
            ((problems, "-o", short), f"{short}, line 2: a row has {len(COLUMNS)} cells, but this one has 2"),
            ((empty, "-o", self.out), f"the folder {empty} has no problem"),
            ((f"{empty}/x", "-o", self.out), f"there is no file or folder {empty}/x"),
            ((problems, "-o", f"{empty}/x/y.csv"), "can't be written: No such file or directory"),
            ((problems, "-o", self.out, "--methods", "dpop,best"), "there is no method best: --methods takes plain, dpop"),
            ((problems, "-o", self.out, "--methods", "dpop:tries=3"), "dpop:tries=3: tries=3 is not an option of dpop"),
            ((problems, "-o", self.out, "--methods", "adopt:error=x"), "adopt:error=x: the error must be a number from 0 up, not x"),
            ((problems, "-o", self.out, "--methods", "dpop,dpop"), "--methods names dpop twice"),
            ((f"{problems}/p0.dcop", "-o", f"{problems}/p0.dcop"), "is one of the problems, so rows can't be appended to it"),
        ):
            status, _, why = self.front("sweep", *words, **PROGRAMS)
            self.assertEqual((status, wanted in why), (3, True), why)
        self.assertEqual((Path(other).read_text(), Path(short).read_text()), ("a,b\n1,2\n", line_of(COLUMNS) + "x,y\n"))

    def test_a_program_that_is_not_there_is_told_before_a_run(self):
        status, _, why = self.front("sweep", self.problems(1), "--methods", "search", "-o", self.out, search="")
        self.assertEqual((status, "the program dcop_search is not built" in why, Path(self.out).exists()), (3, True, False))

    def test_a_sweep_that_is_stopped_or_killed_goes_on(self):
        slow = held(self.folder, PROGRAMS["program"])
        words = ("sweep", self.problems(6), "--methods", "plain,adopt:budget=2000", "-o", self.out, "--processes", "2")
        for number, runs, count, status in ((signal.SIGINT, 4, 2, 130), (signal.SIGKILL, 10, 6, -9)):
            Path(self.folder, "limit").write_text(str(runs))
            process = begun(*words, SEFWLLON_DCOP=slow)
            until(lambda: Path(self.out).exists() and Path(self.out).read_text().count("\n") > count, "a row")
            (os.killpg if number == signal.SIGINT else os.kill)(process.pid, number)
            _, why = process.communicate(timeout=SECONDS)
            self.assertEqual((process.returncode, why.count("Traceback")), (status, 0), why)
            self.assertEqual("interrupted; run the same command again to go on" in why, number == signal.SIGINT, why)
        Path(self.folder, "limit").write_text("1000")
        kept = Path(self.out).read_text()
        until(lambda: self.again(words, slow), "the end of the sweep")
        self.assertTrue(Path(self.out).read_text().startswith(kept))
        rows = read_rows(self.out)
        self.assertEqual((len(rows), len({(row["file"], row["method"]) for row in rows})), (12, 12))
        self.assertEqual({row["status"] for row in rows}, {"solved"})

    def again(self, words, program) -> bool:
        """Whether the same command has ended well; the killed one's lock may still be held for a moment."""
        status, _, why = self.front(*words, program=program)
        self.assertIn(status, (0, 3), why)
        return status == 0

    def test_a_full_disk_loses_no_row(self):
        problems = self.problems(8)
        limited = f"ulimit -f 2; exec {sys.executable} -m sefwllon sweep {problems} --methods dpop,plain -o {self.out} --processes 2"
        environment = dict(os.environ, SEFWLLON_DCOP=PROGRAMS["program"], PYTHONPATH=str(FRONT), PYTHONDONTWRITEBYTECODE="1")
        told = subprocess.run(["bash", "-c", limited], env=environment, capture_output=True, text=True)
        self.assertEqual((told.returncode, f"{self.out} can't be written: File too large" in told.stderr), (3, True), told.stderr)
        self.assertTrue(Path(self.out).read_text().endswith("\n"))
        before = len(read_rows(self.out))
        self.assertIn(before, range(3, 16))
        self.assertEqual(self.swept(problems, "--methods", "dpop,plain")[1], f"16 of 16 runs are in {self.out}, {16 - before} of them new\n")

    def test_a_killed_process_loses_no_row_and_doubles_none(self):
        slow = script(self.folder, "slow", "sleep 0.2", f"exec {PROGRAMS['program']} \"$@\"")
        place = Path(self.problems(8))
        pool = Local({"dcop": slow}, 2)
        self.addCleanup(pool.close)
        for at, path in enumerate(sorted(place.iterdir())):
            job = {"file": str(path), "name": path.name, "content": path.read_bytes(), "method": "plain", "time": 9.0, "versions": ""}
            pool.submit(Task(at, "run", job | {"checksum": hashlib.sha256(path.read_bytes()).hexdigest()}))
        first = pool.next(300)
        os.kill(next(member.process.pid for member in pool.members if member.task), signal.SIGKILL)
        over = [first, *(pool.next(300) for _ in range(7))]
        self.assertEqual(sorted(done.number for done in over), list(range(8)))
        self.assertEqual({done.result["status"] for done in over}, {"solved"})
        self.assertIsNone(pool.next(0))

    def test_a_run_is_ended_when_its_processor_time_is_over(self):
        ran = measured(["sh", "-c", "while :; do :; done"], "", seconds=0.2)
        self.assertEqual((ran.status, ran.text), (None, ""))
        self.assertIn(round(ran.seconds, 1), (0.2, 0.3, 0.4, 0.5))
        ran = measured(["sleep", "100"], "", clock=0.1)
        self.assertEqual((ran.status, ran.seconds < 0.1), (None, True))


class Terminal(io.StringIO):
    def isatty(self) -> bool:
        return True


class Telling(unittest.TestCase):
    def test_a_bar_on_a_terminal_and_else_a_line_now_and_then(self):
        with mock.patch("sys.stderr", Terminal()) as seen:
            told = Told(4)
            for status in ("solved", "wide"):
                told.take(status)
                told.show(2)
            told.end()
        bars = seen.getvalue().split("\r\x1b[K")[1:]
        self.assertEqual([bar[:42] for bar in bars], ["[######..................] 1/4 runs, 1 sol", "[############............] 2/4 runs, 1 sol", ""])
        with mock.patch("sys.stderr", io.StringIO()) as seen, mock.patch("time.monotonic", side_effect=[4.0, 11.0, 12.0, 22.0]):
            told = Told(4, began=0.0, last=0.0)
            for size in (2, 2, 2, 0):
                told.take("solved")
                told.show(size)
            told.end()
        self.assertEqual(seen.getvalue(), "2/4 runs, 2 solved, 11 s, about 11 s left\n4/4 runs, 4 solved, 22 s; waiting for a worker\n")


class Sent(Lab):
    def test_a_program_or_a_problem_that_came_as_another_is_not_used(self):
        sums = {"dcop": hashlib.sha256(b"a program").hexdigest()}
        with mock.patch("pkgutil.get_data", return_value=b"a program"):
            path = Path(parcel.written(Path(self.folder, "dcop"), "dcop", sums["dcop"]))
            self.assertEqual((path.read_bytes(), path.stat().st_mode & 0o777), (b"a program", 0o700))
        with mock.patch("pkgutil.get_data", return_value=b"another"), self.assertRaisesRegex(Trouble, "dcop arrived damaged"):
            parcel.written(Path(self.folder, "dcop"), "dcop", sums["dcop"])
        job = {"file": "p.dcop", "name": "p.dcop", "content": PAIR.encode(), "checksum": hashlib.sha256(b"").hexdigest(), "method": "dpop", "time": 9.0}
        with self.assertRaisesRegex(Trouble, "p.dcop arrived damaged"):
            runs.run(job, {})


@unittest.skipUnless(HAS["matplotlib"], "passed over: no python3-matplotlib")
class Plot(Lab):
    def test_pictures_and_tables_are_the_same_each_time(self):
        self.assertEqual(self.swept(self.problems(5), "--methods", "dpop,plain,search")[0], 0)
        seen = []
        for name in ("a", "b"):
            status, said, why = self.front("plot", self.out, "-o", f"{self.folder}/{name}")
            self.assertEqual(status, 0, why)
            seen.append({it.name: it.read_bytes() for it in Path(self.folder, name).iterdir()})
        self.assertEqual(seen[0], seen[1])
        pictures = ("cactus", "gap", "messages", "against-dpop-plain", "against-dpop-search", "against-plain-search")
        wanted = {f"{it}.{end}" for it in pictures for end in ("svg", "png")} | {f"{it}.{end}" for it in ("methods", "sizes") for end in ("csv", "tex")}
        self.assertEqual(set(seen[0]), wanted)
        self.assertTrue(all(data.startswith(b"\x89PNG") for name, data in seen[0].items() if name.endswith("png")))
        self.assertTrue(all(b"</svg>" in data for name, data in seen[0].items() if name.endswith("svg")))
        lines = seen[0]["methods.csv"].decode().splitlines()
        self.assertEqual([line.split(",")[:3] for line in lines], [["method", "runs", "solved"], *([it, "5", "5"] for it in ("dpop", "plain", "search"))])
        self.assertIn(b"\ndpop & 5 & 5 & ", seen[0]["methods.tex"])

    def test_a_wrong_csv_is_told_by_its_line(self):
        other = self.file("other.csv", "a,b\n")
        cells = ["1" if name in ("file", "method") else "many" if name == "seconds" else "" for name in COLUMNS]
        wrong, empty = self.file("wrong.csv", line_of(COLUMNS) + line_of(cells)), self.file("empty.csv", line_of(COLUMNS))
        for name, wanted in (
            (other, f"{other}, line 1: that is not a file of results"),
            (wrong, f"{wrong}, line 2: seconds is `many`, which is not a number"),
            (empty, "there are no rows yet"),
            (f"{self.folder}/none.csv", "can't be read: No such file"),
        ):
            status, _, why = self.front("plot", name, "-o", f"{self.folder}/plots")
            self.assertEqual((status, wanted in why), (3, True), why)
        self.assertFalse(Path(self.folder, "plots").exists())


class Slices(Lab):
    def test_an_assignment_costs_in_its_slice_what_it_costs_in_the_problem(self):
        draw = random.Random(3)
        for seed in range(40):
            problem = drawn(seed, "max" if seed % 2 else "min")
            places = [at for at in range(len(problem.variables)) if draw.randrange(2)]
            fixed = {at: draw.randrange(problem.variables[at].size) for at in places}
            sliced = restricted(problem, fixed)
            self.assertEqual(parse(sliced.text()).tables, sliced.tables)
            for _ in range(5):
                values = [fixed.get(at, draw.randrange(v.size)) for at, v in enumerate(problem.variables)]
                own = [0 if at in fixed else value for at, value in enumerate(values)]
                self.assertEqual(sliced.cost(own), problem.cost(values))

    def test_slices_have_the_best_sum(self):
        with mock.patch("sefwllon.lab.sharing.FIRST_NODES", 1), mock.patch("sefwllon.lab.sharing.GROWTH", 2):
            for seed in (2, 3):
                problem = drawn(seed, "max" if seed % 2 else "min")
                file = self.file("p.dcop", problem.text())
                status, told, why = self.front("solve", "--json", file, "--cluster", "local:2", **PROGRAMS)
                self.assertEqual((status, f'"cost": {optimum(problem)}' in told), (0, True), (told, why))

    @unittest.skipUnless(SEARCH, "passed over: no built dcop_search")
    def test_a_slice_that_fails_is_tried_again_and_then_told(self):
        file, count = self.file("p.dcop", drawn(7).text()), f"{self.folder}/count"
        name = drawn(7).variables[0].name
        crashes = f"if grep -q '^var {name} 1$' \"$0.$$\"; then echo >> {count}; kill -SEGV $$; fi"
        fails = script(self.folder, "fails", 'cat > "$0.$$"', crashes, f'exec {SEARCH} "$@" < "$0.$$"')
        with mock.patch("sefwllon.lab.sharing.FIRST_NODES", 1), mock.patch("sefwllon.lab.slices.next_variable", lambda problem, near, fixed: None if 0 in fixed else 0):
            status, told, why = self.front("solve", file, "--cluster", "local:1", **PROGRAMS | {"search": fails})
        self.assertIn("was ended by the signal 11", told, why)
        self.assertRegex(told, r"\d+ slices? (was|were) not answered")
        self.assertEqual(status, 1)
        tried = Path(count).read_text().count("\n")
        self.assertEqual(tried % 2, 0)
        self.assertGreater(tried, 0)

    def test_wrong_words_are_told(self):
        file = self.file("p.dcop", PAIR)
        for words, wanted in (
            (("--cluster", "local:x"), "local:x must name a number of processes"),
            (("--cluster", "local", "--method", "dpop"), "--cluster works only with the search"),
        ):
            status, _, why = self.front("solve", file, *words, **PROGRAMS)
            self.assertEqual((status, wanted in why), (3, True), why)
        status, _, why = self.front("solve", file, "--cluster", "local", search="")
        self.assertEqual((status, "the program dcop_search is not built" in why), (3, True))
