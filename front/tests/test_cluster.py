"""Tests of the workers of a Dask scheduler: real ones, as processes at 127.0.0.1."""

from __future__ import annotations

import json
import subprocess
import signal
import tempfile
import unittest
from pathlib import Path
from unittest import mock

from sefwllon.lab import sharing
from sefwllon.lab.rows import read_rows
from sefwllon.problem import parse

from .case import ORDER, REAL, SEARCH, Case
from .lab import HAS, SECONDS, Engine, begun, held, let_one_on, script, steady, threes, until
from .test_chain import drawn

PASSED_OVER = [name for name, there in (("built programs", REAL and ORDER and SEARCH), ("python3-distributed", HAS["distributed"])) if not there]


class OnCluster(Case):
    """A test with the built programs and a folder."""

    engine: Engine

    def setUp(self) -> None:
        super().setUp()
        folder = tempfile.TemporaryDirectory()
        self.addCleanup(folder.cleanup)
        self.folder = folder.name
        self.out = f"{self.folder}/results.csv"

    def problems(self, count: int) -> str:
        place = Path(self.folder) / "problems"
        place.mkdir()
        for at in range(count):
            (place / f"p{at:02}.dcop").write_text(drawn(at, "max" if at % 2 else "min").text())
        return str(place)

    def ran(self, *words: str, **more: str) -> tuple[int, str, str]:
        return self.front(*words, **{"program": REAL, "order": ORDER, "search": SEARCH, **more})


@unittest.skipIf(PASSED_OVER, f"passed over: no {' and no '.join(PASSED_OVER)}")
class Cluster(OnCluster):
    @classmethod
    def setUpClass(cls) -> None:
        cls.engine = Engine(2)
        cls.addClassCleanup(cls.engine.end)

    def test_a_sweep_of_60_runs_gives_the_same_rows_as_without_a_cluster(self):
        words = ("sweep", self.problems(12), "--methods", "dpop,order:tries=50,search,plain,adopt:budget=2000")
        for out, more in (("there.csv", ("--cluster", self.engine.address)), ("here.csv", ("--processes", "2"))):
            status, said, why = self.ran(*words, "-o", f"{self.folder}/{out}", *more)
            self.assertEqual((status, said), (0, f"60 of 60 runs are in {self.folder}/{out}, 60 of them new\n"), why)
        self.assertEqual(steady(f"{self.folder}/there.csv"), steady(f"{self.folder}/here.csv"))

    def test_a_problem_is_shared_out_and_both_workers_take_slices(self):
        """Each worker waits with its first slice until the other has one too."""
        waits = script(
            self.folder,
            "waits",
            'cat > "$0.$$"',
            "if grep -q '^var .* 1$' \"$0.$$\"; then",
            f"  : > {self.folder}/has.$PPID",
            f"  while [ $(ls {self.folder} | grep -c '^has[.]') -lt 2 ]; do sleep 0.05; done",
            "fi",
            f'exec {SEARCH} "$@" < "$0.$$"',
        )
        problem = parse(threes(15))
        with mock.patch.object(sharing, "FIRST_NODES", 1), mock.patch.object(sharing, "GROWTH", 2):
            words = ("solve", "--json", self.file("p.dcop", problem.text()), "--cluster", self.engine.address)
            status, told, why = self.ran(*words, search=waits)
        answer = json.loads(told or "{}")
        alone = subprocess.run([SEARCH], input=problem.text(), text=True, capture_output=True, check=True).stdout
        self.assertIn(f"\ncost {answer.get('cost')}\n", alone, why)
        self.assertEqual(status, 0, why)
        self.assertEqual(answer["rests_on"], "each slice proved, their combination not")
        self.assertEqual(len(answer["slices"]["workers"]), 2, answer["slices"])
        self.assertIn("it is not proved that their answers together answer the whole problem", answer["note"])

    def test_a_slice_that_fails_is_tried_again_and_then_told(self):
        """The program dies at one slice each time: the others are answered, and what is said allows for that one."""
        problem = parse(threes(15).replace("var v0 3", "var v0 : red green blue"))
        dies = script(
            self.folder,
            "dies",
            'cat > "$0.$$"',
            f"if grep -q '^var v0 : red$' \"$0.$$\"; then echo \"$@\" >> {self.folder}/tried; kill -SEGV $$; fi",
            f'exec {SEARCH} "$@" < "$0.$$"',
        )
        with mock.patch.object(sharing, "FIRST_NODES", 1), mock.patch.object(sharing, "GROWTH", 2):
            words = ("solve", "--json", self.file("p.dcop", problem.text()), "--cluster", self.engine.address)
            status, told, why = self.ran(*words, search=dies)
        answer = json.loads(told or "{}")
        tried = [line.split() for line in Path(self.folder, "tried").read_text().splitlines()]
        self.assertEqual([line.count("--cells") for line in tried], [0, 1], "the second time with fewer cells")
        self.assertEqual((status, answer["solved"], answer["slices"]["failed"], answer["stopped"]), (1, False, 1, "1 slice was not answered"), why)
        self.assertIn("a slice with 1 variable fixed was not answered: ", answer["note"])
        self.assertIn("was ended by the signal 11", answer["note"])
        alone = subprocess.run([SEARCH], input=problem.text(), text=True, capture_output=True, check=True).stdout
        best = next(int(line.split()[1]) for line in alone.splitlines() if line.startswith("cost "))
        self.assertTrue(answer["lower"] <= best <= answer["cost"] and answer["lower"] < answer["cost"], (answer, best))


@unittest.skipIf(PASSED_OVER, f"passed over: no {' and no '.join(PASSED_OVER)}")
class Killed(OnCluster):
    def test_a_killed_worker_loses_no_row_and_after_a_killed_scheduler_the_same_command_goes_on(self):
        engine = Engine(2)
        self.addCleanup(engine.end)
        slow = held(self.folder, REAL)
        limit = Path(self.folder, "limit")
        limit.write_text("5")
        words = ("sweep", self.problems(10), "--methods", "plain,adopt:budget=2000", "-o", self.out)
        process = begun(*words, "--cluster", engine.address, SEFWLLON_DCOP=slow)
        self.addCleanup(process.kill)
        until(lambda: Path(self.out).exists() and Path(self.out).read_text().count("\n") > 3, "three rows")
        engine.workers[0].send_signal(signal.SIGKILL)
        until(lambda: let_one_on(self.folder) or process.poll() is not None or Path(self.out).read_text().count("\n") > 8, "eight rows")
        self.assertIsNone(process.poll(), "the sweep goes on with the other worker")
        engine.scheduler.send_signal(signal.SIGKILL)
        _, why = process.communicate(timeout=SECONDS)
        self.assertEqual((process.returncode, "no longer answers; run the same command again to go on" in why, why.count("Traceback")), (3, True, 0), why)
        limit.write_text("1000")
        kept = Path(self.out).read_text()
        self.assertLess(kept.count("\n"), 21)
        self.assertEqual(self.ran(*words, program=slow)[0], 0)
        self.assertTrue(Path(self.out).read_text().startswith(kept))
        rows = read_rows(self.out)
        self.assertEqual((len(rows), len({(row["file"], row["method"]) for row in rows})), (20, 20))


@unittest.skipUnless(HAS["distributed"], "passed over: no python3-distributed")
class Nobody(OnCluster):
    def test_an_address_where_nobody_listens_is_told(self):
        file = self.file("p.dcop", drawn(1).text())
        with mock.patch("sefwllon.lab.cluster.CONNECT_SECONDS", 1):
            for words in (("sweep", file, "--methods", "dpop", "-o", self.out), ("solve", file)):
                status, said, why = self.front(*words, "--cluster", "tcp://127.0.0.1:9", search=REAL or __file__)
                self.assertEqual((status, said.count("cost")), (3, 0), why)
                self.assertIn("no Dask scheduler answers at tcp://127.0.0.1:9: start one with `dask-scheduler`", why)
