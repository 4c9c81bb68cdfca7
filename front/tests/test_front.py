"""Tests of the front. The program is a stand-in that tries all assignments, or the real one by SEFWLLON_DCOP."""

from __future__ import annotations

import io
import itertools
import json
import os
import random
import signal
import subprocess
import sys
import time
import unittest
from contextlib import redirect_stderr
from fractions import Fraction
from pathlib import Path
from unittest import mock
from xml.dom import minidom

from sefwllon import draw, programs, pydcop, replaying, wcsp
from sefwllon.arguments import seconds
from sefwllon.best import Best
from sefwllon.bettering import Bettering
from sefwllon.cli import main
from sefwllon.evaluator import Formula
from sefwllon.explain import differs, explain
from sefwllon.problem import Trouble, parse
from sefwllon.programs import Programs
from sefwllon.report import Node, Report, read_report
from sefwllon.solving import Solver
from sefwllon.translate import Constraint, Source, translate

from . import documents
from .case import EXAMPLES, FAKE, FAKE_SEARCH, FRONT, HAS_YAML, HERE, ORDER, PAIR, PROBLEMS, REAL, SEARCH, TRACE, Case

if HAS_YAML:
    from . import brute_pydcop


TORN = "torn 3 2 4 100\n2 2 2\n" + "".join(
    f"2 {a} {b} {other} 2\n0 0 {same}\n1 1 {same}\n" for a, b in ((0, 1), (1, 2)) for same, other in ((60, 0), (0, 60))
)
"""A WCSP whose cells are all below its top, and whose sums are all 120."""
NO_SOLUTION = "the WCSP has no solution, since no assignment costs less than its top 100"


class Solving(Case):
    def test_a_certified_answer_is_verified(self):
        status, told, _ = self.front("solve", str(PROBLEMS / "pair.dcop"))
        self.assertEqual((status, told.splitlines()[0]), (0, "cost 2, and none is better (verified)"))

    def test_a_program_that_lies_is_not_believed(self):
        for fake in ("lies", "forges"):
            status, told, why = self.front("solve", str(PROBLEMS / "pair.dcop"), fake=fake)
            self.assertEqual((status, told), (3, ""))
            self.assertIn("don't trust this program", why)

    def test_a_program_that_is_none_is_told(self):
        pair = str(PROBLEMS / "pair.dcop")
        for does, why in (
            ("echo hello", "that is not a report of `dcop solve`"),
            ("kill -SEGV $$", "ended by the signal 11"),
            ("echo refused text line x kind y; exit 3", "That is not a refusal of dcop"),
            ("head -c 300 /dev/zero", "that is not a report of `dcop solve`"),
        ):
            program = self.file("dcop", f"#!/bin/sh\n{does}\n")
            os.chmod(program, 0o755)
            status, told, said = self.front("solve", pair, program=program)
            self.assertEqual((status, told), (3, ""))
            self.assertIn(why, said)

    def test_an_answer_without_a_certificate_is_called_proved(self):
        status, told, _ = self.front("solve", "--method", "plain", str(PROBLEMS / "pair.dcop"))
        self.assertEqual((status, told.splitlines()[0]), (0, "cost 2, and none is better (proved)"))

    def test_adopt_keeps_the_best_of_growing_budgets(self):
        for fake in ("wide turns spends", "wide earlier spends"):
            status, told, _ = self.front("solve", "--json", self.file("pair.dcop", PAIR), fake=fake)
            answer = json.loads(told)
            self.assertEqual((status, answer["method"], answer["cost"]), (0, "adopt", 3))
            self.assertEqual((answer["solved"], answer["verified"], answer["rests_on"]), (True, False, "proved"))
            self.assertIn("dcop_search is not built", answer["note"])

    def test_a_cut_without_a_certificate_is_proved(self):
        pair = self.file("pair.dcop", PAIR)
        for words in ((), ("--method", "cut")):
            status, told, _ = self.front("solve", pair, *words, fake="wide spends")
            self.assertEqual((status, told.splitlines()[0]), (0, "cost 3, and none is better (proved)"))
        status, told, _ = self.front("solve", "--json", pair, fake="wide heavy spends")
        answer = json.loads(told)
        self.assertEqual((status, answer["method"], answer["solved"], answer["rests_on"]), (0, "cut", True, "proved"))
        self.assertEqual(self.front("solve", pair, fake="wide lies")[0], 3)

    def test_a_refused_cut_is_told_where_it_is_the_only_way(self):
        status, told, why = self.front("solve", "--method", "cut", str(PROBLEMS / "pair.dcop"), fake="turns")
        self.assertEqual((status, told), (3, ""))
        self.assertIn("1,048,576 turns", why)

    def test_a_cut_is_made_in_the_narrower_order(self):
        status, told, _ = self.front("solve", "--json", self.file("pair.dcop", PAIR), fake="wide turned spends", order=FAKE)
        answer = json.loads(told)
        self.assertEqual((status, answer["method"], answer["cost"], answer["values"]), (0, "cut", 3, {"x": "1", "y": "0"}))

    def test_a_long_cut_is_stopped_after_its_part(self):
        pair = self.file("pair.dcop", PAIR)
        with mock.patch("sefwllon.solving.CUT_SECONDS", 0.2):
            status, told, _ = self.front("solve", "--json", pair, fake="wide long spends")
            self.assertEqual((status, json.loads(told)["method"]), (0, "adopt"))
            with mock.patch("sefwllon.solving.MESSAGES", (1_000, 2_000)):
                status, told, _ = self.front("solve", pair, fake="wide long spends")
        self.assertEqual(status, 1)
        self.assertRegex(told, r"\nnote: cut was stopped after \d+\.\d s; with `--method cut` it may use all of the time\n")
        tracking = str(PROBLEMS / "tracking.dcop")
        status, told, _ = self.front("solve", "--method", "cut", "--time", "1s", tracking, fake="long")
        self.assertEqual((status, told.splitlines()[1]), (1, "stopped: the time is over"))

    def test_each_way_is_told_as_it_is_tried(self):
        told: list[str] = []
        with mock.patch.dict(os.environ, FAKE="wide turns spends", SEFWLLON_SEARCH=""):
            Solver(Programs(FAKE, FAKE), parse(PAIR), tell=lambda what, best: told.append(what)).solve()
        adopt = [f"adopt, {count} messages" for count in ("1,000", "10,000", "100,000")]
        self.assertEqual(told, ["dpop", "order, 20,000 tries", *adopt[:2], "cut", adopt[2]])

    def test_an_assignment_is_no_dearer_than_the_bound_that_is_told(self):
        best = Best()
        best.take(Report("spent", "adopt", 0, 522, 15, 8, 11, [0]), "min")
        self.assertEqual((best.cost, best.lower, best.upper, best.gap("min")), (15, 8, 15, 7))
        best.take(Report("spent", "adopt", 0, 900, 17, 9, 10, [1]), "min")
        self.assertEqual((best.values, best.cost, best.lower, best.upper), ([0], 15, 9, 15))
        best.take_better([2], 12, "min")
        self.assertEqual((best.values, best.cost, best.lower, best.upper), ([2], 12, 9, 12))
        best.take(Report("solved", "cut", 0, 0, 12, 12, 12, [3]), "min")
        self.assertEqual((best.values, best.gap("min"), best.rests("min")), ([3], 0, "proved"))
        best = Best()
        best.take(Report("spent", "adopt", 0, 5, 10, 12, 20, [0]), "max")
        self.assertEqual((best.cost, best.lower, best.upper, best.gap("max")), (10, 10, 20, 10))

    def test_an_assignment_is_bettered_a_variable_at_a_time(self):
        for name in ("tracking", "sensors"):
            problem = parse((PROBLEMS / f"{name}.dcop").read_text())
            first = [0] * len(problem.variables)
            bettering, sign = Bettering(problem, first), 1 if problem.goal == "min" else -1
            values = list(bettering.descend())
            self.assertLessEqual(sign * problem.cost(values), sign * problem.cost(first))
            for variable, size in enumerate(v.size for v in problem.variables):
                for value in range(size):
                    other = [*values[:variable], value, *values[variable + 1 :]]
                    self.assertLessEqual(sign * problem.cost(values), sign * problem.cost(other))
            bettering.go(time.monotonic() + 0.1)
            self.assertEqual(bettering.best_cost, problem.cost(bettering.best))
            self.assertLessEqual(sign * bettering.best_cost, sign * problem.cost(values))

    def test_the_time_is_kept(self):
        began = time.monotonic()
        status, told, _ = self.front("solve", "--time", "300ms", str(PROBLEMS / "tracking.dcop"), fake="slow")
        self.assertEqual((status, told.splitlines()[1]), (1, "stopped: the time is over"))
        self.assertLess(time.monotonic() - began, 30)

    def test_a_script_ends_what_it_started_when_its_time_is_over(self):
        mark = self.file("mark", "")
        script = self.file("dcop", f"#!/bin/sh\ntrap 'kill $!; echo ended > {mark}; exit 143' TERM\nsleep 60 &\nwait\n")
        os.chmod(script, 0o755)
        self.front("solve", "--time", "300ms", str(PROBLEMS / "tracking.dcop"), program=script)
        self.assertEqual(Path(mark).read_text(), "ended\n")

    def test_a_program_that_takes_its_text_late_gets_all_of_it(self):
        script = self.file("late", "#!/bin/sh\nsleep 0.6\nexec wc -c\n")
        os.chmod(script, 0o755)
        ticks: list[int] = []
        answer = programs.run("dcop", [script], "x" * 10**6, time.monotonic() + 60, lambda: ticks.append(1))
        self.assertEqual((answer.text.strip(), answer.status, len(ticks) > 0), ("1000000", 0, True))
        none = self.file("none", "#!/bin/sh\necho none\n")
        os.chmod(none, 0o755)
        self.assertEqual(programs.run("dcop", [none], "x" * 10**6, None).text, "none\n")

    def test_what_was_checked_without_proofs_is_told_as_such(self):
        pair, link = str(PROBLEMS / "pair.dcop"), self.file("dcop", "")
        script = self.file("dcop", f"#!/bin/sh\nexec {FAKE} \"$@\"\n")
        os.chmod(script, 0o755)
        (Path(script).parent / "UNPROVED").write_text("compiled without proofs\n")
        Path(link).unlink()
        Path(link).symlink_to(script)
        by, report = "a check that was compiled without proofs", self.file("report", "")
        self.assertEqual([Programs(it, "", it).quick for it in (script, link, FAKE)], [True, True, False])
        self.assertEqual([Programs(FAKE, "", it).quick_search for it in (script, link, FAKE)], [True, True, False])
        _, told, _ = self.front("solve", pair, "--report", report, program=script)
        self.assertEqual(told.splitlines()[0], f"cost 2, and none is better (verified by {by})")
        answer = json.loads(self.front("solve", "--json", pair, program=script)[1])
        self.assertEqual((answer["verified"], answer["verified_by"]), (True, by))
        self.assertEqual(self.front("check", pair, report, program=script)[1], f"yes, verified by {by}: cost 2, and none is better\n")
        told = self.front("cost", pair, "x=0", "y=1", "--report", report, program=script)[1]
        self.assertEqual(told, f"cost 3\nat most 1 from the best (verified by {by})\n")
        clash = self.file("week.csv", "slot,a\nmeeting,m,Ann\nmeeting,n,Ann\n")
        self.assertIn(f"none breaks fewer (verified by {by})\n", self.front("meetings", clash, "--time", "10m", program=script)[1])
        self.front("solve", pair, "--method", "adopt", "--report", report, fake="logs", program=script)
        self.assertIn(f"none is better (verified by {by})</text>", self.front("draw", pair, report, fake="logs", program=script)[1])
        _, told, _ = self.front("solve", self.file("tied.dcop", PAIR), fake="wide spends", program=script)
        self.assertEqual(told.splitlines()[0], "cost 3, and none is better (by a program that was compiled without proofs)")
        answer = json.loads(self.front("solve", "--json", pair)[1])
        self.assertEqual((answer["verified"], answer["verified_by"]), (True, "dcop check"))
        answer = json.loads(self.front("solve", "--json", "--method", "plain", pair)[1])
        self.assertEqual((answer["verified"], answer["verified_by"]), (False, None))

    def test_a_search_that_was_compiled_without_proofs_is_told_as_such(self):
        script = self.file("dcop_search", f"#!/bin/sh\nexec {FAKE_SEARCH} \"$@\"\n")
        os.chmod(script, 0o755)
        for search, wanted in ((FAKE_SEARCH, "proved"), (script, "by a program that was compiled without proofs")):
            if search == script:
                (Path(script).parent / "UNPROVED").write_text("compiled without proofs\n")
            _, told, _ = self.front("solve", self.file("tied.dcop", PAIR), "--method", "search", search=search)
            self.assertEqual(told.splitlines()[0], f"cost 3, and none is better ({wanted})")

    def test_how_dcop_is_built_is_told_as_on_the_first_page(self):
        why = programs.unbuilt(FRONT.parent)
        for page in (FRONT.parent / "README.md", FRONT.parent / documents.TUTORIAL):
            self.assertIn("./build --quick", page.read_text())
        self.assertIn(f"in {FRONT.parent} run `./build --quick`", why)
        self.assertIn("in the clone of Sefwllon run", programs.unbuilt(HERE))

    def test_an_assignment_is_told_where_no_method_comes_to_one_in_time(self):
        for name in ("tracking", "sensors"):
            file = PROBLEMS / f"{name}.dcop"
            status, told, _ = self.front("solve", "--json", "--time", "300ms", str(file), fake="slow")
            answer, problem = json.loads(told), parse(file.read_text())
            values = [v.value_of(answer["values"][v.name]) for v in problem.variables]
            self.assertEqual((status, answer["method"], answer["rests_on"]), (1, "start", "added up"))
            self.assertEqual(answer["cost"], problem.cost(values))
            self.assertEqual(answer["cost"], answer["upper" if problem.goal == "min" else "lower"])
            self.assertIn("search of sefwllon's own", answer["note"])
            best = json.loads(self.front("solve", "--json", str(file))[1])["cost"]
            self.assertTrue(answer["lower"] <= best <= answer["upper"])

    def test_an_interrupt_ends_with_the_best_so_far(self):
        mark = Path(self.file("mark", ""))
        environment = dict(os.environ, SEFWLLON_DCOP=FAKE, FAKE="slow", FAKE_MARK=str(mark), PYTHONPATH=str(FRONT))
        process = subprocess.Popen(
            [sys.executable, "-m", "sefwllon", "solve", str(PROBLEMS / "tracking.dcop")],
            env=environment, stdout=subprocess.PIPE, stderr=subprocess.PIPE, text=True,
            # (who starts the tests in the background may have interrupts ignored)
            preexec_fn=lambda: signal.signal(signal.SIGINT, signal.SIG_DFL),
        )  # fmt: skip
        self.addCleanup(process.kill)
        latest = time.monotonic() + 60
        while not mark.read_text() and time.monotonic() < latest:
            time.sleep(0.05)
        process.send_signal(signal.SIGINT)
        told, _ = process.communicate(timeout=40)
        self.assertEqual((process.returncode, told.splitlines()[1]), (1, "stopped: interrupted"))

    @unittest.skipUnless(HAS_YAML, "no PyYAML")
    def test_pydcop_costs_are_told_in_its_own(self):
        status, told, _ = self.front("solve", "--json", str(EXAMPLES / "colouring.yaml"))
        answer = json.loads(told)
        self.assertEqual((status, answer["cost"]), (0, -0.1))
        self.assertEqual(answer["values"], {"v1": "R", "v2": "G", "v3": "R"})

    def test_a_wcsp_is_solved(self):
        status, told, _ = self.front("solve", "--json", str(EXAMPLES / "knapsack.wcsp"))
        self.assertEqual((status, json.loads(told)["cost"]), (0, 8))

    def test_a_wcsp_whose_best_sum_reaches_its_top_has_no_solution(self):
        file, report, lost = self.file("torn.wcsp", TORN), self.file("report", ""), "a sum below the top 100 (it is 120)"
        status, told, _ = self.front("solve", file, "--report", report)
        self.assertEqual((status, told.splitlines()[:2]), (1, [f"{NO_SOLUTION} (verified)", f"broken, though it must hold: {lost}"]))
        answer = json.loads(self.front("solve", "--json", file)[1])
        self.assertEqual((answer["solved"], answer["cost"], answer["lower"], answer["upper"]), (False, None, 120, None))
        self.assertEqual((answer["broken"], answer["note"]), ([lost], f"{NO_SOLUTION} (verified)"))
        self.assertEqual(self.front("check", file, report)[1], f"yes, verified: {NO_SOLUTION}; this one breaks: {lost}\n")
        told = self.front("cost", file, "v0=0", "v1=1", "v2=1", "--report", report)[1]
        self.assertEqual(told, f"broken: {lost}\ncost 120\n{NO_SOLUTION} (verified)\n")
        self.front("solve", file, "--method", "adopt", "--report", report, fake="logs")
        self.assertIn(f"torn.wcsp: 2 messages, {NO_SOLUTION} (verified)</text>", self.front("draw", file, report, fake="logs")[1])

    def test_that_a_wcsp_has_no_solution_is_told_no_better_than_it_is_known(self):
        file = self.file("torn.wcsp", TORN)
        self.assertEqual(self.front("solve", file, fake="wide")[1].splitlines()[0], f"{NO_SOLUTION} (proved)")
        status, told, _ = self.front("solve", file, "--time", "300ms", fake="slow")
        self.assertEqual((status, told.splitlines()[0].split(",")[0]), (1, "no solution of the WCSP was found"))

    def test_a_wcsp_s_top_is_no_cost_of_a_solution(self):
        for top, wanted in ((121, (0, "cost 120")), (120, (1, "the WCSP has no solution"))):
            status, told, _ = self.front("solve", self.file("torn.wcsp", TORN.replace(" 100\n", f" {top}\n")))
            self.assertEqual((status, told.split(",")[0]), wanted)
        for text in ("constants 1 2 2 9\n2\n0 4 0\n0 5 0\n", "nothing 1 1 0 0\n1\n", "cells 2 2 1 9\n2 2\n2 0 1 9 0\n"):
            status, told, _ = self.front("solve", self.file("none.wcsp", text))
            self.assertEqual((status, told.split(",")[0]), (1, "the WCSP has no solution"))

    def test_a_wcsp_has_the_solutions_that_come_of_trying_all(self):
        draw, solved = random.Random(1), 0
        choices = list(itertools.product(range(2), repeat=2))
        for _ in range(16):
            top = draw.randrange(4, 14)
            tables = {pair: {choice: draw.randrange(9) for choice in choices} for pair in ((0, 1), (1, 2), (0, 2))}
            text = f"random 3 2 4 {top}\n2 2 2\n0 2 0\n"
            for (a, b), costs in tables.items():
                text += f"2 {a} {b} 0 4\n" + "".join(f"{i} {j} {cost}\n" for (i, j), cost in costs.items())
            sums = []
            for values in itertools.product(range(2), repeat=3):
                costs = [2, *(costs[values[a], values[b]] for (a, b), costs in tables.items())]
                sums.append(top if max(costs) >= top else sum(costs))
            status, told, _ = self.front("solve", "--json", self.file("random.wcsp", text))
            answer, best = json.loads(told), min(sums)
            self.assertEqual((status, answer["cost"]), (0, best) if best < top else (1, None), text)
            solved += best < top
        self.assertTrue(4 < solved < 12, solved)

    @unittest.skipUnless(REAL, "no built program")
    def test_the_real_program_knows_no_solution_either(self):
        for top, wanted in ((100, NO_SOLUTION), (121, "cost 120, and none is better")):
            text = TORN.replace(" 100\n", f" {top}\n")
            told = self.front("solve", self.file("torn.wcsp", text), program=REAL)[1]
            self.assertEqual(told.splitlines()[0], f"{wanted} (verified)")
            answer = Programs(REAL).run(["solve", "--format", "wcsp"], text).text
            bar = Programs(REAL).run(["upgrade", "--format", "wcsp"], text).text.split()[2]
            cost = next(line for line in answer.splitlines() if line.startswith("cost ")).split()[1]
            self.assertEqual(int(cost) < int(bar), top == 121)

    @unittest.skipUnless(REAL, "no built program")
    def test_a_cut_with_a_certificate_is_verified(self):
        status, told, _ = self.front("solve", "--json", "--method", "cut", str(PROBLEMS / "pair.dcop"), program=REAL)
        answer = json.loads(told)
        self.assertEqual((status, answer["method"], answer["cost"], answer["verified"]), (0, "cut", 2, True))

    @unittest.skipUnless(REAL, "no built program")
    def test_the_real_program(self):
        for name, cost in (("timetable", 1), ("sensors", 20), ("campus", 3), ("crowded", 0)):
            status, told, _ = self.front("solve", "--json", str(PROBLEMS / f"{name}.dcop"), program=REAL)
            self.assertEqual((name, status, json.loads(told)["cost"]), (name, 0, cost))
        if HAS_YAML:
            status, told, _ = self.front("solve", str(EXAMPLES / "colouring.yaml"), program=REAL)
            self.assertEqual((status, told.splitlines()[0]), (0, "cost -0.1, and none is better (verified)"))
        status, told, _ = self.front("meetings", str(EXAMPLES / "meetings.csv"), program=REAL)
        self.assertEqual((status, told.splitlines()[0]), (0, "cost 0, and none is better (verified)"))


    @unittest.skipUnless(REAL, "no built program")
    def test_the_real_program_s_answer_at_any_time_is_within_its_bounds(self):
        draw = random.Random(1)
        variables = "".join(f"var v{i} 6\n" for i in range(15))
        cells = {pair: [draw.randrange(100) for _ in range(36)] for pair in itertools.combinations(range(15), 2)}
        tables = "".join(f"table v{a} v{b} : {' '.join(map(str, costs))}\n" for (a, b), costs in cells.items())
        file = self.file("wide.dcop", f"dcop 1\n{variables}{tables}end\n")
        status, told, _ = self.front("solve", "--json", "--method", "adopt", "--time", "1s", file, program=REAL)
        answer = json.loads(told)
        values = [int(answer["values"][f"v{i}"]) for i in range(15)]
        cost = sum(costs[6 * values[a] + values[b]] for (a, b), costs in cells.items())
        self.assertEqual((status, answer["stopped"], answer["cost"], answer["upper"]), (1, "the time is over", cost, cost))
        self.assertLessEqual(answer["lower"], cost)


class Documents(unittest.TestCase):
    def programs(self) -> dict[str, str]:
        built = {"dcop": REAL, "dcop_order": ORDER, "dcop_search": SEARCH, "dcop_trace": TRACE}
        return {name: path for name, path in built.items() if path}

    @unittest.skipUnless(REAL and ORDER, "no built programs")
    def test_the_answers_of_the_documents(self):
        for document in documents.DOCUMENTS:
            with self.subTest(document):
                differ, _ = documents.run(document, self.programs())
                self.assertEqual(differ, [])

    def test_the_tutorial_writes_the_file_that_the_guide_reads(self):
        self.assertIn("slot,Mon 9,", documents.written(documents.TUTORIAL)["week.csv"])


class Translating(Case):
    def test_every_assignment_costs_what_it_did(self):
        source = Source(
            "max",
            ["a b", "a,b"],
            [["x", "y z"], [1.5, 2, True]],
            [
                Constraint("one", (0,), [Fraction(1, 4), Fraction(-1, 2)]),
                Constraint("two", (0, 1), [Fraction(c) for c in (3, -1, 2, 0, 5, 1)]),
            ],
        )
        told = translate(source)
        for a, b in itertools.product(range(2), range(3)):
            own = source.constraints[0].costs[a] + source.constraints[1].costs[3 * a + b]
            self.assertEqual((told.own_cost(told.problem.cost([a, b])), told.own_sum([a, b])), (own, own))
        self.assertEqual(parse(told.problem.text()).tables, told.problem.tables)

    def test_what_is_forbidden_costs_more_than_all_else(self):
        for goal in ("min", "max"):
            cells = [Fraction(9), None, None, Fraction(4)]
            source = Source(goal, ["a", "b"], [[0, 1], [0, 1]], [Constraint("c", (0, 1), cells)])
            told = translate(source)
            kept = [told.problem.cost([i, i]) for i in range(2)]
            lost = [told.problem.cost([i, 1 - i]) for i in range(2)]
            self.assertTrue(max(kept) < min(lost) if goal == "min" else min(kept) > max(lost))
            self.assertEqual([told.own_cost(cost) for cost in kept], [9, 4])
            self.assertEqual(told.broken([0, 1]), ["c"])
            self.assertEqual(told.broken([1, 1]), [])

    def test_forbidden_values_are_left_out(self):
        source = Source("min", ["a"], [["x", "y"]], [Constraint("c", (0,), [None, Fraction(1)])])
        self.assertEqual(translate(source).values, [["y"]])
        source.constraints[0].costs[1] = None
        with self.assertRaisesRegex(Trouble, "every value of a is forbidden"):
            translate(source)

    @unittest.skipUnless(HAS_YAML, "no PyYAML")
    def test_what_cannot_be_told_exactly_is_told_as_such(self):
        text = "domains: {d: {values: [0 .. 2]}}\nvariables: {x: {domain: d, noise_level: 0.1}, y: {domain: d}}\n"
        text += "constraints: {c: {type: intention, function: sqrt(x + y + 1) / 3}, e: {type: intention, function: sqrt(x * y)}}\n"
        told = translate(pydcop.read(text, "file"))
        sums = [told.own_sum([x, y]) for x, y in itertools.product(range(3), repeat=2)]
        self.assertEqual([float(it) for it in sums[:2]], [1 / 3, 2**0.5 / 3])
        self.assertEqual((told.rounded, told.slack), (True, Fraction(2, 10**6)))
        lower, upper = told.own_bounds(min(totals := [told.problem.cost([x, y]) for x in range(3) for y in range(3)]), max(totals))
        self.assertTrue(lower <= min(sums) and max(sums) <= upper)
        file = self.file("p.yaml", text)
        status, told, _ = self.front("solve", file)
        first, second = told.splitlines()[:2]
        self.assertEqual((status, first), (0, f"cost {1 / 3}, and none is better by more than 2e-06, to which costs are rounded (verified)"))
        self.assertIn("the noise of x is ignored", second)

    def test_that_no_assignment_keeps_all_is_known_by_a_bound(self):
        for goal in ("min", "max"):
            clash = [None, Fraction(0), Fraction(0), None]
            pairs = [Constraint(f"{a}{b}", (a, b), list(clash)) for a, b in ((0, 1), (1, 2), (0, 2))]
            soft = Constraint("soft", (0,), [Fraction(4), Fraction(7)])
            told = translate(Source(goal, ["a", "b", "c"], [[0, 1]] * 3, [*pairs, soft]))
            sums = [told.problem.cost(list(choice)) for choice in itertools.product(range(2), repeat=3)]
            best = min(sums) if goal == "min" else max(sums)
            self.assertEqual((told.none_keeps(best), told.fewest_broken(best)), (True, 1))
            told = translate(Source(goal, ["a", "b", "c"], [[0, 1]] * 3, [*pairs[1:], soft]))
            sums = [told.problem.cost(list(choice)) for choice in itertools.product(range(2), repeat=3)]
            self.assertFalse(told.none_keeps(min(sums) if goal == "min" else max(sums)))

    def test_formulas_know_no_python(self):
        self.assertEqual(Formula("1 if a == b else 0", "f").value({"a": 1, "b": 2}), 0)
        self.assertEqual(Formula("if a > 1:\n  return abs(a - b)\nreturn 0", "f").value({"a": 3, "b": 5}), 2)
        for bad in ("__import__('os').system('true')", "a.real", "9 ** 999999", "[0 for x in a]", "'a' * 10 ** 9"):
            with self.assertRaises(Trouble, msg=bad):
                Formula(bad, "f").value({"a": 1})

    def test_a_wcsp_comes_back(self):
        problem = parse((PROBLEMS / "pair.dcop").read_text())
        back = translate(wcsp.read_wcsp(wcsp.write_wcsp(problem), "pair"))
        for choice in itertools.product(range(2), repeat=2):
            self.assertEqual(back.own_cost(back.problem.cost(list(choice))), problem.cost(list(choice)))

    def test_a_wcsp_s_top_is_told_beside_its_problem(self):
        status, told, _ = self.front("from", "wcsp", self.file("torn.wcsp", TORN))
        self.assertEqual((status, told.splitlines()[1]), (0, "# a solution's own cost is below the top 100"))
        self.assertEqual(parse(told).cost([0, 0, 0]), 120)

    def test_wcsp_faults_are_told(self):
        head = "w 2 2 1 100\n2 2\n"
        for text, why in (
            (head + "1 0 0 1\n1 -5\n", "line 4: -5 is not a whole number from 0 up"),
            (head + "1 0 -3 0\n", "line 3: -3 is not a whole number from 0 up"),
            (head + "1 0 0 1\n1 1_0\n", "line 4: 1_0 is not a whole number"),
            (head + "1 -1 0 0\n", "line 3: -1 is not a whole number"),
            (head + "1 2 0 0\n", "function 1 names a variable that does not exist"),
            (head + "2 1 1 0 0\n", "or names a variable twice"),
            (head + "1 0 0 1\n2 5\n", "function 1 names value 2 of variable 0, which has no such value"),
            (head + "1 0 0 1\n", "ends too early"),
        ):
            with self.assertRaisesRegex(Trouble, why):
                wcsp.read_wcsp(text, "file")
        with self.assertRaisesRegex(Trouble, "every value of v0 is forbidden, the last by function 1, so there is no solution"):
            translate(wcsp.read_wcsp(head + "1 0 100 0\n", "file"))

    @unittest.skipUnless(HAS_YAML, "no PyYAML")
    def test_pydcop_faults_are_told(self):
        head = "domains: {d: {values: [1, 2]}}\nvariables: {x: {domain: d}}\n"
        for text, why in (
            ("x: [", "is not YAML"),
            ("domains: {}", "no `variables`"),
            (head + "objective: best", "it must be min or max"),
            ("variables: [x]", "variables: lines `NAME: ..`"),
            ("variables: {x: }", "the variable x has the domain None, which"),
            (head + "constraints: {c: {type: extensional, variables: x, values: [1]}}", "c: its values must be lines"),
            (head + "constraints: {c: {function: 'sum(i for i in x)'}}", "c: `x` is not a list"),
            (head + "constraints: {c: {function: 'max([x], key=lambda i: i)'}}", "may not have `lambda i: i`"),
            (head + "constraints: {c: {type: intention, function: x + z}}", "names z"),
            (head + "constraints: {c: {type: extensional, variables: x, values: {1: 5}}}", "5 is not a value of x"),
            (head + "constraints: {c: {type: intention, function: .inf * -1 if x else 0}}", "can't be read"),
            (head + "constraints: {c: {function: '[1, 2][x]'}}", "c: the formula fails at x = 2 .IndexError"),
            (head + "constraints: {c: {type: extensional, variables: [x], values: {1: \"'1\"}}}", "c: `'1`: No closing quotation"),
        ):
            with self.assertRaisesRegex(Trouble, why):
                pydcop.read(text, "file")

    @unittest.skipUnless(HAS_YAML, "no PyYAML")
    def test_what_pydcop_counts_as_violations_is_told(self):
        text = "domains: {d: {values: [0, 1]}}\nvariables: {x: {domain: d}, y: {domain: d}, z: {domain: d}}\nconstraints:\n"
        text += "".join(f"  {a}{b}: {{function: '10000 if {a} == {b} else 0.5'}}\n" for a, b in ("xy", "xz", "yz"))
        _, told, _ = self.front("solve", self.file("p.yaml", text))
        self.assertEqual(told.splitlines()[0], "cost 10001, and none is better (verified)")
        self.assertIn("it prints the cost 1 and violation 1", told)

    @unittest.skipUnless(HAS_YAML, "no PyYAML")
    def test_pydcop_files_cost_what_comes_of_trying_all(self):
        for path in (EXAMPLES / "colouring.yaml", *sorted((HERE / "pydcop").glob("*.yaml"))):
            file = brute_pydcop.File(path.read_text())
            status, told, _ = self.front("solve", "--json", str(path))
            answer = json.loads(told)
            self.assertEqual((path.name, status), (path.name, 0))
            self.assertAlmostEqual(answer["cost"], file.best(), 12)
            self.assertAlmostEqual(answer["cost"], file.total(answer["values"]), 12)
            cost, violations = file.printed(answer["values"])
            if violations:
                self.assertIn(f"it prints the cost {cost:g} and violation {violations}", answer["note"])
            else:
                self.assertAlmostEqual(answer["cost"], cost, 12)

    @unittest.skipUnless(HAS_YAML, "no PyYAML")
    def test_costs_that_a_pydcop_file_leaves_out_are_told(self):
        text = "domains: {d: {values: [1, 2]}}\nvariables: {x: {domain: d}, y: {domain: d}}\n"
        text += "constraints: {c: {type: extensional, variables: [x, y], values: {3: 1 2 | 2 1}}}\n"
        self.assertIn("note: c: there is no `default`", self.front("solve", self.file("p.yaml", text))[1])

    def test_uai_factors_become_costs(self):
        source = wcsp.read_uai("MARKOV 1 2 1 1 0 2 0.5 1.0", "file")
        self.assertEqual(source.constraints[0].costs[1], 0)
        for text, why in (("MARKOV 1 2 1 1 7 2 1 1", "does not exist"), ("MARKOV 1 2 1 1 0 2 1", "ends too early")):
            with self.assertRaisesRegex(Trouble, why):
                wcsp.read_uai(text, "file")


class Telling(Case):
    def test_refusals_are_explained(self):
        for text, answer, why in (
            ("dcop 1\nvar a,b 2\n", "refused text line 2 kind 2", "comma"),
            ("dcop 1\nvar 1a 2\n", "refused text line 2 kind 2", "begins with `1`"),
            ("dcop 2\nvar a 2\ntable a: 1 2\n", "refused text line 3 kind 2", "both sides of the colon"),
            ("dcop 1\nvar a 2\ntable a : -1 2\n", "refused text line 3 kind 3", "negative"),
            ("dcop 1\nvar a 2\ntable a : 0.5 2\n", "refused text line 3 kind 3", "multiply"),
            ("\ufeffdcop 1\n", "refused text line 1 kind 1", "byte order mark"),
            ("dcop 1\nvar a 2\n", "refused text line 3 kind 6", "`end` is missing"),
            ("", "refused text line 1 kind 6", "The file is empty"),
            ("dcop 2\nVar a 2\n", "refused text line 2 kind 2", "small letters"),
            ("dcop 2\nrow a 2\n", "refused text line 2 kind 2", ", not with `row`"),
            ("dcop 1\nvar a : x y\n", "refused text line 2 kind 2", "for `dcop 2`"),
            ("dcop 2\nvar a 2\ntable a : +1 2\n", "refused text line 3 kind 3", "Leave out the sign of `+1`"),
            ("dcop 2\nvar a 2\ntable a : 1 12345678901234567890\n", "refused text line 3 kind 3", "too long"),
            ("dcop 1\nvar a 2\ntable a : 1\n", "refused text line 3 kind 7 problem 6", "has 1 costs and needs 2"),
            ("dcop 1\nvar a 2\ntable A : 1 1\n", "refused text line 3 kind 4", "capital letters"),
        ):
            self.assertIn(why, explain(answer, text))
        self.assertIn("order of the `var` lines", explain("refused wide agent a cells 2097152 limit 1048576"))
        self.assertIn("`0`", explain("refused words at 3 kind 7", words=["solve", "--workers", "0"]))
        why = explain("refused many turns 1185921 limit 65536")
        for part in ("1,185,921 turns", "larger `--cells`", "dcop_order", "adopt"):
            self.assertIn(part, why)
        self.assertIn("one turn of cut", explain("refused wide total cells 5000000 limit 4194304"))
        self.assertIn("without a certificate", explain("refused wide total cells 5000000 limit 4194304"))
        self.assertIn("build it again", explain("refused words at 1 kind 10"))

    def test_a_wcsp_is_explained_by_its_own_lines(self):
        good, bad = self.file("good.wcsp", TORN), self.file("bad.wcsp", TORN.replace("1 1 60", "1 1 -60", 1))
        why = "Line 5: `1 1 -60`\nThe WCSP is refused: a whole number from 0 up was expected.\n"
        for program in (FAKE, *([REAL] if REAL else [])):
            self.assertEqual(self.front("explain", bad, program=program)[:2], (3, why))
            self.assertEqual(self.front("explain", good, program=program)[:2], (0, "dcop takes this file.\n"))
        answer = self.file("answer", "refused wcsp line 2 kind 1\n")
        for file in (good, bad):
            self.assertEqual(self.front("explain", file, answer)[1].splitlines()[0], "Line 2: `2 2 2`")
        with mock.patch("sefwllon.programs.found", return_value=None):
            self.assertEqual(self.front("explain", good, answer)[1].splitlines()[0], "Line 2: `2 2 2`")
            status, told, said = self.front("explain", bad)
            self.assertEqual((status, told), (3, ""))
            self.assertIn("line 5: -60 is not a whole number from 0 up", said)
            self.assertIn("dcop is not built", self.front("explain", good)[2])

    def test_pictures_are_svg(self):
        status, told, _ = self.front("draw", "graph", str(PROBLEMS / "tracking.dcop"))
        self.assertEqual(status, 0)
        picture = minidom.parseString(told)
        self.assertEqual(len(picture.getElementsByTagName("ellipse")), 6)

    def test_names_stay_within_their_ellipses(self):
        long = "A_name_of_thirty_letters_or_so"
        problem = parse(f"dcop 1\nvar Programme 2\nvar {long} 2\ntable Programme {long} : 1 2 3 4\nend\n")
        nodes = [Node("Programme", None), Node(long, "Programme", ["Programme"])]
        own = {v.name: v.name for v in problem.variables}
        for told in (draw.graph(problem, list(own), ["", ""]), draw.tree(problem, nodes, own)):
            picture = minidom.parseString(told)
            half = min(float(it.getAttribute("rx")) for it in picture.getElementsByTagName("ellipse"))
            names = [it.firstChild.data for it in picture.getElementsByTagName("text") if it.getAttribute("class") == "name"]
            self.assertEqual(names, ["Programme", long[:19] + "\N{HORIZONTAL ELLIPSIS}"])
            self.assertTrue(all(8 * len(name) <= 2 * half for name in names))

    def test_bounds_are_drawn_from_a_log(self):
        pair = str(PROBLEMS / "pair.dcop")
        report = self.file("report", "")
        status, _, _ = self.front("solve", pair, "--method", "adopt", "--report", report, fake="logs")
        self.assertEqual(status, 0)
        status, told, _ = self.front("draw", pair, report, fake="logs")
        picture = minidom.parseString(told)
        steps = [way for way in picture.getElementsByTagName("path") if "V" in way.getAttribute("d")]
        counts = {way.getAttribute("class"): way.getAttribute("d").count("V") for way in steps}
        self.assertEqual((status, counts), (0, {"lower": 8, "upper": 6}))
        status, _, why = self.front("draw", "bounds", pair, report, fake="logs stuck")
        self.assertEqual(status, 3)
        self.assertIn("event 3 takes 3 messages from y, but only 1 is there", why)
        status, _, why = self.front("draw", pair, report, fake="")
        self.assertIn("is too old for the picture of a log", why)

    def test_moments_are_those_at_which_bounds_change(self):
        report = "status solved\nmethod adopt\nerror 0\ndeliveries 20\ncost 2\nlower 2\nupper 2\nvalue x 1\nvalue y 0\n"
        report += "certificate log\n" + "".join(f"event {'xy'[i % 2]} {i} {'yx'[i % 2]} {i}\n" for i in range(1, 9)) + "end\n"
        kept = dict(os.environ)
        os.environ.update(FAKE="logs", SEFWLLON_TRACE="")
        try:
            problem = parse((PROBLEMS / "pair.dcop").read_text())
            found = replaying.moments(Programs(FAKE), problem, report)
        finally:
            os.environ.clear()
            os.environ.update(kept)
        self.assertEqual([m.deliveries for m in found][:4], [0, 3, 6, 10])
        self.assertEqual([(m.lower, m.upper) for m in found if m.events in (2, 3, 8)], [(0, None), (0, 7), (2, 2)])

    @unittest.skipUnless(REAL, "no built program")
    def test_the_real_program_replays_a_log_to_its_report(self):
        for name, goal in (("tracking", "min"), ("sensors", "max")):
            file = str(PROBLEMS / f"{name}.dcop")
            report = self.file("report", "")
            self.front("solve", file, "--method", "adopt", "--report", report, program=REAL)
            text, problem = Path(report).read_text(), parse(Path(file).read_text())
            told = read_report(text, problem)
            try:
                found = replaying.moments(Programs(REAL), problem, text)
            except Trouble as trouble:
                self.assertIn("is too old for the picture of a log", str(trouble))
                continue
            last = found[-1]
            self.assertEqual((goal, last.deliveries), (problem.goal, told.deliveries))
            self.assertEqual((last.lower, last.upper), (told.lower, told.upper))
            for before, after in zip(found, found[1:]):
                self.assertTrue(before.lower is None or before.lower <= after.lower)
                self.assertTrue(before.upper is None or before.upper >= after.upper)
            self.assertEqual(self.front("draw", file, report, program=REAL)[0], 0)

    def test_a_timetable_is_drawn(self):
        picture = self.file("week.svg", "")
        status, _, _ = self.front("meetings", str(EXAMPLES / "meetings.csv"), "--svg", picture)
        words = [it.firstChild.data for it in minidom.parse(picture).getElementsByTagName("text")]
        self.assertEqual((status, words.count("standup"), words.count("Mon 9")), (0, 3, 1))
        self.assertIn("2026-03-03 10:00\N{EN DASH}11:30", words)

    def test_an_assignment_costs_what_dcop_says(self):
        status, told, _ = self.front("cost", str(PROBLEMS / "pair.dcop"), "x=0", "y=1")
        self.assertEqual((status, told), (0, "cost 3\n"))
        status, _, why = self.front("cost", str(PROBLEMS / "pair.dcop"), "x=0")
        self.assertEqual(status, 3)
        self.assertIn("no value for y", why)

    def test_how_far_a_cost_is_from_the_best(self):
        pair, report = str(PROBLEMS / "pair.dcop"), self.file("report", "")
        self.front("solve", pair, "--report", report)
        _, told, _ = self.front("cost", pair, "x=0", "y=1", "--bound", "1.5", "--report", report)
        self.assertEqual(told, "cost 3\n1.5 from the bound 1.5\nat most 1 from the best (verified)\n")

    def test_a_check_is_told_in_a_sentence(self):
        pair, report = str(PROBLEMS / "pair.dcop"), self.file("report", "")
        self.front("solve", pair, "--report", report)
        self.assertEqual(self.front("check", pair, report)[:2], (0, "yes, verified: cost 2, and none is better\n"))
        status, told, _ = self.front("check", pair, report, fake="forges")
        self.assertEqual((status, told), (1, "no: the report says `cost 1`, but 2 is right (`differs cost left 1 right 2`)\n"))
        self.assertIn("costs at least 2, but with value 0 it costs 1", differs("status no\ndiffers cell d 0 0 left 2 right 1\nend\n"))
        self.assertIn("in turn 3 the table of d", differs("differs turn 3 scope d"))
        why = explain("refused report line 5 kind 8", "dcop 1\nvar x 2\nend\nstatus solved\nvalue x 2\n")
        self.assertEqual(why, "The report's line 2: `value x 2`\nThe report is refused: a value is not one of its variable's values.")

    def test_a_report_in_another_order_is_checked(self):
        pair, report = str(PROBLEMS / "pair.dcop"), self.file("report", "")
        other = self.file("other.dcop", "dcop 1\nvar y 2\nvar x 2\ntable x y : 5 3 2 7\nend\n")
        self.front("solve", other, "--report", report)
        self.assertEqual(self.front("check", pair, report)[0], 0)

    def test_a_fault_is_told_by_the_file_s_own_line(self):
        for text, line in (
            ("dcop 1\nvar a 2\n\n# c\ntable a : 1_0 2\nend\n", 5),
            ("dcop 1\nvar a 2\nend\n# d\nmore\n", 5),
        ):
            status, _, why = self.front("solve", self.file("p.dcop", text))
            self.assertEqual(status, 3)
            self.assertIn(f"line {line}", why.lower())

    @unittest.skipUnless(REAL, "no built program")
    def test_a_fault_that_dcop_alone_knows_is_told_by_the_file_s_own_line(self):
        text = "# a\ndcop 1\n\nvar a 2 # b\nvar a 2\nend\n"
        status, _, why = self.front("solve", self.file("p.dcop", text), program=REAL)
        self.assertEqual(status, 3)
        self.assertIn("Line 5: `var a 2`\nThe name is already taken", why)

    def test_times_are_read(self):
        for words in (("--workers", "65"), ("--workers", "0"), ("--error", "-1"), ("--workers", "²")):
            with redirect_stderr(io.StringIO()), self.assertRaises(SystemExit):
                main(["solve", "x.dcop", *words])
        self.assertEqual([seconds(word) for word in ("30s", "500ms", "2m", "7")], [30, 0.5, 120, 7])
