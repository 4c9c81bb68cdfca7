"""Tests of the chain of ways, of what is kept of an answer, and of what an answer rests on."""

from __future__ import annotations

import io
import itertools
import json
import os
import random
import signal
import subprocess
import sys
import threading
import time
import unittest
from pathlib import Path
from unittest import mock

from sefwllon import solving
from sefwllon.best import Best
from sefwllon.bettering import Bettering
from sefwllon.cli import main
from sefwllon.problem import Problem, Trouble, parse
from sefwllon.programs import Programs
from sefwllon.report import certified, printed, read_report
from sefwllon.searching import read_found
from sefwllon.solving import Solver

from .case import EXAMPLES, FAKE, FAKE_SEARCH, FRONT, ORDER, PAIR, PROBLEMS, REAL, SEARCH, Case

CHAIN = ["dpop", "order, 20,000 tries", "search, 100,000 nodes", "search, 1,000,000 nodes", "order, 200,000 tries", "search, 10,000,000 nodes"]
TURNED = "dcop 2\ngoal max\nvar x : off on\nvar y 2\ntable x y : 5 4 2 7\ntable x : 1 0\nend\n"
"""A problem with a greatest sum, 7 at x = on and y = 1, which is not that of its tables' greatest costs."""
HARD = "dcop 2\n" + "".join(f"var {name} 2\n" for name in "abcd") + "".join(
    f"table {a} {b} : 9 0 0 9\ntable {a} {b} : 1 3 2 0\n" for a, b in itertools.combinations("abcd", 2)
) + "end\n"


def drawn(seed: int, goal: str = "min") -> Problem:
    """A small problem from a number."""
    draw = random.Random(seed)
    names = "abcde"[: draw.randrange(2, 6)]
    lines = ["dcop 2", f"goal {goal}", *(f"var {name} {draw.randrange(1, 4)}" for name in names)]
    sizes = {line.split()[1]: int(line.split()[2]) for line in lines[2:]}
    for a, b in itertools.combinations(names, 2):
        if draw.randrange(3):
            lines.append(f"table {a} {b} : {' '.join(str(draw.randrange(20)) for _ in range(sizes[a] * sizes[b]))}")
    lines += [f"table {names[0]} : {' '.join(str(draw.randrange(9)) for _ in range(sizes[names[0]]))}", "end"]
    return parse("\n".join(lines) + "\n")


def optimum(problem: Problem) -> int:
    """The best sum, by trying all assignments."""
    sums = [problem.cost(list(choice)) for choice in itertools.product(*(range(v.size) for v in problem.variables))]
    return min(sums) if problem.goal == "min" else max(sums)


class Chain(Case):
    def solved(self, *words: str, **more: str) -> dict[str, object]:
        """What `solve --json` tells of the pair, where DPOP does not fit."""
        status, told, why = self.front("solve", "--json", self.file("p.dcop", PAIR), *words, **{"fake": "wide", "search": FAKE_SEARCH, **more})
        self.assertNotEqual(told, "", why)
        return {"status": status, **json.loads(told)}

    def test_the_ways_stand_in_one_order_whatever_the_time(self):
        for until in (None, time.monotonic() + 600):
            told: list[str] = []
            with mock.patch.dict(os.environ, FAKE="wide", FAKE_SEARCH="spends"):
                Solver(Programs(FAKE, FAKE, FAKE_SEARCH), parse(PAIR), until=until, tell=lambda what, best: told.append(what)).solve()
            self.assertEqual([it for it in told if it.startswith("search")], [it for it in CHAIN if it.startswith("search")])
            self.assertEqual(told[:3], CHAIN[:3])
            self.assertLessEqual(set(told), set(CHAIN))

    def test_more_time_only_goes_further(self):
        seen = []
        for words in (("--time", "3s"), ("--time", "60s"), ()):
            calls = self.file("calls", "")
            self.solved(*words, FAKE_SEARCH="spends", FAKE_CALLS=calls, SEFWLLON_ORDER="")
            seen.append(Path(calls).read_text().splitlines())
        self.assertEqual(seen[1], seen[2])
        self.assertEqual(seen[0], seen[1][: len(seen[0])])

    def test_orders_are_tried_more_as_time_goes_on(self):
        calls = self.file("calls", "")
        self.solved(FAKE_SEARCH="spends", FAKE_CALLS=calls, SEFWLLON_ORDER=FAKE)
        tries = [line for line in Path(calls).read_text().splitlines() if line.startswith("--tries")]
        self.assertEqual(tries[0], "--tries 20000")
        with mock.patch("sefwllon.solving.TRIES", (5, 6)):
            calls = self.file("calls", "")
            status, _, why = self.front("solve", "--method", "order", self.file("p.dcop", PAIR), fake="wide", order=FAKE, FAKE_CALLS=calls)
        self.assertEqual((status, "DPOP would need a table" in why), (3, True))
        self.assertEqual([line for line in Path(calls).read_text().splitlines() if line.startswith("--tries")], ["--tries 5", "--tries 6"])

    def test_the_best_known_sum_is_handed_on(self):
        calls = self.file("calls", "")
        answer = self.solved(FAKE_CALLS=calls)
        self.assertEqual((answer["status"], answer["method"], answer["cost"], answer["rests_on"]), (0, "search", 3, "proved"))
        self.assertIn("--budget 100000 --better 3\n", Path(calls).read_text())

    def test_what_an_answer_rests_on_is_one_word(self):
        pair, known = self.file("p.dcop", PAIR), self.file("q.dcop", (PROBLEMS / "pair.dcop").read_text())
        for file, fake, words, wanted in (
            (pair, "", (), "cost 3, and none is better (verified)"),
            (pair, "", ("--method", "plain"), "cost 3, and none is better (proved)"),
            (pair, "", ("--certificate", "no"), "cost 3, and none is better (proved)"),
            (pair, "wide", (), "cost 3, and none is better (proved)"),
            (pair, "wide", ("--method", "search"), "cost 3, and none is better (proved)"),
            (known, "wide", (), "cost 2, and none is better (added up)"),
        ):
            status, told, _ = self.front("solve", file, *words, fake=fake, search=FAKE_SEARCH)
            self.assertEqual((status, told.splitlines()[0]), (0, wanted))
        status, told, _ = self.front("solve", pair, "--time", "1s", fake="slow", search=FAKE_SEARCH)
        self.assertEqual((status, told.splitlines()[0]), (1, "cost 3, at most 1 from the best, 33.3 % of it (added up)"))

    def test_a_greatest_sum_is_searched_too(self):
        turned = self.file("p.dcop", TURNED)
        status, told, _ = self.front("solve", "--json", turned, fake="wide", search=FAKE_SEARCH)
        answer = json.loads(told)
        self.assertEqual((status, answer["cost"], answer["upper"], answer["values"]), (0, 7, 7, {"x": "on", "y": "1"}))

    def test_each_answer_is_the_best_of_all_assignments(self):
        for seed in range(6):
            for goal in ("min", "max"):
                problem, report = drawn(seed, goal), self.file("report", "")
                file = self.file("p.dcop", problem.text())
                status, told, _ = self.front("solve", "--json", file, "--report", report, fake="wide", search=FAKE_SEARCH)
                answer = json.loads(told)
                values = [int(value) for value in answer["values"].values()]
                self.assertEqual((status, answer["cost"], answer["solved"]), (0, optimum(problem), True), problem.text())
                self.assertEqual(problem.cost(values), answer["cost"])

    @unittest.skipUnless(REAL and SEARCH, "no built dcop_search")
    def test_the_real_search_s_answers_are_the_best_of_all_assignments(self):
        for seed in range(100, 120):
            for goal in ("min", "max"):
                problem = drawn(seed, goal)
                best = Solver(Programs(REAL, None, SEARCH), problem, method="search").solve()
                self.assertEqual((best.solved, best.cost, best.gap(goal)), (True, optimum(problem), 0), problem.text())
                for error in (1, 5):
                    solver = Solver(Programs(REAL, None, SEARCH), problem, aim=solving.Aim(error), method="search")
                    self.assertLessEqual(abs(solver.solve().cost - optimum(problem)), error)

    @unittest.skipUnless(REAL and ORDER and SEARCH, "no built programs")
    def test_the_real_chain_closes_in_on_a_problem_that_is_too_wide_for_dpop(self):
        draw = random.Random(2)
        pairs = [pair for pair in itertools.combinations(range(20), 2) if draw.randrange(100) < 60]
        lines = ["dcop 2", *(f"var v{i} 8" for i in range(20))]
        lines += [f"table v{a} v{b} : {' '.join(str(draw.randrange(100)) for _ in range(64))}" for a, b in pairs]
        file, report = self.file("p.dcop", "\n".join([*lines, "end"]) + "\n"), self.file("report", "")
        words = ("solve", "--json", "--time", "50s", "--gap", "30%", "--report", report, file)
        status, told, _ = self.front(*words, program=REAL, order=ORDER, search=SEARCH)
        answer, problem = json.loads(told), parse(Path(file).read_text())
        self.assertEqual((status, answer["solved"], answer["rests_on"], answer["method"]), (0, True, "proved", "search"))
        self.assertEqual(answer["cost"], problem.cost([int(value) for value in answer["values"].values()]))
        self.assertLessEqual(answer["upper"], 1.43 * answer["lower"])
        self.assertGreaterEqual(len(answer["bounds"]), 2)
        status, told, _ = self.front("check", file, report, "--time", "50s", program=REAL, order=ORDER, search=SEARCH)
        self.assertEqual((status, told.split(":")[0]), (0, "yes, proved"))

    def test_an_answer_within_the_gap_is_enough(self):
        draw = random.Random(5)
        cells = {pair: [draw.randrange(100) for _ in range(9)] for pair in itertools.combinations("abcdef", 2)}
        text = "dcop 2\n" + "".join(f"var {name} 3\n" for name in "abcdef")
        text += "".join(f"table {a} {b} : {' '.join(map(str, costs))}\n" for (a, b), costs in cells.items()) + "end\n"
        problem = parse(text)
        for part, wanted in (("0.01%", False), ("95%", True)):
            calls = self.file("calls", "")
            words = ("solve", "--json", "--gap", part, self.file("p.dcop", text))
            status, told, _ = self.front(*words, fake="wide", search=FAKE_SEARCH, FAKE_SEARCH="spends", FAKE_CALLS=calls)
            answer = json.loads(told)
            self.assertEqual((status, answer["solved"]), (0, True))
            early = not any(line.startswith("--budget 10000000 ") for line in Path(calls).read_text().splitlines())
            self.assertEqual(early, wanted)
            self.assertLessEqual(answer["cost"] - answer["lower"], answer["cost"] * float(part[:-1]) / 100)
            self.assertLessEqual(answer["lower"], optimum(problem))

    def test_the_gap_and_the_error_are_handed_on(self):
        calls = self.file("calls", "")
        self.solved("--error", "2", FAKE_CALLS=calls)
        self.assertNotIn("--budget", Path(calls).read_text())  # 3 is within 2 of the least that the tables can cost
        for words, wanted in ((("--gap", "20%"), "--error 2"), (("--error", "5"), "--error 5")):
            calls, file = self.file("calls", ""), self.file("p.dcop", HARD)
            self.front("solve", file, *words, fake="wide", search=FAKE_SEARCH, FAKE_CALLS=calls)
            least = sum(min(table.costs) for table in parse(HARD).tables)
            self.assertIn(f"--error {int(0.2 * least)}" if words[0] == "--gap" and least else wanted if words[0] == "--error" else "--better", Path(calls).read_text())

    def test_the_options_that_a_message_advises_are_there(self):
        for words, wanted in (
            (("--method", "cut", "--cells", "2048"), "solve --method cut --cells 2048 --certificate yes"),
            (("--method", "cut", "--cells", "2048", "--certificate", "no"), "solve --method cut --cells 2048"),
            (("--method", "search", "--cells", "2048"), "--budget 100000 --better 3 --cells 2048"),
        ):
            calls = self.file("calls", "")
            self.solved(*words, fake="", FAKE_CALLS=calls)
            self.assertIn(wanted, Path(calls).read_text().splitlines())

    def test_without_the_search_the_chain_says_so_and_goes_on(self):
        answer = self.solved(search="", fake="wide spends")
        self.assertEqual((answer["status"], answer["method"], answer["cost"]), (0, "cut", 3))
        self.assertIn("dcop_search is not built", answer["note"])
        self.assertIn("SEFWLLON_SEARCH", answer["note"])
        status, _, why = self.front("solve", "--method", "search", self.file("p.dcop", PAIR))
        self.assertEqual((status, "the program dcop_search is not built" in why), (3, True))

    def test_a_budget_that_is_spent_is_said(self):
        with mock.patch("sefwllon.solving.LAST_NODES", 10**5):
            answer = self.solved(FAKE_SEARCH="spends")
            self.assertEqual((answer["status"], answer["solved"], answer["lower"], answer["upper"]), (1, False, 2, 3))
            self.assertRegex(str(answer["stopped"]), "^the budget of 100,000 nodes is spent; to search longer give it --time")
        with mock.patch("sefwllon.solving.MESSAGES", (1_000,)):
            _, told, _ = self.front("solve", "--method", "adopt", self.file("p.dcop", PAIR), fake="spends")
            self.assertIn("\nstopped: the budget of 1,000 messages is spent\n", told)

    def test_the_text_tells_method_time_and_nodes_or_messages(self):
        pair = self.file("p.dcop", PAIR)
        self.assertRegex(self.front("solve", pair)[1], r"\nby dpop in \d+\.\d s, 2 messages\n")
        self.assertRegex(self.front("solve", pair, fake="wide", search=FAKE_SEARCH)[1], r"\nby search in \d+\.\d s, 1,000 nodes\n")
        self.assertRegex(self.front("meetings", str(EXAMPLES / "meetings.csv"))[1], r"\nby dpop in \d+\.\d s, \d+ messages\n$")

    def test_json_has_the_time_the_versions_and_the_bounds_over_time(self):
        pair, report = self.file("p.dcop", PAIR), self.file("report", "")
        self.front("solve", pair, "--report", report, fake="wide", search=FAKE_SEARCH)
        week = str(EXAMPLES / "meetings.csv")
        for words in (("solve", pair), ("meetings", week), ("check", pair, report), ("cost", pair, "x=1", "y=0", "--report", report), ("cost", pair, report)):
            _, told, why = self.front(words[0], "--json", *words[1:], fake="" if words[1] == week else "wide", search=FAKE_SEARCH)
            answer = json.loads(told)
            for name in ("method", "time", "messages", "nodes", "stopped", "bounds", "versions", "rests_on"):
                self.assertIn(name, answer, why)
            self.assertEqual(set(answer["versions"]), {"sefwllon", "dcop", "dcop_order", "dcop_search"})
            self.assertRegex(answer["versions"]["dcop_search"], "^sha256 [0-9a-f]{64}$")
            for before, after in itertools.pairwise(answer["bounds"]):
                self.assertLessEqual(before["time"], after["time"])
        self.assertEqual([it["lower"] for it in self.solved()["bounds"]][-1], 3)

    def test_a_terminal_is_told_how_far_it_is(self):
        class Terminal(io.StringIO):
            def isatty(self) -> bool:
                return True

        terminal = Terminal()
        with mock.patch.dict(os.environ, FAKE="wide", FAKE_SEARCH="spends", SEFWLLON_DCOP=FAKE, SEFWLLON_SEARCH=FAKE_SEARCH, COLUMNS="120"):
            with mock.patch.object(sys, "stderr", terminal), mock.patch.object(sys, "stdout", io.StringIO()):
                self.assertEqual(main(["solve", self.file("p.dcop", HARD)]), 0)
        self.assertRegex(terminal.getvalue(), r"search, 1,000,000 nodes: \d+\.\d s, [\d,]+ nodes, cost \d+, gap \d+ \(\d+ %\)")


class Programming(Case):
    def test_a_search_that_lies_is_not_believed(self):
        for lie in ("lies", "boasts", "claims"):
            fake = {"fake": "wide", "search": FAKE_SEARCH, "FAKE_SEARCH": lie}
            file = self.file("p.dcop", TURNED.replace("goal max\n", "") if lie == "lies" else PAIR)
            with mock.patch.object(Solver, "start", lambda self: None) if lie == "lies" else mock.patch.object(Solver, "tick", lambda self: None):
                status, told, why = self.front("solve", file, **fake)
            self.assertEqual((lie, status, told), (lie, 3, ""))
            self.assertIn("don't trust this program", why)
            self.assertIn(FAKE_SEARCH, why)

    def test_a_wrong_program_is_named_with_what_it_answered(self):
        pair = self.file("p.dcop", PAIR)
        for variable, place in (("SEFWLLON_DCOP", "program"), ("SEFWLLON_ORDER", "order"), ("SEFWLLON_SEARCH", "search")):
            for does, said in (
                ("echo hello", "answered `hello`"),
                ("exit 1", "answered nothing, with exit status 1"),
                ("echo refused words at 1 kind 2; exit 2", "answered `refused words at 1 kind 2`, with exit status 2"),
                ("head -c 300 /dev/zero", "answered with no text"),
            ):
                program = self.file("program", f"#!/bin/sh\n{does}\n")
                os.chmod(program, 0o755)
                named = {"program": FAKE, "order": FAKE, "search": FAKE_SEARCH, place: program}
                status, told, why = self.front("solve", pair, fake="wide", **named)
                self.assertEqual((variable, status, told), (variable, 3, ""))
                self.assertIn(f"{variable} names {program}, which {said}", why)
            for wrong in ("/nowhere/at/all", "/"):
                named = {"program": FAKE, "order": FAKE, "search": FAKE_SEARCH, place: wrong}
                status, told, why = self.front("solve", pair, fake="slow", **named)
                self.assertEqual((status, told, f"{variable} names {wrong}, which is not a program that can be run" in why), (3, "", True))

    def test_each_command_names_a_wrong_program(self):
        pair, report = self.file("p.dcop", PAIR), self.file("report", "")
        self.front("solve", pair, "--report", report)
        program = self.file("program", "#!/bin/sh\necho hello\n")
        os.chmod(program, 0o755)
        for words in (("check", pair, report), ("cost", pair, "x=0", "y=0"), ("draw", "tree", pair), ("meetings", str(EXAMPLES / "meetings.csv"))):
            status, told, why = self.front(*words, program=program)
            self.assertEqual((words, status, told), (words, 3, ""))
            self.assertIn(f"SEFWLLON_DCOP names {program}, which answered `hello`", why)

    def test_an_order_of_another_problem_is_not_taken(self):
        status, told, why = self.front("solve", self.file("p.dcop", PAIR), fake="wide drops", order=FAKE, search=FAKE_SEARCH)
        self.assertEqual((status, told), (3, ""))
        self.assertIn("that is not the problem that it was given", why)

    def test_what_was_found_is_kept_where_a_program_dies(self):
        file = self.file("p.dcop", PAIR)
        more = {"fake": "wide", "search": FAKE_SEARCH}
        _, told, _ = self.front("solve", file, **more, FAKE_SEARCH="spends dies")
        self.assertIn("stopped: dcop_search was ended by the signal 9", told)
        self.assertEqual(told.splitlines()[0], "cost 3, at most 1 from the best, 33.3 % of it (added up)")
        _, told, _ = self.front("solve", file, **more, FAKE_SEARCH="empty")
        self.assertIn("stopped: dcop_search did not have enough memory", told)
        status, told, _ = self.front("solve", file, **more, FAKE_SEARCH="full")
        self.assertEqual((status, told.splitlines()[0]), (0, "cost 3, and none is better (proved)"))
        status, told, _ = self.front("solve", file, order=FAKE, **{**more, "fake": "wide fails"})
        self.assertEqual((status, told.splitlines()[0]), (0, "cost 3, and none is better (proved)"))

    def test_answers_that_are_none_are_refused(self):
        problem = parse(PAIR)
        good = "status solved\nmethod search\nerror 0\nnodes 1\ncost 3\nlower 3\nupper 3\nvalue x 1\nvalue y 0\nend\n"
        from sefwllon.programs import Answer

        self.assertEqual(read_found(Answer(good, 0, "dcop_search"), problem, None, 0).values, [1, 0])
        for old, new, status in (
            ("status solved", "status great", 0), ("method search", "method plain", 0), ("nodes 1", "nodes many", 0), ("lower 3", "", 0),
            ("value y 0\n", "", 0), ("value y 0", "value y 2", 0), ("cost 3\n", "", 0), ("", "", 1), ("", "", 3),
        ):  # fmt: skip
            with self.assertRaises(Trouble, msg=(old, new)):
                read_found(Answer(good.replace(old, new, 1), status, "dcop_search"), problem, None, 0)


class Keeping(Case):
    def kept(self, *words: str, **more: str) -> tuple[dict[str, object], str, str]:
        """What `solve` tells of the hard problem, its file, and the report that it keeps."""
        file, report = self.file("p.dcop", HARD), self.file("report", "")
        _, told, why = self.front("solve", "--json", file, "--report", report, *words, **more)
        self.assertNotEqual(told, "", why)
        return json.loads(told), file, report

    def test_a_report_keeps_what_was_printed(self):
        with mock.patch("sefwllon.solving.MESSAGES", (1_000,)):
            answer, file, report = self.kept("--method", "adopt", fake="logs spends")
        problem, text = parse(HARD), Path(report).read_text()
        told = read_report(printed(text), problem)
        self.assertEqual([str(value) for value in told.values], list(answer["values"].values()))
        self.assertEqual((told.cost, told.lower, told.upper, told.status), (answer["cost"], answer["lower"], answer["upper"], "spent"))
        self.assertEqual((problem.cost(told.values), told.rests), (answer["cost"], "verified"))
        proof = certified(text)
        self.assertNotEqual(read_report(proof, problem).cost, answer["cost"])
        status, said, _ = self.front("check", file, report, fake="logs")
        self.assertEqual((status, said), (0, f"yes, verified: cost {answer['cost']}, at most {answer['cost'] - answer['lower']} from the best\n"))
        self.assertEqual(self.front("cost", file, report)[1], f"cost {answer['cost']}\n")
        self.assertEqual(self.front("draw", file, report, fake="logs")[0], 0)
        self.assertEqual(self.front("draw", "graph", file, report, fake="logs")[0], 0)

    def test_a_report_with_a_certificate_is_that_of_dcop(self):
        _, _, report = self.kept()
        self.assertIn("\ncertificate tables\n", Path(report).read_text())
        self.assertNotIn("\nrests ", Path(report).read_text())

    def test_a_report_without_a_certificate_is_checked_by_asking_for_a_better_one(self):
        answer, file, report = self.kept(fake="wide", search=FAKE_SEARCH)
        text = Path(report).read_text()
        self.assertIn("\nmethod search\nrests proved\nerror 0\nnodes 1000\n", text)
        more = {"fake": "wide", "search": FAKE_SEARCH}
        status, told, _ = self.front("check", file, report, **more)
        self.assertEqual((status, told.splitlines()[0]), (0, f"yes, proved: cost {answer['cost']}, and none is better"))
        best = answer["cost"]
        worse = next(list(it) for it in itertools.product(range(2), repeat=4) if parse(HARD).cost(list(it)) > best)
        cost = parse(HARD).cost(worse)
        lies = text.replace(f"cost {best}\nlower {best}\nupper {best}", f"cost {cost}\nlower {cost}\nupper {cost}")
        for name, value in zip("abcd", worse):
            lies = lies.replace(f"value {name} {answer['values'][name]}", f"value {name} {value}")
        status, told, _ = self.front("check", file, self.file("lies", lies), **more)
        self.assertEqual((status, told.splitlines()[0]), (1, f"no, added up: these values are better than the report says that any are, with cost {best}"))
        self.assertEqual(len(told.splitlines()), 6)
        with mock.patch("sefwllon.solving.LAST_NODES", 10**5):
            status, told, _ = self.front("check", file, report, **more, FAKE_SEARCH="spends")
            self.assertEqual((status, told.split(";")[0]), (4, "not decided: nothing better was found"))
            status, told, _ = self.front("check", "--json", file, report, **more, FAKE_SEARCH="spends")
            self.assertEqual((status, json.loads(told)["answer"]), (4, "not decided"))
        self.assertEqual(self.front("check", file, self.file("sums", text.replace(f"cost {best}", f"cost {best - 1}")), **more)[0], 1)
        status, told, _ = self.front("check", file, report, fake="")
        self.assertEqual((status, told.splitlines()[0]), (0, f"yes, verified: cost {best}, and none is better"))
        told = self.front("cost", file, *(f"{name}={value}" for name, value in zip("abcd", worse)), "--report", report, **more)[1]
        self.assertEqual(told, f"cost {cost}\nat most {cost - best} from the best (proved)\n")

    def test_an_answer_with_a_gap_is_checked_by_its_bound(self):
        with mock.patch("sefwllon.solving.LAST_NODES", 10**5):
            _, file, report = self.kept(fake="wide", search=FAKE_SEARCH, FAKE_SEARCH="spends")
        told = read_report(printed(Path(report).read_text()), parse(HARD))
        self.assertEqual(told.status, "spent")
        status, said, _ = self.front("check", file, report, fake="wide", search=FAKE_SEARCH)
        self.assertEqual((status, said.splitlines()[0]), (0, f"yes, added up: cost {told.cost}, at most {told.cost - told.lower} from the best"))
        boast = Path(report).read_text().replace(f"\nlower {told.lower}\n", f"\nlower {told.cost + 1}\n")
        status, said, _ = self.front("check", file, self.file("boast", boast), fake="wide", search=FAKE_SEARCH)
        self.assertEqual((status, said.split(":")[0]), (1, "no"))

    def test_a_report_that_can_t_be_written_is_known_before_the_run(self):
        file = self.file("p.dcop", PAIR)
        folder = str(Path(file).parent)
        for name, why in ((f"{folder}/none/report", "there is no folder"), (folder, "it is a folder"), (file, "is read, so it can't be written")):
            calls = self.file("calls", "")
            status, told, said = self.front("solve", file, "--report", name, FAKE_CALLS=calls)
            self.assertEqual((status, told, Path(calls).read_text()), (3, "", ""))
            self.assertIn(why, said)
        week = str(EXAMPLES / "meetings.csv")
        status, told, said = self.front("meetings", week, "--svg", f"{folder}/out", "--ics", f"{folder}/out")
        self.assertEqual((status, told, "is named for two outputs" in said), (3, "", True))

    @unittest.skipUnless(os.path.exists("/dev/full"), "no full disk to write to")
    def test_a_full_disk_loses_nothing_that_was_found(self):
        file, report = self.file("p.dcop", PAIR), self.file("report", "")
        status, told, why = self.front("solve", file, "--report", "/dev/full")
        self.assertEqual((status, told.splitlines()[0]), (3, "cost 3, and none is better (verified)"))
        self.assertIn("/dev/full can't be written: No space left on device; the printed answer is complete", why)
        week = str(EXAMPLES / "meetings.csv")
        picture = self.file("week.svg", "")
        status, told, why = self.front("meetings", week, "--ics", "/dev/full", "--svg", picture, "--report", "/dev/full")
        self.assertEqual((status, told.splitlines()[0], why.count("can't be written")), (3, "cost 0, and none is better (verified)", 2))
        self.assertIn("<svg", Path(picture).read_text())
        for words, found in (
            (("solve", file, "--report", report), "cost 3, and none is better (verified)"), (("solve", "--json", file), '"cost": 3'),
            (("check", file, report), "yes, verified"), (("cost", file, "x=1", "y=0"), "cost 3"), (("meetings", week), "Mon 9"),
            (("draw", file), ""), (("to", "wcsp", file), ""), (("from", "meetings", week), ""), (("--help",), ""), (("explain", file), ""),
        ):  # fmt: skip
            with open("/dev/full", "w") as full, mock.patch.object(sys, "stdout", full), mock.patch.object(sys, "stderr", io.StringIO()) as err:
                with mock.patch.dict(os.environ, SEFWLLON_DCOP=FAKE, SEFWLLON_SEARCH="", FAKE=""):
                    status = main(list(words))
            self.assertEqual((words, status), (words, 3))
            self.assertIn("standard output can't be written: No space left on device", err.getvalue())
            self.assertIn(found, err.getvalue())
        self.assertIn("certificate tables", Path(report).read_text())

    def test_who_stops_reading_loses_no_report(self):
        file, report = self.file("p.dcop", PAIR), self.file("report", "")
        environment = dict(os.environ, SEFWLLON_DCOP=FAKE, SEFWLLON_SEARCH="", PYTHONPATH=str(FRONT))
        words = [sys.executable, "-m", "sefwllon", "solve", file, "--report", report]
        process = subprocess.Popen(words, env=environment, stdout=subprocess.PIPE, stderr=subprocess.PIPE, text=True)
        process.stdout.close()
        self.assertEqual((process.stderr.read(), process.wait()), ("", 3))
        process.stderr.close()
        self.assertIn("certificate tables", Path(report).read_text())

    def test_what_stood_in_a_file_stays_where_it_can_t_be_written_whole(self):
        from sefwllon.output import write

        path = Path(self.file("kept", "old\n"))
        with mock.patch.object(Path, "replace", side_effect=OSError(28, "No space left on device")), self.assertRaises(Trouble):
            write(str(path), "new\n")
        self.assertEqual((path.read_text(), os.listdir(path.parent)), ("old\n", ["kept"]))
        write(str(path), "new\n")
        self.assertEqual((path.read_text(), os.listdir(path.parent)), ("new\n", ["kept"]))

    def test_a_file_that_can_t_be_made_loses_no_answer(self):
        from sefwllon.output import deliver

        def fails() -> str:
            raise Trouble("the picture can't be drawn")

        other = self.file("other", "")
        with mock.patch.object(sys, "stdout", io.StringIO()) as out, mock.patch.object(sys, "stderr", io.StringIO()) as err:
            self.assertFalse(deliver("the answer\n", [("picture", fails), (other, lambda: "whole\n")]))
        self.assertEqual((out.getvalue(), Path(other).read_text()), ("the answer\n", "whole\n"))
        self.assertIn("the picture can't be drawn; the printed answer is complete without it", err.getvalue())
        calls = self.file("calls", "")
        text = "slot,a\nslot,b,2026-03-02 09:00\nmeeting,m,Ann\nlike,m,a,3\n"
        status, told, why = self.front("meetings", self.file("week.csv", text), "--ics", self.file("week.ics", ""), FAKE_CALLS=calls)
        self.assertEqual((status, told, Path(calls).read_text(), "the slot a has no time" in why), (3, "", "", True))


class Interrupting(Case):
    def stopped(self, how: int, fake: str, search: str, *words: str) -> tuple[int, str, str]:
        """What is told where this signal comes while a program takes for ever."""
        mark = Path(self.file("mark", ""))

        def stop() -> None:
            latest = time.monotonic() + 120
            while not mark.read_text() and time.monotonic() < latest:
                time.sleep(0.05)
            os.kill(os.getpid(), how)

        # (who starts the tests in the background may have interrupts ignored)
        before = signal.signal(signal.SIGINT, signal.default_int_handler)
        self.addCleanup(signal.signal, signal.SIGINT, before)
        thread = threading.Thread(target=stop)
        thread.start()
        self.addCleanup(thread.join)
        return self.front(*words, fake=fake, order=FAKE, search=FAKE_SEARCH, FAKE_SEARCH=search, FAKE_MARK=str(mark))

    def test_an_interrupt_at_each_step_ends_with_the_best_so_far(self):
        for how, fake, search in (
            (signal.SIGINT, "slow", ""), (signal.SIGINT, "wide lingers", ""), (signal.SIGINT, "wide", "slow"), (signal.SIGTERM, "wide", "slow"),
        ):  # fmt: skip
            file, report = self.file("p.dcop", PAIR), self.file("report", "")
            status, told, why = self.stopped(how, fake, search, "solve", "--report", report, file)
            self.assertEqual((fake, status, told.splitlines()[1:2], why), (fake, 1, ["stopped: interrupted"], ""))
            self.assertEqual(told.splitlines()[0], "cost 3, at most 1 from the best, 33.3 % of it (added up)")
            self.assertEqual(read_report(Path(report).read_text(), parse(PAIR)).cost, 3)

    def test_an_interrupted_timetable_and_check_say_what_is_known(self):
        week, report = self.file("week.csv", "slot,a\nslot,b\nmeeting,m,Ann\nmeeting,n,Ann\nlike,m,a,1\nlike,n,a,1\n"), self.file("report", "")
        status, told, why = self.stopped(signal.SIGINT, "wide", "slow", "meetings", "--report", report, week)
        self.assertEqual((status, told.splitlines()[1], why), (1, "stopped: interrupted", ""))
        self.assertRegex(told, r"\na  [mn]  \(Ann\)\n")
        claim = Path(report).read_text()
        cost = read_report(claim, parse(self.front("from", "meetings", week)[1])).cost
        claim = claim.replace("\nlower 0\n", f"\nlower {cost}\n")
        status, told, why = self.stopped(signal.SIGINT, "wide", "slow", "check", week, self.file("claim", claim))
        self.assertEqual((status, told.splitlines()[0], why), (4, "not decided: nothing better was found; interrupted", ""))

    def test_an_interrupt_while_an_answer_is_told_waits(self):
        from sefwllon.output import undisturbed

        with undisturbed():
            os.kill(os.getpid(), signal.SIGINT)
        out, err, before = io.StringIO(), io.StringIO(), solving.Solver.solve

        def interrupted(self: Solver) -> Best:
            best = before(self)
            os.kill(os.getpid(), signal.SIGTERM)
            return best

        with mock.patch.object(sys, "stdout", out), mock.patch.object(sys, "stderr", err), mock.patch.dict(os.environ, SEFWLLON_DCOP=FAKE):
            with mock.patch.object(solving.Solver, "solve", interrupted), self.assertRaises(KeyboardInterrupt):
                main(["solve", self.file("p.dcop", PAIR)])

    def test_the_time_holds_from_the_start_of_the_command(self):
        def slowly(text: str) -> Problem:
            time.sleep(30)
            return parse(text)

        for words in (("solve",), ("check",), ("cost",)):
            file, began = self.file("p.dcop", PAIR), time.monotonic()
            with mock.patch("sefwllon.files.parse", slowly):
                more = (file,) if words[0] != "solve" else ()
                status, told, why = self.front(*words, "--time", "300ms", file, *more)
            self.assertEqual((status, told), (1, ""))
            self.assertIn("the time was over before the file was read: give it more --time", why)
            self.assertLess(time.monotonic() - began, 15)

    def test_the_time_is_kept_in_each_step(self):
        for fake, search in (("slow", ""), ("wide lingers", ""), ("wide", "slow")):
            more = {"fake": fake, "order": FAKE, "search": FAKE_SEARCH, "FAKE_SEARCH": search}
            began = time.monotonic()
            status, told, _ = self.front("solve", "--json", "--time", "2s", self.file("p.dcop", PAIR), **more)
            answer = json.loads(told)
            self.assertEqual((fake, status, answer["stopped"], answer["cost"]), (fake, 1, "the time is over", 3))
            self.assertLess(time.monotonic() - began, 30)


class Costing(Case):
    def test_a_slip_in_an_assignment_is_refused(self):
        week = str(EXAMPLES / "meetings.csv")
        pair = self.file("p.dcop", PAIR)
        for file, words, why in (
            (week, ("Plannig=Mon 9",), "`Plannig=Mon 9`: the file has no Plannig"),
            (pair, ("x=0", "y=1", "z=1"), "`z=1`: the file has no z"),
            (pair, ("x=0", "y=2"), "`y=2`: 2 is not a value of y; it has 0, 1"),
            (pair, ("x=0", "x=1", "y=1"), "`x=1`: x already has the value 0, from `x=0`"),
            (pair, ("x=0",), "the assignment has no value for y"),
            (pair, (self.file("a", "x=0\n\n# a note\nvalue y 1\nworse\n"),), "line 5, `worse`: a line must be NAME=VALUE or `value NAME VALUE`"),
            (pair, (self.file("a", "x=0\nvalue v 1\n"),), "line 2, `value v 1`: the file has no v"),
        ):
            status, told, said = self.front("cost", file, *words)
            self.assertEqual((words, status, told), (words, 3, ""))
            self.assertIn(why, said)
        names = "slot,Mon 9\nslot,Tue 9\nmeeting,Planning,Ann\nmeeting,a=b,Bo\n"
        self.assertIn("the file has no Plannig: is Planning meant?", self.front("cost", self.file("w.csv", names), "Plannig=Mon 9")[2])
        self.assertIn("Mon 8 is not a value of Planning: is Mon 9 meant?", self.front("cost", self.file("w.csv", names), "Planning=Mon 8", "a=b=Tue 9")[2])
        self.assertEqual(self.front("cost", self.file("w.csv", names), "Planning=Mon 9", "a=b=Tue 9")[1], "cost 0\n")

    def test_files_of_values_are_read(self):
        pair = self.file("p.dcop", PAIR)
        for text in ("x=1\ny = 0\n", "# best\nvalue x 1\nvalue y 0\n"):
            self.assertEqual(self.front("cost", pair, self.file("a", text))[:2], (0, "cost 3\n"))
        report = self.file("report", "")
        self.front("solve", pair, "--report", report)
        self.assertEqual(self.front("cost", pair, report, "--report", report)[1], "cost 3\nat most 0 from the best (verified)\n".replace("at most 0 from the best", "none is better"))


class Bettered(unittest.TestCase):
    def test_sums_are_those_of_the_problem(self):
        for seed in range(20):
            for goal in ("min", "max"):
                problem = drawn(seed, goal)
                bettering = Bettering(problem, [0] * len(problem.variables))
                for _ in range(30):
                    bettering.step += 1
                    change = bettering.next_change()
                    if change is None:
                        break
                    bettering.change(*change)
                    self.assertEqual(problem.cost(bettering.values), bettering.sign * bettering.sum)
                self.assertEqual(problem.cost(bettering.best), bettering.best_cost)
