"""Tests of the library: what `import sefwllon` gives, and docs/guide/python.md, whose scripts are run."""

from __future__ import annotations

import contextlib
import datetime
import doctest
import io
import os
import random
import re
import shutil
import subprocess
import tempfile
import unittest
from decimal import Decimal
from fractions import Fraction
from itertools import product
from pathlib import Path
from unittest import mock

import sefwllon
from sefwllon import FORBIDDEN, Answer, Problem, Programs, Trouble, check, library, modelling, order, replay, solve, tree

from .case import EXAMPLES, FAKE, FAKE_SEARCH, FRONT, ORDER, PAIR, PROBLEMS, REAL, SEARCH, Case

DOCUMENT = FRONT.parent / "docs" / "guide" / "python.md"
MYPY = shutil.which("mypy") or shutil.which("/usr/bin/mypy")


def scripts() -> list[tuple[str, str]]:
    """The scripts of the document, each with what it has to print."""
    return re.findall(r"```python\n(.*?)```\n\n```text\n(.*?)```", DOCUMENT.read_text(), re.DOTALL)


def pair() -> Problem:
    """A problem whose best sum is 2, at x = 1 and y = 0."""
    problem = Problem({"x": [0, 1], "y": [0, 1]})
    problem.table(["x", "y"], [[5, 3], [2, 7]])
    return problem


def random_problem(seed: int) -> Problem:
    """A small problem with values, costs and tables of each kind."""
    made = random.Random(seed)
    kinds = ([0, 1, 2], ["low", "high"], [(1, 2), (3,), "x"], [datetime.date(2026, 3, 2), None, 2.5])
    problem = Problem({f"v {at}": made.choice(kinds) for at in range(made.randint(2, 4))}, made.choice(["min", "max"]))
    costs = (0, 3, -2, 0.1, Fraction(1, 3), Decimal("2.75"), FORBIDDEN)
    for _ in range(made.randint(1, 5)):
        scope = made.sample(list(problem.variables), made.randint(1, 2))
        choices = list(product(*(problem.variables[name] for name in scope)))
        drawn = [made.choice(costs[: made.choice([3, 6, 7])]) for _ in choices]
        told = dict(zip(choices if len(scope) > 1 else (choice for (choice,) in choices), drawn))
        kind = made.randrange(3)
        problem.table(scope, [drawn, told, lambda *choice: told[choice if len(choice) > 1 else choice[0]]][kind])
    return problem


def best_of(problem: Problem) -> float:
    """The best cost, by trying all assignments."""
    names, values = problem.variables.keys(), problem.variables.values()
    return (min if problem.goal == "min" else max)(problem.cost(dict(zip(names, choice))) for choice in product(*values))


class Library(Case):
    """With the stand-ins."""

    def setUp(self) -> None:
        super().setUp()
        patched = mock.patch.dict(os.environ, SEFWLLON_DCOP=FAKE, SEFWLLON_ORDER=FAKE, SEFWLLON_SEARCH=FAKE_SEARCH, FAKE="", FAKE_SEARCH="")
        patched.start()
        self.addCleanup(patched.stop)

    def trouble(self, what: str, call: object, *words: object, **more: object) -> None:
        with self.assertRaises(Trouble) as caught:
            call(*words, **more)  # type: ignore[operator]
        self.assertIn(what, str(caught.exception))

    def test_an_answer_says_what_the_command_says(self):
        answer = solve(pair(), time=60)
        self.assertEqual((answer.values, answer.cost, answer.lower, answer.upper), ({"x": 1, "y": 0}, 2, 2, 2))
        self.assertEqual((answer.status, answer.rests_on, answer.gap, answer.broken), ("solved", "verified", 0, ()))
        self.assertTrue(answer.optimal)
        self.assertEqual(answer.report, answer.certificate)
        status, told, _ = self.front("solve", self.file("pair.dcop", PAIR), order=FAKE)
        printed = f"{solve(Problem.parse(PAIR))}\n"
        self.assertEqual((status, re.sub(r" in .* s", "", told)), (0, re.sub(r" in .* s", "", printed)))

    def test_random_problems_cost_what_trying_all_finds(self):
        for seed in range(60):
            with self.subTest(seed=seed):
                problem = random_problem(seed)
                best = best_of(problem)
                try:
                    answer = solve(problem)
                except Trouble as trouble:
                    self.assertIn("every value of", str(trouble))
                    self.assertEqual(abs(best), float("inf"))
                    continue
                if abs(best) == float("inf"):
                    self.assertEqual((answer.status, answer.lower, answer.optimal), ("impossible", None, False))
                    continue
                self.assertAlmostEqual(answer.cost, best, places=9)
                self.assertEqual(problem.cost(answer.values), answer.cost)
                self.assertEqual(answer.status, "solved")
                self.assertTrue(check(problem, answer))

    def test_costs_count_as_they_are_written(self):
        problem = Problem({"x": ["a"]})
        for cost in (0.1, 0.2, Decimal("0.3"), Fraction(2, 5)):
            problem.table("x", [cost])
        answer = solve(problem)
        self.assertEqual((answer.cost, answer.exact_cost, problem.cost({"x": "a"})), (1, Fraction(1), 1))

    def test_lists_dicts_and_functions_make_the_same_table(self):
        texts = set()
        told = {(x, y): 3 * x + y for x, y in product(range(2), range(3))}
        nested = [[told[x, y] for y in range(3)] for x in range(2)]
        for costs in (told, nested, sum(nested, []), lambda x, y: 3 * x + y, {key: told[key] for key in reversed(told)}):
            problem = Problem({"x": range(2), "y": range(3)})
            problem.table(["x", "y"], costs)
            texts.add(problem.text())
        self.assertEqual(len(texts), 1)

    def test_values_that_can_be_no_keys(self):
        problem = Problem({"x": [[1], [2]]})
        problem.table("x", lambda value: value[0])
        self.assertEqual(solve(problem).values, {"x": [1]})
        self.trouble("can't be keys of a dict", problem.table, "x", {1: 2})

    def test_what_is_wrong_is_told(self):
        problem = pair()
        self.trouble("there are two variables x", problem.variable, "x", [1])
        self.trouble("the name of a variable must be a text", problem.variable, " ", [1])
        self.trouble("z has no values", problem.variable, "z", [])
        self.trouble("z has a value twice: 'a'", problem.variable, "z", ["a", "b", "a"])
        self.trouble("names 'z', which is not a variable", problem.table, ["x", "z"], [1])
        self.trouble("one or more different variables", problem.table, ["x", "x"], [1])
        self.trouble("one or more different variables", problem.table, [], [1])
        self.trouble("needs 2 x 2 costs", problem.table, ["x", "y"], [1, 2, 3])
        self.trouble("needs 2 x 2 costs", problem.table, ["x", "y"], [[1, 2], [3]])
        self.trouble("needs 2 costs", problem.table, "x", [[1], [2], [3]])
        self.trouble("has no cost for (0, 1): give it one, or give the table a default", problem.table, ["x", "y"], {(0, 0): 1})
        self.trouble("(0, 2) is not a choice of values such as (0, 0)", problem.table, ["x", "y"], {(0, 2): 1}, default=0)
        self.trouble("costs must be a function, a dict or a list, not 5", problem.table, "x", 5)
        self.trouble("the table over x at 1: a cost must be a number or FORBIDDEN, not None", problem.table, "x", lambda x: None if x else 1)
        self.trouble("with the goal min an infinite cost must be infinity", problem.table, "x", [1, float("-inf")])
        self.trouble("the cost is not a number", problem.table, "x", [1, float("nan")])
        self.trouble("the cost is not a number", problem.table, "x", [1, Decimal("nan")])
        self.trouble("3 is not a value of x", problem.cost, {"x": 3, "y": 0})
        self.trouble("no value for y", problem.cost, {"x": 0})
        self.trouble("'z' is not a variable", problem.cost, {"z": 0})
        self.trouble("it must be 'min' or 'max'", Problem, goal="least")
        self.trouble("the problem has no variable", solve, Problem())
        self.trouble("must be one of auto", solve, problem, method="best")
        self.trouble("from 0 up", solve, problem, time=-1)
        self.trouble("threads", solve, problem, workers=65)
        self.trouble("cells", solve, problem, cells=1)
        self.trouble("not a report", check, problem, "nothing")
        self.trouble("no log", replay, problem, solve(problem))
        large = Problem({name: range(1024) for name in "abc"})
        self.trouble("choices of values", large.table, ["a", "b", "c"], lambda a, b, c: 0)
        self.assertEqual(repr(problem), "<Problem: 2 variables, 1 tables>")

    def test_what_can_not_hold_is_impossible(self):
        problem = Problem({name: ["Mon", "Tue"] for name in "abc"})
        for one, other in ("ab", "bc", "ca"):
            problem.require([one, other], lambda x, y: x != y)
        answer = solve(problem)
        self.assertEqual((answer.status, answer.optimal, len(answer.broken), answer.gap), ("impossible", False, 1, None))
        verdict = check(problem, answer)
        self.assertTrue(verdict)
        self.assertEqual(len(verdict.broken), 1)

    def test_a_check_says_no_and_why(self):
        problem = pair()
        answer = solve(problem, certificate=False)
        self.assertIsNone(answer.certificate)
        self.assertEqual(check(problem, answer).answer, "yes")
        worse = re.sub("(cost|lower|upper) 0", r"\1 5", answer.report.replace("value y 0", "value y 1"))
        verdict = check(problem, worse)
        self.assertEqual((verdict.answer, bool(verdict), verdict.better, verdict.cost, verdict.bound), ("no", False, {"x": 1, "y": 0}, 7, 7))
        torn = check(problem, answer.report.replace("cost 0", "cost 1"))
        self.assertIn("its values cost 0", torn.why or "")
        self.assertTrue(str(torn).startswith("no: "))

    def test_an_open_answer_has_its_gap(self):
        answer = solve(Problem.parse(PAIR), time=0)
        self.assertEqual((answer.status, answer.lower, answer.rests_on, answer.stopped), ("open", 2, "added up", "the time is over"))
        self.assertEqual((answer.cost, answer.gap, answer.optimal), (3, 1, False))

    def test_files_of_each_kind_are_read(self):
        for file, cost in ((PROBLEMS / "pair.dcop", 2), (EXAMPLES / "meetings.csv", None), (EXAMPLES / "knapsack.wcsp", None)):
            problem = Problem.read(file)
            answer = solve(problem)
            self.assertEqual((answer.status, problem.cost(answer.values)), ("solved", answer.cost if cost is None else cost))
        read = Problem.read(PROBLEMS / "pair.dcop")
        self.assertEqual(read.text(), (PROBLEMS / "pair.dcop").read_text())
        read.table("x", [0, 9])
        self.assertEqual(solve(read).cost, 3)
        self.trouble("can't be read", Problem.read, "/nowhere.dcop")
        self.trouble("line 2", Problem.parse, "dcop 2\nvariable x\nend\n")

    def test_without_dcop_order_there_is_no_order(self):
        with mock.patch.dict(os.environ, SEFWLLON_ORDER=""):
            self.trouble("dcop_order is not built", order, pair())

    def test_a_wrong_program_is_named(self):
        self.trouble("/bin/true answered nothing", solve, pair(), programs=Programs("/bin/true"))
        self.trouble("/bin/true answered nothing", tree, pair(), programs=Programs("/bin/true"))

    def test_all_names_are_there(self):
        self.assertEqual({name for name in sefwllon.__all__ if not hasattr(sefwllon, name)}, set())
        self.assertEqual(set(library.__all__) | {"Client"}, set(sefwllon.__all__))
        with self.assertRaises(AttributeError):
            sefwllon.slove
        self.assertIsInstance(solve(pair()), Answer)


class Typed(unittest.TestCase):
    @unittest.skipUnless(MYPY, "no mypy")
    def test_the_public_modules_and_the_scripts_pass_mypy(self):
        with tempfile.TemporaryDirectory() as folder:
            public = [FRONT / "sefwllon" / name for name in ("__init__.py", "library.py", "modelling.py")]
            script = Path(folder) / "script.py"
            script.write_text("\n".join(f"def script{at}() -> None:\n" + re.sub("(?m)^", "    ", code) for at, (code, _) in enumerate(scripts())))
            words = [str(MYPY), "--strict", "--follow-imports=silent", "--cache-dir", folder, *map(str, public), str(script)]
            told = subprocess.run(words, capture_output=True, text=True, env=dict(os.environ, MYPYPATH=str(FRONT)), cwd=FRONT)
            self.assertEqual((told.returncode, told.stderr), (0, ""), told.stdout)
            script.write_text("import sefwllon\nsefwllon.slove\nsefwllon.solve(1)\n")
            told = subprocess.run(words, capture_output=True, text=True, env=dict(os.environ, MYPYPATH=str(FRONT)), cwd=FRONT)
            self.assertIn("script.py:2: error", told.stdout)
            self.assertIn("script.py:3: error", told.stdout)


@unittest.skipUnless(REAL, "no built program")
class Real(unittest.TestCase):
    """With the built programs."""

    def test_docstrings(self):
        for module in (library, modelling):
            finder = doctest.DocTestFinder(exclude_empty=True)
            for test in finder.find(module, extraglobs={name: getattr(sefwllon, name) for name in library.__all__}):
                with self.subTest(test.name):
                    if "order(" in test.docstring and not ORDER:
                        continue
                    told = io.StringIO()
                    failed = doctest.DocTestRunner(verbose=False).run(test, out=told.write).failed
                    self.assertEqual(failed, 0, told.getvalue())

    def test_the_scripts_of_the_document(self):
        self.assertEqual(len(scripts()), 2)
        self.assertEqual(len(scripts()), DOCUMENT.read_text().count("```python"))
        for script, printed in scripts():
            with self.subTest(script[:80]):
                self.assertLessEqual(script.count("\n"), 20)
                with contextlib.redirect_stdout(io.StringIO()) as told:
                    exec(compile(script, str(DOCUMENT), "exec"), {})
                self.assertEqual(told.getvalue(), printed)

    def test_random_problems(self):
        for seed in range(100, 112):
            with self.subTest(seed=seed):
                problem = random_problem(seed)
                best = best_of(problem)
                with contextlib.suppress(Trouble):
                    answer = solve(problem)
                    self.assertEqual(answer.rests_on, "verified")
                    if abs(best) < float("inf"):
                        self.assertAlmostEqual(answer.cost, best, places=9)

    def test_orders_and_trees_have_own_names(self):
        problem = Problem({f"meeting {name}": range(3) for name in "abcd"})
        for one, other in ("ad", "bd", "cd"):
            problem.table([f"meeting {one}", f"meeting {other}"], lambda x, y: x == y)
        nodes = tree(problem)
        self.assertEqual([node.name for node in nodes if node.parent is None], ["meeting a"])
        self.assertTrue(all(set(node.separator) <= set(problem.variables) for node in nodes))
        if ORDER:
            found = order(problem)
            self.assertEqual((sorted(found.names), found.largest), (sorted(problem.variables), 9))
            self.assertLessEqual(found.largest, found.largest_as_given)

    def test_a_run_is_replayed(self):
        problem = Problem({name: range(3) for name in "abcd"}, goal="max")
        for one, other in ("ab", "bc", "cd", "da"):
            problem.table([one, other], lambda x, y: -0.5 * abs(x - y) if x != y else -4)
        answer = solve(problem, method="adopt")
        moments = replay(problem, answer)
        self.assertEqual((moments[-1].lower, moments[-1].upper), (answer.lower, answer.upper))
        self.assertEqual(moments[-1].messages, answer.messages)

    @unittest.skipUnless(SEARCH, "no built dcop_search")
    def test_a_search_is_proved(self):
        answer = solve(pair(), method="search")
        self.assertEqual((answer.cost, answer.rests_on, answer.certificate), (2, "proved", None))
        self.assertEqual(check(pair(), answer).answer, "yes")

