"""Tests of large and other files: wide tables, FRODO's files, files written for other tools, pyDCOP's words, and pictures."""

from __future__ import annotations

import json
import os
import random
import re
import shutil
import unittest
from itertools import product
from pathlib import Path
from unittest import mock
from xml.dom import minidom

from sefwllon import FORBIDDEN, Problem, Trouble, check, draw, frodo, layout, pydcop, solve, wcsp
from sefwllon.evaluator import Formula
from sefwllon.problem import parse
from sefwllon.report import Node
from sefwllon.source import Relation
from sefwllon.timetable import read as read_timetable
from sefwllon.translate import translate
from sefwllon.wide import split

from .case import EXAMPLES, FAKE, FAKE_SEARCH, HAS_YAML, HERE, PAIR, PROBLEMS, REAL, Case

COLOURING, WIDE = HERE / "frodo" / "colouring.xml", HERE / "frodo" / "wide.xml"
BASE = "domains: {d: {values: [0 .. 2]}}\nvariables: {"


def best_of(problem: Problem) -> float:
    """The best cost, by trying all assignments."""
    names, values = problem.variables.keys(), problem.variables.values()
    return (min if problem.goal == "min" else max)(problem.cost(dict(zip(names, choice))) for choice in product(*values))


class Files(Case):
    def setUp(self) -> None:
        super().setUp()
        patched = mock.patch.dict(os.environ, SEFWLLON_DCOP=FAKE, SEFWLLON_ORDER=FAKE, SEFWLLON_SEARCH=FAKE_SEARCH, FAKE="", FAKE_SEARCH="")
        patched.start()
        self.addCleanup(patched.stop)

    def json(self, *words: str) -> dict[str, object]:
        status, told, why = self.front("solve", "--json", *words)
        self.assertEqual((status, why), (0, ""))
        return json.loads(told)


class Wide(Files):
    def test_sums_are_split_into_tables_over_four(self):
        for seed in range(60):
            made = random.Random(seed)
            sizes = [made.randint(1, 3) for _ in range(made.randint(5, 6))]
            parts = []
            for _ in range(made.randint(0, 4)):
                scope = made.sample(range(len(sizes)), made.randint(1, 4))
                parts.append((scope, {choice: made.randint(-5, 9) for choice in product(*(range(sizes[at]) for at in scope))}))
            costs = {it: 7 + sum(part[tuple(it[at] for at in scope)] for scope, part in parts) for it in product(*map(range, sizes))}
            told = split(Relation("c", tuple(range(len(sizes))), costs), sizes) or []
            for choice, cost in costs.items():
                cells = []
                for table in told:
                    place = 0
                    for variable in table.scope:
                        place = place * sizes[variable] + choice[variable]
                    cells.append(table.costs[place])
                self.assertEqual(sum(cells), cost, (seed, choice))
            self.assertTrue(all(len(table.scope) <= 4 for table in told))

    def test_what_is_no_sum_is_told_by_a_variable_for_its_choices(self):
        for seed in range(25):
            made = random.Random(seed)
            problem = Problem({name: ["off", "on"] for name in "abcde"}, made.choice(["min", "max"]))
            told = {choice: made.choice([0, 1, 2.5, -3, FORBIDDEN, FORBIDDEN]) for choice in product(["off", "on"], repeat=5)}
            problem.table(list("abcde"), told)
            problem.table("c", [made.randrange(3), made.randrange(3)])
            self.assertEqual(problem.translation.names[-1], "choice of the table over a, b, c, d, e")
            answer = solve(problem)
            self.assertEqual((seed, answer.cost, answer.status, list(answer.values)), (seed, best_of(problem), "solved", list("abcde")))
            self.assertEqual(problem.cost(answer.values), answer.cost)
            self.assertTrue(check(problem, answer))

    def test_the_variable_for_choices_is_no_choice_of_the_user(self):
        text = "p 6 2 2 20\n2 2 2 2 2 2\n6 0 1 2 3 4 5 20 3\n0 1 0 1 0 1 4\n1 1 1 1 1 1 5\n0 0 0 0 0 1 9\n1 5 0 1\n1 8\n"
        file = self.file("p.wcsp", text)
        answer = self.json(file)
        self.assertEqual((answer["cost"], answer["values"]), (12, {f"v{at}": at % 2 for at in range(6)}))
        words = [f"v{at}={at % 2}" for at in range(6)]
        self.assertEqual(self.front("cost", file, *words)[1], "cost 12\n")
        told = self.front("cost", file, *words[:5], "v5=0")[1]
        self.assertIn("broken: function 1\n", told)
        told = self.front("solve", file)[1]
        self.assertIn("\n  v5  1\n", told)
        self.assertNotIn("choice", told)

    def test_what_is_too_wide_is_refused_from_a_count(self):
        names = [f"x{at}" for at in range(11)]
        problem = Problem({name: [0, 1] for name in names})
        problem.table(names, lambda *values: sum(values) ** 5)
        with self.assertRaisesRegex(Trouble, "is over 11 variables and allows 2048 choices of their values; the limit is 4 variables, or 1024 allowed choices"):
            solve(problem)
        large = Problem({name: range(100) for name in names})
        with self.assertRaisesRegex(Trouble, "is over 11 variables, which together have 10{22} choices of values; the limit"):
            large.table(names, lambda *values: 0)
        never = Problem({name: [0, 1] for name in names})
        never.require(names, lambda *values: False)
        with self.assertRaisesRegex(Trouble, "forbids every choice of values, so there is no solution"):
            solve(never)

    def test_a_sum_of_many_variables_is_solved(self):
        names = [f"x{at}" for at in range(8)]
        problem = Problem({name: [0, 1] for name in names})
        problem.table(names, lambda *values: (sum(values) - 3) ** 2 - 0.5 * values[7])
        self.assertEqual(len(problem.translation.problem.variables), 8)
        self.assertEqual((solve(problem).cost, best_of(problem)), (-0.5, -0.5))

    @unittest.skipUnless(HAS_YAML, "no PyYAML")
    def test_wide_formulas_that_are_sums_are_told_part_by_part(self):
        names = [f"x{at}" for at in range(9)]
        text = BASE + ", ".join(f"{name}: {{domain: d}}" for name in names) + "}\nconstraints:\n"
        text += f"  c: {{type: intention, function: '{' + '.join(names[:8])} - 2 * abs(x7 - x8) + sum([x0 * x1, -x2])'}}\n"
        source = pydcop.read(text, "file")
        self.assertEqual(max(len(it.scope) for it in source.constraints), 2)
        self.assertEqual(source.relations, [])
        values = dict(zip(names, (1, 2, 0, 1, 2, 1, 0, 2, 0)))
        told = translate(source)
        self.assertEqual(told.own_sum(list(values.values())), sum(list(values.values())[:8]) - 4 + 2)
        with self.assertRaisesRegex(Trouble, "c is over 8 variables and allows 6561 choices"):
            translate(pydcop.read(re.sub("'.*'", " * ".join(names[:8]), text), "file"))

    @unittest.skipUnless(HAS_YAML, "no PyYAML")
    def test_wide_tables_of_pydcop(self):
        names = [f"x{at}" for at in range(7)]
        text = BASE + ", ".join(f"{name}: {{domain: d}}" for name in names) + "}\nconstraints:\n  c: {type: extensional, default: .inf, variables: "
        text += f"[{', '.join(names)}], values: {{2: 0 1 2 0 1 2 0 | 1 1 1 1 1 1 1, 3: 2 2 2 2 2 2 2}}}}\n  e: {{function: x0 * 5}}\n"
        answer = self.json(self.file("p.yaml", text))
        self.assertEqual((answer["cost"], list(answer["values"].values())), (2, [0, 1, 2, 0, 1, 2, 0]))

    @unittest.skipUnless(REAL, "no built program")
    def test_the_real_program_solves_wide_tables(self):
        with mock.patch.dict(os.environ, SEFWLLON_DCOP=str(REAL)):
            problem = Problem({name: range(3) for name in "abcde"})
            problem.table(list("abcde"), lambda *values: abs(sum(values) - 5) + (values[0] != values[4]))
            problem.table("a", [3, 2, 1])
            answer = solve(problem)
            self.assertEqual((answer.cost, answer.rests_on), (best_of(problem), "verified"))


class Frodo(Files):
    def test_files_of_frodo_are_solved(self):
        answer = self.json(str(COLOURING))
        self.assertEqual((answer["cost"], answer["values"]), (-3.5, {"X": 2, "Y": 1, "Z": 3, "T": 2}))
        self.assertIn("ignored: which agent has which variables", answer["note"])
        with self.subTest("wide"):
            with mock.patch.dict(os.environ, SEFWLLON_DCOP=REAL or FAKE):
                problem = Problem.read(WIDE)
                self.assertEqual(problem.goal, "max")
                if REAL:
                    answer = solve(problem)
                    self.assertEqual((answer.cost, set(answer.values.values())), (13, {"low"}))
        self.assertEqual(self.front("cost", str(COLOURING), "X=2", "Y=2", "Z=3", "T=1")[1].splitlines(), ["broken: X_and_Y", "broken: T_and_X", "cost -3.5"])

    def test_faults_of_frodo_are_told(self):
        good = COLOURING.read_text()
        for old, new, why in (
            ("</instance>", "", "is not XML"),
            ("instance", "network", "begins with <network>"),
            ('domain="three_colors" agent="agentX"', 'domain="two" agent="agentX"', "the variable X has the domain two, which the file does not declare"),
            ('name="Y" domain', 'name="X" domain', "there are two variables with the name X"),
            ('name="Y" domain', 'name="Y" type="random" domain', "the variable Y is random"),
            ('semantics="conflicts"', 'semantics="hard"', "has the semantics hard, but it must be soft"),
            ("infinity: 1 1", "-infinity: 1 1", "with the goal min an infinite cost must be infinity"),
            ("infinity: 1 1", "much: 1 1", "the relation NEQ: a cost must be a number, not 'much'"),
            ("1 2|2 1", "1 2|2", "the relation APART is over 2 variables, but `2` has 1 values"),
            ('arity="2" nbTuples="3"', 'arity="two" nbTuples="3"', "`arity` must be a whole number, not two"),
            ('scope="X Y"', 'scope="X W"', "X_and_Y names W, which is not a variable"),
            ('scope="X Y"', 'scope="X X"', "names a variable twice"),
            ('reference="APART"', 'reference="global:allDifferent"', "refers to global:allDifferent, which is not a relation"),
            ('reference="APART"', 'reference="TASTE"', "is over 2 variables, but its relation TASTE is over 1"),
            (' scope="X Y"', "", "<constraint> X_and_Y has no attribute `scope`"),
            ("1..3", "", "the domain three_colors has no values"),
            ("1..3", "1..3 2", "has a value twice"),
            ("1..3", "1..9999999999", "which has too many values"),
            ("<constraints ", "<predicates><predicate/></predicates><constraints ", "constraints by formulas are not read"),
        ):
            with self.assertRaisesRegex(Trouble, re.escape(why)):
                text = good.replace(old, new) if old == "instance" else good.replace(old, new, 1)
                frodo.read(text, "file")
        status, _, why = self.front("solve", self.file("p.xml", "<instance>"))
        self.assertEqual((status, "p.xml is not XML" in why), (3, True))


class Written(Files):
    @unittest.skipUnless(HAS_YAML, "no PyYAML")
    def test_files_for_other_tools_cost_the_same(self):
        for file in (COLOURING, EXAMPLES / "colouring.yaml", PROBLEMS / "pair.dcop", HERE / "pydcop" / "greatest.yaml", HERE / "pydcop" / "noise.yaml"):
            wanted = self.json(str(file))
            status, text, why = self.front("to", "pydcop", str(file))
            self.assertEqual((file.name, status, why), (file.name, 0, ""))
            told = self.json(self.file("p.yaml", text))
            self.assertEqual((file.name, told["cost"]), (file.name, wanted["cost"]))
            self.assertEqual({name: str(it) for name, it in told["values"].items()}, {name: str(it) for name, it in wanted["values"].items()})
            status, text, why = self.front("to", "uai", str(file))
            self.assertEqual((file.name, status, why), (file.name, 0, ""))
            told = self.json(self.file("p.uai", text))
            found = dict(zip(wanted["values"], told["values"].values()))
            problem = Problem.read(file)
            values = {name: problem.variables[name][value] for name, value in found.items()}
            self.assertAlmostEqual(problem.cost(values), wanted["cost"], 4)

    def test_names_that_yaml_would_take_otherwise_are_told(self):
        problem = Problem({"a b": ["x y", "on", 1.5], "on": [3, 1, 2]})
        problem.table(["a b", "on"], lambda a, b: FORBIDDEN if a == "on" else b / 3 if a == "x y" else b / 8)
        from sefwllon.writing import write_pydcop

        text = write_pydcop(problem.translation, 'a "name": {}')
        self.assertIn("# variable a_b is 'a b'\n# value \"x_y\" of a_b is 'x y'\n", text)
        self.assertIn('      .inf: "on 3 | on 1 | on 2"\n      0.375: "v1.5 3"\n', text)
        if HAS_YAML:
            answer = self.json(self.file("p.yaml", text))
            self.assertEqual((answer["cost"], answer["values"]), (0.125, {"a_b": "v1.5", "on": 1}))

    def test_great_costs_are_divided_for_uai(self):
        file = self.file("p.dcop", PAIR.replace("5 4 2 7", "5000 4000 2000 7000").replace("0 1", "0 1000"))
        status, text, why = self.front("to", "uai", file)
        self.assertEqual(status, 0)
        self.assertIn("note: costs are divided by 8.33333", why)
        self.assertNotIn(" 0 ", text.split("\n\n", 1)[1])
        self.assertEqual(self.json(self.file("p.uai", text))["values"], {"v0": 1, "v1": 0})


@unittest.skipUnless(HAS_YAML, "no PyYAML")
class Pydcop(Files):
    def test_decimals_are_exact(self):
        for text, wanted in (("1.1 * 3", "33/10"), ("x * 0.1 + 0.2", "1/2"), ("0.5 ** 2", "1/4"), ("x / 3", "1"), ("2 ** -2", "1/4"), ("float('0.1') * 3", "3/10"), ("round(x / 7, 2)", "43/100")):
            self.assertEqual(str(Formula(text, "c").value({"x": 3})), wanted)
        self.assertTrue(Formula("x == 0.3", "c").value({"x": 0.3}))
        text = BASE + "x: {domain: d, cost_function: 1.1 * (3 - x)}, y: {domain: d}}\nconstraints: {c: {function: 10 * x + 0.1 * y}}\n"
        self.assertEqual(self.front("solve", self.file("p.yaml", text))[1].splitlines()[0], "cost 3.3, and none is better (verified)")

    def test_words_that_yaml_takes_as_true_or_false_are_names(self):
        text = "domains: {on: {values: [on, off]}}\nvariables: {on: {domain: on}, no: {domain: on}}\nconstraints:\n"
        text += "  yes: {type: extensional, variables: [on, no], default: 5, values: {1: on off}}\n  off: {function: 0.5 if on else 3}\n"
        text += "  y: {type: extensional, variables: no, values: {2: on, 0: off}}\n"
        answer = self.json(self.file("p.yaml", text))
        self.assertEqual((answer["cost"], answer["values"]), (1.5, {"on": "on", "no": "off"}))

    def test_comprehensions(self):
        for text, names, wanted in (
            ("sum(abs(a - b) for a in [x, y] for b in [z] if a != b)", ["x", "y", "z"], 5),
            ("len({v for v in (x, x, y)})", ["x", "y"], 2),
            ("[v * w for v, w in zip([x, y], [2, 3])][1]", ["x", "y"], 6),
            ("{k: v for k, v in enumerate([x, y, z])}[2]", ["x", "y", "z"], 4),
            ("sum([1 for v in range(x + 3) if v % 2])", ["x"], 2),
            ("any(v == z for v in [x, y]) + all(v < z for v in [x, y])", ["x", "y", "z"], 1),
            ("sum(x for x in [y, z])", ["y", "z"], 6),
        ):
            formula = Formula(text, "c")
            self.assertEqual((text, sorted(formula.names()), formula.value({"x": 1, "y": 2, "z": 4})), (text, names, wanted))
        for text, why in (("sum(1 for a in range(10**6))", "too long"), ("[a for a in x]", "is not a list"), ("sum(a for a, b in [x])", "can't take"), ("max(map(x))", "names map|may not have")):
            with self.assertRaisesRegex(Trouble, why):
                Formula(text, "c").value({"x": 1})

    def test_what_is_passed_over_is_named(self):
        text = BASE + "x: {domain: d, initial_value: 1}, y: {domain: d}}\nconstraints: {c: {function: x + y, weight: 3}}\n"
        text += "agents: {a1: {capacity: 10}}\nroutes: {default: 5}\ndistribution_hints: {must_host: {a1: [x]}}\n"
        told = self.front("solve", self.file("p.yaml", text))[1]
        self.assertIn("note: ignored: agents, routes, distribution_hints, initial_value of x, weight of c\n", told)
        self.assertNotIn("ignored", self.front("solve", str(EXAMPLES / "colouring.yaml"))[1])


class Pictures(Files):
    LONG = "a meeting with a name that is far too long for a picture of its own"

    def pictures(self) -> list[str]:
        """A graph, a tree and a timetable with odd names."""
        problem = parse("dcop 1\nvar a 2\nvar b 2\nvar c 2\ntable a b : 1 2 3 4\ntable b c : 1 2 3 4\ntable a c : 1 2 3 4\nend\n")
        own = {"a": "bell \x07 & <b>", "b": self.LONG, "c": "\ud800 \u202e \N{SNOWMAN}"}
        nodes = [Node("a", None), Node("b", "a", ["a"]), Node("c", "b", ["a", "b"])]
        week = read_timetable("slot,Mon \x079\nslot,Tue\nmeeting," + self.LONG + ",Ida\x01;Jon\nmeeting,Other,Ida\x01\n")
        chosen: dict[str, object] = {self.LONG: "Mon \x079", "Other": "Tue"}
        return [draw.graph(problem, list(own.values()), ["x\x02", "", ""]), draw.tree(problem, nodes, own), draw.timetable(week, chosen)]

    def test_odd_letters_and_long_names(self):
        for with_graphviz in (True, False):
            with mock.patch("sefwllon.layout.shutil.which", shutil.which if with_graphviz else lambda name: None):
                for picture in self.pictures():
                    told = minidom.parseString(picture.encode("utf-8"))
                    words = [it.firstChild.data for it in told.getElementsByTagName("text")]
                    self.assertTrue(all(len(word) <= 41 for word in words), words)
                    self.assertTrue(any(word.endswith("\N{HORIZONTAL ELLIPSIS}") for word in words))
                    self.assertIn(self.LONG, [it.firstChild.data for it in told.getElementsByTagName("title")])
                    self.assertLess(float(told.documentElement.getAttribute("width")), 1_500)

    @unittest.skipUnless(shutil.which("dot"), "no Graphviz")
    def test_graphs_and_trees_are_laid_out_by_graphviz(self):
        found = layout.graph(5, 30, [(0, 1), (1, 2), (2, 3), (3, 4)])
        assert found is not None
        spots = list(found.spots.values())
        self.assertEqual(len(spots), 5)
        for at, (x, y) in enumerate(spots):
            self.assertTrue(all(abs(x - a) >= 60 or abs(y - b) >= 40 for a, b in spots[:at]))
        tree = layout.tree(3, 30, [(0, 1), (1, 2)], [(0, 2)])
        assert tree is not None
        self.assertEqual(sorted(range(3), key=lambda at: tree.spots[at][1]), [0, 1, 2])
        self.assertGreaterEqual(len(tree.ways[0, 2]), 4)
        self.assertIn(' C', self.pictures()[1])

    def test_a_graphviz_that_fails_is_done_without(self):
        program = self.file("dot", "#!/bin/sh\necho hello\nexit 1\n")
        os.chmod(program, 0o755)
        with mock.patch("sefwllon.layout.shutil.which", lambda name: program):
            self.assertIsNone(layout.graph(2, 30, [(0, 1)]))
            self.assertEqual(len(minidom.parseString(self.pictures()[0].encode()).getElementsByTagName("ellipse")), 3)
        self.assertIsNone(layout.graph(2, 30, [(0, 1)] * 6_000))


class Named(Files):
    def test_a_wrong_program_is_named_in_what_the_page_asks_too(self):
        from sefwllon.programs import Programs
        from sefwllon.web import answers

        told = Problem.parse(PAIR).translation
        for does, said in (("echo hello", "answered `hello`"), ("echo hello; exit 1", "answered `hello`, with exit status 1")):
            program = self.file("program", f"#!/bin/sh\n{does}\n")
            os.chmod(program, 0o755)
            programs = Programs(program, program, program)
            with self.assertRaisesRegex(Trouble, re.escape(f"the program {program} {said}")):
                answers.tree_of(programs, told, told.problem.text())
        with self.assertRaisesRegex(Trouble, re.escape(f"the program {program} {said}")):
            answers.ordered_text(programs, told.problem, 10)
