"""Tests of runs that are told message by message: by the built program dcop_trace, and from the tables of DPOP."""

from __future__ import annotations

import json
import random
import subprocess
import unittest
from collections import Counter
from pathlib import Path
from unittest import mock
from xml.dom import minidom

from sefwllon import Problem, replay, replaying, solve
from sefwllon.lab.rows import read_rows
from sefwllon.problem import Trouble, parse
from sefwllon.programs import Programs
from sefwllon.tracing import Channels, Recorded, read_events, traced

from .case import EXAMPLES, FAKE, PROBLEMS, REAL, TRACE, Case

NONE = "no built dcop and dcop_trace: passed over"


def asked(program: str | None, text: str, *words: str) -> str:
    """What a program answers."""
    return subprocess.run([str(program), *words], input=text, capture_output=True, text=True).stdout


def logged(name: str, *words: str) -> tuple[str, str]:
    """A problem of the examples, and the report of a run of ADOPT on it."""
    text = (PROBLEMS / name).read_text()
    return text, asked(REAL, text, "solve", "--method", "adopt", "--certificate", "yes", *words)


class Without(Case):
    """What is said where dcop_trace is not there."""

    def test_what_to_build_is_said(self):
        pair, report = str(PROBLEMS / "pair.dcop"), self.file("report", "")
        self.front("solve", pair, "--method", "adopt", "--report", report, fake="logs")
        status, told, why = self.front("trace", pair, report, fake="logs")
        self.assertEqual((status, told), (3, ""))
        self.assertIn("the program dcop_trace is not built: run `./build` in ", why)
        status, told, why = self.front("draw", "bounds", pair, report, fake="logs")
        self.assertEqual((status, told[:4]), (0, "<svg"))
        self.assertIn("dcop_trace is not built", why)

    def test_a_report_that_tells_no_run_is_refused(self):
        pair, report = str(PROBLEMS / "pair.dcop"), self.file("report", "")
        for method, words in (("plain", "this report is of the method plain"), ("adopt", "the report has no certificate")):
            self.front("solve", pair, "--method", method, "--certificate", "no", "--report", report)
            status, _, why = self.front("trace", pair, report)
            self.assertEqual(status, 3)
            self.assertIn(words, why)

    def test_an_answer_that_is_no_trace_is_told(self):
        with self.assertRaisesRegex(Trouble, "is not a trace"):
            list(read_events(["start x", "state value 0 lower 0 upper - threshold 0 ended no"]))
        with self.assertRaisesRegex(Trouble, "SEFWLLON_TRACE"):
            list(read_events(["agent x"]))
        with self.assertRaisesRegex(Trouble, "answered"):
            list(traced(FAKE, (PROBLEMS / "pair.dcop").read_text()))


@unittest.skipUnless(REAL and TRACE, NONE)
class Told(Case):
    """Runs of ADOPT that are told by dcop_trace."""

    def test_each_message_is_taken_as_it_was_sent_and_each_state_is_that_of_replay(self):
        for name in ("tracking.dcop", "sensors.dcop"):
            text, report = logged(name, "--workers", "2", "--budget", "1500")
            channels, events = Channels(), list(traced(TRACE, text + report))
            taken = sum(len(channels.take(event)) for event in events)
            self.assertIn(f"\ndeliveries {taken}\n", report)
            last = {event.agent: event for event in events}
            self.assertEqual(self.states(text, report), {agent: event.words("state") for agent, event in last.items()})
            recorded, middle = Recorded(TRACE, text + report), events[-1].number // 2
            self.assertEqual(self.states(text, report, middle), {agent: recorded.last_of(agent, middle).words("state") for agent in last})
            sent = Counter((event.agent, line.replace("sent ", "", 1)) for event in events if event.number <= middle for line in event.told("sent "))
            for event in events:
                if event.number <= middle:
                    sent.subtract((line.split()[1], f"{event.agent} {line.split(maxsplit=2)[2]}") for line in event.told("took "))
            self.assertEqual(sum(sent.values()), len(recorded.on_the_way(middle)))
            self.assertEqual(set((+sent).values()) | set(sent.values()) - {0}, set((+sent).values()), "nothing is taken that was not sent")
            self.assertEqual(Counter((it.sender, it.receiver) for it in recorded.on_the_way(middle)), self.pairs(+sent))

    def states(self, text: str, report: str, after: int | None = None) -> dict[str, list[str]]:
        """What each agent has come to, by dcop replay."""
        told = asked(REAL, text + report, "replay", *([] if after is None else ["--after", str(after)]))
        return {words[1]: words[2:] for words in map(str.split, told.splitlines()) if words[0] == "agent"}

    def pairs(self, sent: Counter[tuple[str, str]]) -> Counter[tuple[str, str]]:
        found: Counter[tuple[str, str]] = Counter()
        for (sender, words), count in sent.items():
            found[sender, words.split()[0]] += count
        return found

    def test_a_run_is_told_by_the_user_s_names(self):
        text, report = logged("tracking.dcop")
        file, report_file = str(PROBLEMS / "tracking.dcop"), self.file("report", report)
        status, told, why = self.front("trace", file, report_file, "--from", "2", "--to", "3", program=REAL, trace=TRACE)
        self.assertEqual((status, why), (0, ""))
        head, *lines = told.splitlines()
        self.assertEqual(head, "tracking.dcop: 897 messages, cost 11, none is better (verified)")
        self.assertEqual(lines[0], "event 2  n, stamp 2")
        self.assertIn("  is     value west, subtree costs at least 2, threshold 2, knows nw = off", lines)
        self.assertIn("  sends  nw: costs at least 2 where nw = off", lines)
        self.assertEqual(lines[-1], "  sends  s: costs 6 where nw = off, s = off")
        _, told, _ = self.front("trace", file, report_file, "--from", "330", program=REAL, trace=TRACE)
        self.assertIn("  takes  s: terminate, with nw = off, n = west, s = west", told)

    def test_a_run_is_told_as_json(self):
        text, report = logged("sensors.dcop", "--budget", "300")
        words = (str(PROBLEMS / "sensors.dcop"), self.file("report", report), "--json")
        status, printed, _ = self.front("trace", *words, program=REAL, trace=TRACE)
        told = json.loads(printed)
        lines = asked(TRACE, text + report).splitlines()
        self.assertEqual((status, told["method"], told["goal"]), (0, "adopt", "max"))
        self.assertEqual([step["event"] for step in told["steps"]], [int(line.split()[1]) if line[0] == "e" else 0 for line in lines if line.startswith(("start ", "event "))])
        for kind in ("took", "sent"):
            kinds = Counter(message["kind"] for step in told["steps"] for message in step[kind])
            self.assertEqual(kinds, Counter(line.split()[2] for line in lines if line.startswith(kind)))
        self.assertEqual(told["deliveries"], sum(len(step["took"]) for step in told["steps"]))

    def test_a_run_is_drawn_as_a_sequence(self):
        text, report = logged("tracking.dcop")
        picture, words = self.file("run.svg", ""), (str(PROBLEMS / "tracking.dcop"), self.file("report", report))
        for first, last in ((0, 20), (100, 110)):
            status, _, why = self.front("trace", *words, "--from", str(first), "--to", str(last), "-o", picture, program=REAL, trace=TRACE)
            self.assertEqual((status, why), (0, ""))
            groups = Counter(it.getAttribute("class") for it in minidom.parse(picture).getElementsByTagName("g"))
            events = [event for event in traced(TRACE, text + report, first, last)]
            self.assertEqual(groups["event"], len(events))
            self.assertGreaterEqual(groups["arrow"], len([event for event in events if event.took]))
        status, _, why = self.front("trace", *words, "-o", words[0], program=REAL, trace=TRACE)
        self.assertIn("is read, so it can't be written too", why)

    def test_a_log_that_no_run_has_made_is_told(self):
        text, report = logged("pair.dcop")
        wrong = self.file("report", report.replace("event y 2 x 4", "event y 2 x 5"))
        status, _, why = self.front("trace", str(PROBLEMS / "pair.dcop"), wrong, program=REAL, trace=TRACE)
        self.assertEqual(status, 3)
        self.assertIn("takes 5 messages from x, but only 4 are there", why)
        with self.assertRaisesRegex(Trouble, "no run has this log: "):
            list(traced(TRACE, text + report.replace("event y 2 x 4", "event y 2 x 5")))

    def test_the_tables_of_dpop_go_up_and_values_come_down(self):
        text = (PROBLEMS / "tracking.dcop").read_text()
        report = asked(REAL, text, "solve", "--method", "dpop", "--certificate", "yes")
        words = (str(PROBLEMS / "tracking.dcop"), self.file("report", report))
        status, told, _ = self.front("trace", *words, program=REAL)
        self.assertEqual(status, 0)
        self.assertIn("step 5  n sends nw its table over nw, 3 cells\n  costs at least 11 where nw = off\n  costs at least 9 where nw = east\n", told)
        self.assertIn("step 6  nw has all tables, and chooses nw = off: the best costs 11\n", told)
        self.assertIn("step 9  n tells s nw = off, n = west, and s chooses west\n", told)
        _, printed, _ = self.front("trace", *words, "--json", program=REAL)
        cells = {words[1]: list(map(int, words[words.index(":", 4) + 1 :])) for words in map(str.split, report.splitlines()) if words[0] == "util" and words[2] != "-"}
        self.assertEqual({step["from"]: step["cells"] for step in json.loads(printed)["steps"] if step["kind"] == "table"}, cells)
        picture = self.file("run.svg", "")
        self.front("trace", *words, "--to", "6", "-o", picture, program=REAL)
        groups = Counter(it.getAttribute("class") for it in minidom.parse(picture).getElementsByTagName("g"))
        self.assertEqual(groups, {"arrow": 5, "event": 1})


@unittest.skipUnless(REAL and TRACE, NONE)
class Figures(Case):
    """Bounds and figures of a run, from one pass over its trace."""

    def test_the_bounds_are_those_of_replays(self):
        for name in ("tracking.dcop", "sensors.dcop"):
            text, report = logged(name, "--budget", "1500")
            problem = parse(text)
            with mock.patch.dict("os.environ", SEFWLLON_TRACE=""):
                some = replaying.moments(Programs(REAL), problem, report, 12)
            told = replaying.moments(Programs(REAL, trace=TRACE), problem, report)
            for moment in some:
                here = [it for it in told if it.events <= moment.events][-1]
                self.assertEqual((here.lower, here.upper), (moment.lower, moment.upper))
            self.assertEqual((told[0].events, told[-1]), (0, some[-1]))
            few = replaying.moments(Programs(REAL, trace=TRACE), problem, report, 5)
            self.assertEqual((len(few), few[0], few[-1]), (min(5, len(told)), told[0], told[-1]))

    def test_bounds_are_drawn_in_one_pass(self):
        text, report = logged("tracking.dcop")
        words = ("draw", "bounds", str(PROBLEMS / "tracking.dcop"), self.file("report", report))
        status, told, why = self.front(*words, program=REAL, trace=TRACE)
        self.assertEqual((status, why), (0, ""))
        self.assertIn("897 messages, cost 11", told)
        minidom.parseString(told)

    def test_a_report_in_another_order_is_told_by_the_file_s_names(self):
        file, report = str(EXAMPLES / "meetings.csv"), self.file("report", "")
        status, _, _ = self.front("solve", file, "--method", "adopt", "--report", report, program=REAL)
        self.assertEqual(status, 0)
        status, told, why = self.front("trace", file, report, "--to", "1", program=REAL, trace=TRACE)
        self.assertEqual((status, why), (0, ""))
        self.assertIn("start  standup\n", told)
        self.assertIn("value Mon 9", told)

    def test_the_figures_of_a_sweep(self):
        dice = random.Random(3)
        files = []
        for at in range(2):
            tables = "".join(f"table v{a} v{b} : {' '.join(str(dice.randrange(9)) for _ in range(9))}\n" for a, b in ((0, 1), (0, 2), (1, 2), (1, 3)))
            files.append(self.file(f"p{at}.dcop", "dcop 2\n" + "".join(f"var v{i} 3\n" for i in range(4)) + tables + "end\n"))
        out = str(Path(self.file("x", "")).parent / "rows.csv")
        status, _, why = self.front("sweep", *files, "--methods", "adopt:certificate=yes:budget=100000", "--processes", "1", "-o", out, program=REAL, trace=TRACE)
        self.assertEqual(status, 0, why)
        rows = read_rows(out)
        self.assertEqual(len(rows), 2)
        for row in rows:
            text = Path(row["file"]).read_text()
            report = asked(REAL, text, "solve", "--method", "adopt", "--certificate", "yes", "--budget", "100000")
            counted, size, longest = self.counted(asked(TRACE, text + report))
            self.assertEqual({kind: int(row[f"{kind}_messages"]) for kind in counted}, counted)
            self.assertEqual((int(row["messages"]), int(row["bytes"]), int(row["longest_chain"])), (sum(counted.values()), size, longest))

    def counted(self, trace: str) -> tuple[dict[str, int], int, int]:
        """The messages taken by kind, their bytes as docs/formats/message-bytes.md has them, and the longest chain, by another way than that of the front."""
        kinds, size, events = Counter(), 0, []
        for line in trace.splitlines():
            words = line.split()
            if words[0] in ("start", "event"):
                events.append((words[1] if words[0] == "start" else words[2], [], []))
            elif words[0] in ("took", "sent"):
                events[-1][1 if words[0] == "took" else 2].append(words[1:])
            if words[0] == "took":
                kinds[words[2]] += 1
                fixed = {"value": 2, "cost": 4 + 8 + 1 + (0 if words[4:5] == ["-"] else 8), "threshold": 8 + 4, "terminate": 4}[words[2]]
                pairs = {"value": 0, "cost": len(words) - 5, "threshold": len(words) - 4, "terminate": len(words) - 3}[words[2]] // 2
                size += 8 + 1 + fixed + 6 * pairs
        depth: list[int] = []
        used: set[tuple[int, int]] = set()
        for agent, took, _ in events:
            here = 0
            for sender, *words in took:
                at, place = next((at, place) for at in range(len(depth)) if events[at][0] == sender for place, (to, *_) in enumerate(events[at][2]) if to == agent and (at, place) not in used)
                self.assertEqual(events[at][2][place][1:], words)
                used.add((at, place))
                here = max(here, depth[at] + 1)
            depth.append(here)
        return {kind: kinds[kind] for kind in ("value", "cost", "threshold", "terminate")}, size, max(depth)

    def test_the_library_replays_by_it(self):
        with mock.patch.dict("os.environ", SEFWLLON_DCOP=str(REAL), SEFWLLON_TRACE=str(TRACE), SEFWLLON_ORDER="", SEFWLLON_SEARCH=""):
            problem = Problem({"x": [0, 1], "y": [0, 1]})
            problem.table(["x", "y"], [[5, 3], [2, 7]])
            moments = replay(problem, solve(problem, method="adopt"))
        self.assertEqual((moments[0].events, moments[-1].lower, moments[-1].upper, moments[-1].messages), (0, 2, 2, 12))
