"""Tests of the service: who is let in, what is answered, its limits, and how it ends."""

from __future__ import annotations

import http.client
import json
import os
import signal
import subprocess
import sys
import threading
import time
import unittest
from pathlib import Path

import sefwllon
from sefwllon.problem import Trouble

from .case import EXAMPLES, FAKE, FRONT, ORDER, PROBLEMS, REAL, Case
from .serving import HAS_FLASK, NO_FLASK, PATIENCE, Served, children, runs, until

PAIR = (PROBLEMS / "pair.dcop").read_text()
WEEK = (EXAMPLES / "meetings.csv").read_text()


@unittest.skipUnless(HAS_FLASK, NO_FLASK)
class Doors(unittest.TestCase):
    """Who is let in."""

    @classmethod
    def setUpClass(cls):
        cls.served = Served()
        cls.addClassCleanup(cls.served.end)

    def test_nothing_is_answered_without_the_token(self):
        paths = ("/", "/health", "/d3.js", "/static/main.js", "/static/style.css", "/service", "/first", "/jobs/x", "/pages/x/events")
        for path in (*paths, "/wrong/health", f"/{self.served.token[:-1]}/health"):
            for method in ("GET", "POST", "DELETE", "OPTIONS", "HEAD"):
                status, told, headers = self.served.ask(method, path)
                self.assertEqual(status, 401, (method, path))
                self.assertTrue(method == "HEAD" or "the token is missing" in told["why"])
                self.assertNotIn("Access-Control-Allow-Origin", headers)
        status, told, _ = self.served.ask("POST", "/solve", PAIR.encode())
        self.assertEqual((status, list(told)), (401, ["why"]))

    def test_the_token_stands_in_the_link_or_in_a_header(self):
        self.assertEqual(self.served.ask("GET", self.served.at("health"))[1]["status"], "ok")
        self.assertEqual(self.served.ask("GET", "/health", Authorization=f"Bearer {self.served.token}")[1]["status"], "ok")
        for wrong in (f"Bearer {self.served.token}x", "Bearer ", f"Basic {self.served.token}", "Bearer \xff"):
            self.assertEqual(self.served.ask("GET", "/health", Authorization=wrong)[0], 401)
        status, _, headers = self.served.ask("GET", f"/{self.served.token}")
        self.assertEqual((status, headers["Location"]), (308, f"/{self.served.token}/"))

    def test_another_host_is_refused(self):
        for host in ("example.org", f"example.org:{self.served.port}", "127.0.0.1", f"127.0.0.1:{self.served.port}.example.org", f"0.0.0.0:{self.served.port}"):
            status, told, _ = self.served.ask("GET", self.served.at("health"), Host=host)
            self.assertEqual((status, list(told)), (403, ["why"]), host)
        self.assertEqual(self.served.ask("GET", self.served.at("health"), Host=f"localhost:{self.served.port}")[0], 200)

    def test_another_origin_is_refused(self):
        for origin in ("http://example.org", "null", f"https://127.0.0.1:{self.served.port}", f"http://127.0.0.1:{self.served.port + 1}", ""):
            for method in ("GET", "POST", "OPTIONS"):
                status, told, _ = self.served.ask(method, self.served.at("health"), Origin=origin)
                self.assertEqual((status, told), (403, {"why": "the request comes from another site's page"}), origin)
        self.assertEqual(self.served.ask("GET", self.served.at("health"), Origin=f"http://127.0.0.1:{self.served.port}")[0], 200)

    def test_it_listens_at_127_0_0_1_alone(self):
        lines = [line for name in ("tcp", "tcp6") for line in Path(f"/proc/net/{name}").read_text().splitlines()]
        here = [line.split()[1] for line in lines if line.split()[1].endswith(f":{self.served.port:04X}") and line.split()[3] == "0A"]
        self.assertEqual(here, [f"0100007F:{self.served.port:04X}"])

    def test_each_answer_is_for_this_page_alone(self):
        for where in ("", "health", "static/main.js", "nothing"):
            headers = self.served.ask("GET", self.served.at(where))[2]
            self.assertIn("default-src 'none'; script-src 'self';", headers["Content-Security-Policy"])
            self.assertEqual((headers["Referrer-Policy"], headers["X-Content-Type-Options"]), ("no-referrer", "nosniff"))
            self.assertEqual(headers["Cache-Control"], "no-store")
            self.assertEqual(headers["Server"].strip(), "sefwllon")

    def test_no_file_of_the_machine_is_given(self):
        for where in ("static/../app.py", "static/%2e%2e/app.py", "static/%2fetc/passwd", "../../etc/passwd", "static/..%2f..%2fcli.py"):
            status, told, _ = self.served.ask("GET", self.served.at(where))
            self.assertIn(status, (308, 401, 404), where)
            self.assertNotIn("root:", str(told))
            self.assertNotIn("import", str(told))


@unittest.skipUnless(HAS_FLASK, NO_FLASK)
class Answers(Case):
    """What is answered."""

    @classmethod
    def setUpClass(cls):
        cls.served = Served("--most-bytes", "100000", program=REAL or FAKE, order=ORDER or FAKE)
        cls.addClassCleanup(cls.served.end)
        cls.client = cls.served.client

    def post(self, where: str, told: object) -> tuple[int, dict]:
        status, found, _ = self.served.ask("POST", self.served.at(where), json.dumps(told).encode(), Content_Type="application/json")
        return status, found

    def test_an_answer_is_that_of_the_command(self):
        _, printed, _ = self.front("solve", "--json", str(PROBLEMS / "pair.dcop"), program=REAL or FAKE)
        answer = self.client.solve(PAIR)
        wanted = {name: told for name, told in json.loads(printed).items() if name not in ("time", "bounds", "versions")}
        self.assertEqual({name: answer[name] for name in wanted}, wanted)
        self.assertEqual((answer["rests_on"], answer["sentence"]), ("verified", "cost 2, and none is better (verified)"))
        self.assertNotIn("report", answer)

    def test_a_problem_may_come_as_text_alone(self):
        status, told, _ = self.served.ask("POST", self.served.at("solve?wait=50&method=plain&name=x.dcop"), PAIR.encode())
        self.assertEqual((status, told["state"], told["answer"]["cost"]), (200, "done", 2))
        self.assertEqual(told["answer"]["rests_on"], "proved")

    def test_a_problem_may_come_as_json(self):
        problem = {"goal": "max", "variables": {"a": ["red", "green"], "b": ["red", "green"]}, "tables": [{"scope": ["a", "b"], "costs": [0, 3, 7, 0]}]}
        answer = self.client.solve(problem=problem)
        self.assertEqual((answer["cost"], answer["values"]), (7, {"a": "green", "b": "red"}))
        for wrong in ({"variables": {"a b": ["x"]}, "tables": []}, {"variables": {"a": ["x"]}, "tables": [{"scope": ["b"], "costs": [1]}]}, {"variables": {"a": ["x"]}, "tables": [{"scope": ["a"], "costs": [0.5]}]}, {}, [], 3):
            self.assertEqual(self.post("solve", {"problem": wrong})[0], 422)

    def test_a_report_is_checked(self):
        answer = self.client.solve(PAIR, certificate=True)
        verdict = self.client.check(PAIR, answer["report"])
        self.assertEqual((verdict["yes"], verdict["sentence"]), (True, "yes, verified: cost 2, and none is better"))
        forged = self.client.check(PAIR, answer["report"].replace("cost 2", "cost 1"))
        self.assertEqual((forged["yes"], forged["sentence"][:4]), (False, "no: "))

    def test_meetings_are_answered_in_the_words_of_who_makes_them(self):
        answer = self.client.meetings(WEEK, fixed={"standup": "Tue 9"})
        self.assertEqual((answer["cost"], answer["values"]["standup"], answer["breaks"], answer["unplaced"]), (5, "Tue 9", [], []))
        self.assertEqual({wish["cost"] for wish in answer["unmet"]}, {"3", "2"})
        self.assertEqual(self.client.meetings(rows=[["slot", "A"], ["slot", "B"], ["meeting", "M, N", "x"], ["like", "M, N", "B", 2]])["values"], {"M, N": "B"})
        status, _, _ = self.front("check", self.file("week.csv", answer["csv"]), self.file("report", answer["report"]), program=REAL or FAKE)
        self.assertEqual(status, 0)

    def test_what_meeting_a_wish_would_cost(self):
        week = "slot,A\nslot,B\nmeeting,M,x\nmeeting,N,x\nlike,M,A,3\nlike,N,A,2\n"
        answer = self.client.meetings(week)
        (wish,) = answer["unmet"]
        self.assertEqual((answer["cost"], wish["who"]), (2, "N"))
        price = self.client.answer("wish", text=week, wish=wish)
        self.assertEqual((price["cost"], price["values"], price["rests_on"]), (3, {"M": "B", "N": "A"}, "verified"))
        held = self.client.answer("wish", text=week, wish=wish, fixed={"M": "A"})
        self.assertEqual((held["cost"], held["never"]), (None, True))

    def test_a_timetable_is_added_up_at_once(self):
        values = {"standup": "Mon 10", "budget": "Mon 10", "design": "Tue 9", "review": "Tue 9"}
        status, look = self.post("timetable/look", {"text": WEEK, "values": values})
        self.assertEqual((status, look["added"], look["unplaced"]), (200, "5", []))
        self.assertEqual(
            [one["sentence"] for one in look["breaks"]],
            [
                "standup is in Mon 10, and Ann can't: `absent,Ann,Mon 10` (line 12)",
                "budget is in Mon 10, and Ann can't: `absent,Ann,Mon 10` (line 12)",
                "standup and budget are both in Mon 10, and share Ann, Ben",
                "design and review are both in Tue 9, and share Cho",
            ],
        )
        _, places = self.post("timetable/where", {"text": WEEK, "values": values, "meeting": "standup"})
        self.assertEqual(places[0], {"slot": "Mon 9", "more": -3.0, "breaks": []})
        self.assertEqual(places[1]["breaks"], ["Ann is absent", "budget (Ann, Ben)"])
        _, part = self.post("timetable/look", {"text": WEEK, "values": {"standup": "Mon 9"}})
        self.assertEqual((part["added"], part["unplaced"]), ("0", ["budget", "design", "review"]))

    def test_what_is_wrong_is_told_in_a_sentence(self):
        for where, told, status, why in (
            ("solve", {"text": "nonsense"}, 202, None),
            ("solve", {}, 422, "the request has no `text`"),
            ("solve", {"text": PAIR, "path": "/etc/passwd"}, 422, "takes name, text"),
            ("solve", {"text": 7}, 422, "`text` must be a text"),
            ("solve", {"text": PAIR, "time": "soon"}, 422, "`time` must be a number of seconds"),
            ("solve", {"text": PAIR, "workers": -1}, 422, "`workers` must be a whole number"),
            ("solve?wait=x", {"text": PAIR}, 422, "`wait` must be a number of seconds"),
            ("meetings", {"text": WEEK, "fixed": ["standup"]}, 422, "`fixed` must be an object"),
            ("timetable/look", {"text": "slot,A\nmeting,X,y\n", "values": {}}, 422, "line 2: a line must begin with"),
            ("solve", [], 422, "the request must be a JSON object"),
            ("nothing", {}, 404, "there is nothing"),
            ("health", {}, 405, "does not take that HTTP method"),
        ):
            found, body = self.post(where, told)
            self.assertEqual(found, status, (where, told, body))
            self.assertTrue(why is None or why in body["why"], body)
        with self.assertRaisesRegex(Trouble, "nonsense"):
            self.client.solve("nonsense")
        with self.assertRaisesRegex(Trouble, "invalid choice"):
            self.client.solve(PAIR, method="magic")

    def test_a_request_has_a_limit(self):
        status, told, _ = self.served.ask("POST", self.served.at("solve"), b"x" * 100_001)
        self.assertEqual((status, told["why"]), (413, "the request is longer than 100,000 bytes"))
        status, told, _ = self.served.ask("POST", self.served.at("solve"), None, Transfer_Encoding="chunked")
        self.assertEqual(status, 411)

    def test_an_answer_is_kept_by_its_content(self):
        text = PAIR.replace("5 3 2 7", "9 8 7 6")
        first, second = (self.client.begin("solve", text=text, method="plain") for _ in range(2))
        until(lambda: self.client.job(first["job"])["state"] == "done")
        until(lambda: self.client.job(second["job"])["state"] == "done")
        again, other = self.client.begin("solve", text=text, method="plain"), self.client.begin("solve", text=text + "# more\n", method="plain")
        self.assertEqual((again["state"], again["kept"], again["answer"]["cost"]), ("done", True, 6))
        self.assertEqual(until(lambda: (job := self.client.job(other["job"]))["state"] == "done" and job)["kept"], False)

    def test_only_the_ending_of_a_name_counts(self):
        for name in ("../../../tmp/evil.csv", "/etc/passwd.csv", "week.CSV"):
            self.assertEqual(self.client.solve(WEEK, name=name)["cost"], 0)

    def test_many_ask_at_once(self):
        found: dict[int, int] = {}

        def ask(number: int) -> None:
            found[number] = self.client.solve(f"dcop 2\nvar x 2\ntable x : {number} {number + 1}\nend\n")["cost"]

        threads = [threading.Thread(target=ask, args=(number,)) for number in range(12)]
        for thread in threads:
            thread.start()
        for thread in threads:
            thread.join()
        self.assertEqual(found, {number: number for number in range(12)})

    def test_the_package_has_the_client(self):
        self.assertEqual(sefwllon.Client(self.served.link.rstrip("/")).health()["status"], "ok")
        bare = sefwllon.Client(f"http://127.0.0.1:{self.served.port}", self.served.token)
        self.assertEqual(bare.health()["version"], sefwllon.__version__)
        with self.assertRaisesRegex(Trouble, "the token is missing"):
            sefwllon.Client(f"http://127.0.0.1:{self.served.port}").health()
        with self.assertRaisesRegex(Trouble, "the service does not answer"):
            sefwllon.Client("http://127.0.0.1:9/").health()

    @unittest.skipUnless(REAL and ORDER, "no built programs")
    def test_a_problem_in_another_order(self):
        text = "dcop 2\n" + "".join(f"var v{i} 3\n" for i in range(7)) + "".join(f"table v{i} v6 : {' 1' * 9}\n" for i in range(6)) + "end\n"
        answer = self.client.order(text)
        self.assertEqual((answer["largest_as_given"] >= answer["largest"], answer["largest"]), (True, 9))
        self.assertEqual(self.client.solve(answer["text"])["cost"], 6)

    @unittest.skipUnless(REAL, "no built program")
    def test_a_run_is_replayed(self):
        run = self.client.answer("run", text=PAIR)
        told = self.client.ask("GET", f"jobs/{self.client.begin('run', text=PAIR)['job']}/after/2")
        self.assertEqual((len(run["events"]), run["verified"], run["status"]), (6, True, "solved"))
        self.assertIn("dcop_trace is not built", told["untold"])
        self.assertEqual(told["agents"][1], {"agent": "y", "value": "1", "lower": "3", "upper": "3", "threshold": "3", "ended": "no"})


@unittest.skipUnless(HAS_FLASK, NO_FLASK)
class Running(unittest.TestCase):
    """Jobs that run, that wait, and that end before they are done."""

    def test_a_queue_has_an_end_and_jobs_are_cancelled(self):
        with Served("--processes", "1", "--waiting", "1", fake="slow") as served:
            first = served.client.begin("solve", text=PAIR)
            until(lambda: served.client.job(first["job"])["state"] == "running")
            below = until(lambda: (found := children(served.process.pid)) and len(found) >= 2 and found)
            second = served.client.begin("solve", text=PAIR, method="plain")
            with self.assertRaisesRegex(Trouble, "1 requests already wait: try again later"):
                served.client.begin("solve", text=PAIR, method="cut")
            self.assertEqual(served.client.health()["jobs"], {"waiting": 1, "running": 1})
            self.assertEqual(served.client.cancel(second["job"])["state"], "cancelled")
            self.assertEqual(served.client.cancel(first["job"])["state"], "cancelled")
            until(lambda: not any(map(runs, below)))
            told = served.client.job(first["job"])
            self.assertEqual((told["state"], told["why"], told["answer"]), ("cancelled", "it was cancelled", None))

    def test_a_job_that_is_stopped_keeps_the_best(self):
        with Served(fake="slow") as served:
            job = served.client.begin("solve", text=PAIR)
            until(lambda: served.client.job(job["job"])["said"])
            served.client.stop(job["job"])
            told = until(lambda: (found := served.client.job(job["job"]))["state"] == "done" and found)
            self.assertEqual((told["answer"]["cost"], told["answer"]["stopped"], told["answer"]["rests_on"]), (2, "interrupted", "added up"))
            self.assertFalse(served.client.begin("solve", text=PAIR)["state"] == "done", "it is not kept")

    def test_time_is_kept(self):
        with Served("--most-time", "1s", fake="slow") as served:
            answer = served.client.solve(PAIR, time=500)
            self.assertEqual((answer["cost"], answer["stopped"], answer["rests_on"]), (2, "the time is over", "added up"))

    def test_bounds_are_told_while_it_runs(self):
        with Served(fake="wide turns spends") as served:
            job = served.client.begin("solve", text=PAIR)
            told = until(lambda: (found := served.client.job(job["job"]))["state"] == "done" and found)
            self.assertTrue(told["bounds"] and all(bound["cost"] - bound["gap"] <= 2 <= bound["cost"] for bound in told["bounds"]), told)

    def test_it_ends_cleanly(self):
        for how in (signal.SIGTERM, signal.SIGINT):
            with Served(fake="slow") as served:
                served.client.begin("solve", text=PAIR)
                below = until(lambda: (found := children(served.process.pid)) and len(found) >= 2 and found)
                self.assertEqual((served.end(how), served.said), (0, ""))
                until(lambda: not any(map(runs, below)))

    def test_a_page_that_is_closed_ends_its_programs(self):
        with Served("--processes", "2", fake="slow") as served:
            pages = [http.client.HTTPConnection(served.host, served.port, timeout=PATIENCE) for _ in range(2)]
            heard = []
            for name, page in zip("ab", pages):
                page.request("GET", served.at(f"pages/{name}/events"))
                heard.append(page.getresponse())
            jobs = [served.client.begin("solve", text=PAIR, page=name) for name in "ab"]
            for job, answer in zip(jobs, heard):
                news = json.loads(until(lambda: (line := answer.readline()).startswith(b"data: ") and line)[6:])
                self.assertEqual([one["job"] for one in news], [job["job"]])
            until(lambda: all(served.client.job(job["job"])["state"] == "running" for job in jobs))
            heard[0].close()
            pages[0].close()
            until(lambda: served.client.job(jobs[0]["job"])["state"] == "cancelled")
            self.assertEqual(served.client.job(jobs[1]["job"])["state"], "running")
            heard[1].close()
            pages[1].close()

    def test_a_program_that_lies_is_not_believed(self):
        with Served(fake="lies") as served, self.assertRaisesRegex(Trouble, "don't trust this program"):
            served.client.solve(PAIR)

    def test_a_worker_that_crashes_is_told(self):
        with Served(fake="slow") as served:
            job = served.client.begin("solve", text=PAIR)
            (worker, *_) = until(lambda: children(served.process.pid))
            until(lambda: served.client.job(job["job"])["said"])
            os.kill(worker, signal.SIGKILL)
            told = until(lambda: (found := served.client.job(job["job"]))["state"] == "failed" and found)
            self.assertIn("ended without an answer, by the signal 9", told["why"])


class Starting(Case):
    """How it begins, and where it can't."""

    def start(self, *words: str, before: str = "", **environment: str) -> subprocess.CompletedProcess[str]:
        kept = dict(os.environ, PYTHONPATH=str(FRONT), SEFWLLON_DCOP=FAKE, **environment)
        code = f"import sys; {before}\nfrom sefwllon.cli import main; sys.exit(main({list(words)!r}))"
        return subprocess.run([sys.executable, "-c", code], env=kept, capture_output=True, text=True, timeout=PATIENCE)

    def test_without_flask_a_sentence_says_so(self):
        for words in (("serve",), ("web",)):
            told = self.start(*words, before="sys.modules['flask'] = None")
            self.assertEqual((told.returncode, told.stdout), (3, ""))
            self.assertEqual(told.stderr, "sefwllon: the page and the service need Flask: install Debian's python3-flask\n")

    @unittest.skipUnless(HAS_FLASK, NO_FLASK)
    def test_what_it_can_not_begin_with_is_told(self):
        with Served() as served:
            told = self.start("serve", "--port", str(served.port))
            self.assertEqual((told.returncode, told.stdout), (3, ""))
            self.assertIn(f"the port {served.port} can't be used", told.stderr)
        self.assertIn("SEFWLLON_TOKEN must have at least 16", self.start("serve", SEFWLLON_TOKEN="short").stderr)
        self.assertIn("--processes must be a number from 1 to 64", self.start("serve", "--processes", "0").stderr)
        self.assertIn("can't be read", self.start("web", "nowhere.csv").stderr)

    @unittest.skipUnless(HAS_FLASK, NO_FLASK)
    def test_a_token_may_be_told(self):
        with Served(SEFWLLON_TOKEN="abcdefgh-IJKLMNOP") as served:
            self.assertEqual(served.link, f"http://127.0.0.1:{served.port}/abcdefgh-IJKLMNOP/")

    @unittest.skipUnless(HAS_FLASK, NO_FLASK)
    def test_the_browser_is_led_by_a_file_that_others_can_not_read(self):
        told = Path(self.file("told", ""))
        browser = self.file("browser", f'#!/bin/sh\nfile="${{1#file://}}"\nstat -c %a "$file" "$(dirname "$file")" > {told}\necho "$@" >> {told}\ncat "$file" >> {told}\n')
        os.chmod(browser, 0o755)
        with Served(command="web", BROWSER=browser) as served:
            until(lambda: "</title>" in told.read_text())
            mode, folder, words, page = told.read_text().splitlines()
            self.assertEqual((mode, folder), ("600", "700"))
            self.assertNotIn(served.token, words)
            self.assertIn(f"url={served.link}", page)
            self.assertEqual(served.end(), 0)
        self.assertFalse(Path(words.removeprefix("file://")).exists())
        for wrong in ("/nowhere/browser", "a 'quote"):
            with Served(command="web", BROWSER=wrong, PATH="/nowhere") as served:
                self.assertEqual(served.client.health()["status"], "ok")
                served.end()
                self.assertEqual(served.said, "sefwllon: no browser was found: open the link yourself\n")
