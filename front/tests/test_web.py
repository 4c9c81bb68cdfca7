"""Tests of the page in a real browser, Chromium without a window: each is what a user does.

Pictures of what was seen are kept in the folder that SEFWLLON_PICTURES names, where it is set; SEFWLLON_WINDOW is how large the window is."""

from __future__ import annotations

import importlib.util
import json
import os
import random
import shutil
import subprocess
import tempfile
import unittest
from pathlib import Path
from typing import Any

from .case import EXAMPLES, FAKE, ORDER, PROBLEMS, REAL, SEARCH, TRACE, Case
from .serving import HAS_FLASK, NO_FLASK, PATIENCE, Served, runs, until, workers

HAS_BROWSER = importlib.util.find_spec("selenium") is not None and all(map(shutil.which, ("chromium", "chromedriver")))
NO_BROWSER = "no browser: passed over; Debian's chromium, chromium-driver and python3-selenium have it"
HAS_D3 = Path("/usr/share/nodejs/d3/dist/d3.min.js").is_file()
NO_D3 = "no D3: passed over; Debian's node-d3 has it"
WEEK = """slot,Mon 9,2026-03-02 09:00
slot,Mon 11,2026-03-02 11:00
slot,Tue 9,2026-03-03 09:00
slot,Wed 10,2026-03-04 10:00,90
meeting,Kickoff,Ida;Jon;Kim
meeting,Design,Ida;Kim
meeting,Budget,Jon;Lea
meeting,Retro,Ida;Jon;Kim;Lea
absent,Ida,Mon 9
absent,Lea,Tue 9
like,Retro,Wed 10,5
like,Budget,Wed 10,1
dislike,Jon,Mon 9,2
"""
SLOW = "slow"
MEASURED = os.environ.get("SEFWLLON_MEASURED") if REAL else None
"""The file that takes what is measured, by bench/page.sh: then the built programs solve, and else stand-ins that take for ever."""
OPENED: list[Any] = []
"""The browser, which all tests share, and the folder that it keeps files in."""


def opened() -> list[Any]:
    """The browser and its folder; opened once, since that takes longest."""
    if not OPENED:
        folder = tempfile.mkdtemp(prefix="sefwllon-page-")
        unittest.addModuleCleanup(shutil.rmtree, folder, ignore_errors=True)
        browser = open_browser(folder)
        unittest.addModuleCleanup(browser.quit)
        OPENED[:] = [browser, folder]
        unittest.addModuleCleanup(OPENED.clear)  # whoever runs a test once more gets a new one
    return OPENED


def open_browser(folder: str) -> Any:
    from selenium import webdriver
    from selenium.webdriver.chrome.service import Service

    options = webdriver.ChromeOptions()
    words = ["--headless=new", "--disable-extensions", "--disable-background-networking", "--disable-dev-shm-usage", f"--user-data-dir={folder}/profile"]
    words.append(f"--window-size={os.environ.get('SEFWLLON_WINDOW', '1500,1000')}")
    for word in words + (["--no-sandbox"] if os.geteuid() == 0 else []):
        options.add_argument(word)
    options.binary_location = shutil.which("chromium")
    options.add_experimental_option("prefs", {"download.default_directory": folder, "download.prompt_for_download": False})
    options.set_capability("goog:loggingPrefs", {"browser": "ALL"})
    return webdriver.Chrome(service=Service(shutil.which("chromedriver")), options=options)


@unittest.skipUnless(HAS_FLASK, NO_FLASK)
@unittest.skipUnless(HAS_BROWSER, NO_BROWSER)
class Page(Case):
    """A service, and the browser that is open on its page."""

    words: tuple[str, ...] = ("--no-browser",)
    fake = ""
    program = REAL or FAKE
    traced: str | None = None
    """The program dcop_trace, where the page has it."""
    searched: str | None = None
    """The program dcop_search, where the page has it."""
    fresh = True
    """Whether nothing stands in the page when a test begins."""

    @classmethod
    def setUpClass(cls):
        cls.browser, cls.folder = opened()
        named = {"SEFWLLON_TRACE": cls.traced, "SEFWLLON_SEARCH": cls.searched}
        more = {name: path for name, path in named.items() if path is not None}
        cls.served = Served(*cls.words, command="web", program=cls.program, order=ORDER, fake=cls.fake, **more)
        cls.addClassCleanup(cls.served.end)

    def setUp(self):
        super().setUp()
        self.browser.get("about:blank")
        self.browser.get_log("browser")  # what a page said whose service has ended since
        self.browser.get(self.served.link)
        self.until("document.documentElement.dataset.ready")
        if self.fresh:
            self.browser.execute_script("sessionStorage.clear()")
            self.browser.refresh()
            self.until("document.documentElement.dataset.ready")

    def tearDown(self):
        said = [line["message"] for line in self.browser.get_log("browser") if line["level"] == "SEVERE"]
        self.assertEqual([line for line in said if " 422 " not in line], [], "the browser has nothing to complain of")

    def until(self, script: str) -> Any:
        """Waits until an expression of the page is true, and gives it."""
        return until(lambda: self.browser.execute_script(f"return {script}"))

    def find(self, css: str) -> Any:
        from selenium.webdriver.common.by import By

        return self.browser.find_element(By.CSS_SELECTOR, css)

    def all(self, css: str) -> list[Any]:
        from selenium.webdriver.common.by import By

        return self.browser.find_elements(By.CSS_SELECTOR, css)

    def click(self, css: str) -> None:
        self.find(css).click()

    def text(self, css: str) -> str:
        return self.find(css).text

    def sees(self, css: str, words: str) -> None:
        """Waits until words are seen in a part of the page."""
        try:
            until(lambda: words in self.browser.execute_script("return document.querySelector(arguments[0])?.innerText ?? ''", css))
        except AssertionError:
            self.fail(f"{css} says `{self.text(css)}`, and not `{words}`")

    def type(self, table: str, row: int, *cells: str, column: int = 0) -> None:
        """Types into the cells of a row, as a user who goes on with the tabulator."""
        from selenium.webdriver.common.keys import Keys

        self.find(f"#grid-{table} [data-row='{row}'][data-column='{column}']").click()
        for cell in cells:
            self.browser.switch_to.active_element.send_keys(cell, Keys.TAB)

    def rows(self, table: str) -> list[list[str]]:
        """What stands in the cells of a table."""
        script = "return [...document.querySelectorAll(`#grid-${arguments[0]} tbody tr`)].map((row) => [...row.querySelectorAll('input, select')].map((cell) => cell.value))"
        return self.browser.execute_script(script, table)[:-1]

    def open_file(self, css: str, name: str, text: str) -> None:
        self.find(css).send_keys(self.file(name, text))

    def open_week(self, text: str = WEEK) -> None:
        self.open_file("#csv-file", "week.csv", text)
        self.until("document.querySelectorAll('#calendar .slot').length")

    def solve(self) -> None:
        self.browser.execute_script("document.querySelector('#answer').textContent = ''")
        self.click("#solve")
        until(lambda: self.text("#answer") and not self.find("#stop").is_displayed())

    def drag(self, meeting: str, slot: str, look: Any = None) -> None:
        """Takes a meeting with the mouse, and puts it down in another slot."""
        from selenium.webdriver import ActionChains

        chip, box = self.find(f"[data-meeting={json.dumps(meeting)}]"), self.find(f"[data-slot={json.dumps(slot)}]")
        ActionChains(self.browser).click_and_hold(chip).move_by_offset(8, 8).move_to_element(box).perform()
        if look:
            look()
        ActionChains(self.browser).release().perform()

    def slots(self) -> dict[str, str]:
        """Which meeting stands in which slot, as the calendar shows it."""
        return self.browser.execute_script(
            "return Object.fromEntries([...document.querySelectorAll('#calendar .chip')].map((chip) => [chip.dataset.meeting, chip.closest('.slot').dataset.slot]))"
        )

    def kept(self, css: str, name: str) -> str:
        """What is in a file that the page lets the user keep."""
        path = Path(self.folder) / name
        path.unlink(missing_ok=True)
        self.click(css)
        return until(lambda: path.is_file() and path.read_bytes().decode())

    def picture(self, name: str) -> None:
        if "SEFWLLON_PICTURES" in os.environ:
            folder = Path(os.environ["SEFWLLON_PICTURES"])
            folder.mkdir(parents=True, exist_ok=True)
            self.browser.save_screenshot(str(folder / f"{name}.png"))


class Timetables(Page):
    def test_a_timetable_is_typed_and_solved(self):
        self.type("slots", 0, "Mon 9", "2026-03-02 09:00")
        self.type("slots", 1, "Mon 10", "2026-03-02 10:00", "30")
        self.type("slots", 2, "", "2026-03-03 09:00")
        self.type("meetings", 0, "Kickoff", "Ida; Jon")
        self.type("meetings", 1, "Design", "Ida, Kim")
        self.assertEqual([row[0] for row in self.rows("people")], ["Ida", "Jon", "Kim"])
        self.assertEqual(self.rows("slots")[2], ["Tue 3 9", "2026-03-03 09:00", ""])
        self.type("people", 0, "Mon 9", column=1)
        self.find("#grid-wishes select").send_keys("dislike")
        self.type("wishes", 0, "Design", "Tue 3 9", "2", column=1)
        self.solve()
        self.assertEqual(self.text("#answer"), "cost 0, and none is better (verified)")
        self.assertEqual(self.slots(), {"Kickoff": "Tue 3 9", "Design": "Mon 10"})
        self.assertEqual(
            self.kept("#csv-save", "timetable.csv"),
            "slot,Mon 9,2026-03-02 09:00\nslot,Mon 10,2026-03-02 10:00,30\nslot,Tue 3 9,2026-03-03 09:00\n"
            "meeting,Kickoff,Ida;Jon\nmeeting,Design,Ida;Kim\nabsent,Ida,Mon 9\ndislike,Design,Tue 3 9,2\n",
        )

    def test_cells_of_a_spreadsheet_are_pasted(self):
        from selenium.webdriver import ActionChains
        from selenium.webdriver.common.keys import Keys

        def paste(table: str, text: str) -> None:
            self.browser.execute_script("const area = document.createElement('textarea'); area.id = 'sheet'; area.value = arguments[0]; document.body.prepend(area); area.select()", text)
            ActionChains(self.browser).key_down(Keys.CONTROL).send_keys("c").key_up(Keys.CONTROL).perform()
            self.browser.execute_script("document.getElementById('sheet').remove()")
            self.find(f"#grid-{table} [data-row='0'][data-column='0']").click()
            ActionChains(self.browser).key_down(Keys.CONTROL).send_keys("v").key_up(Keys.CONTROL).perform()

        paste("slots", "Mon 9\t2026-03-02 09:00\nMon 10\t2026-03-02 10:00\nTue 9\t2026-03-03 09:00\t90\n")
        paste("meetings", 'Kickoff\tIda;Jon\n"Design, first"\t"Ida;\nKim"\n')
        self.assertEqual(self.rows("slots"), [["Mon 9", "2026-03-02 09:00", ""], ["Mon 10", "2026-03-02 10:00", ""], ["Tue 9", "2026-03-03 09:00", "90"]])
        self.assertEqual(self.rows("meetings"), [["Kickoff", "Ida;Jon"], ["Design, first", "Ida; Kim"]])
        self.solve()
        self.assertEqual(set(self.slots()), {"Kickoff", "Design, first"})
        self.assertIn('meeting,"Design, first",Ida;Kim\n', self.kept("#csv-save", "timetable.csv"))

    def test_a_csv_comes_in_and_goes_out(self):
        text = "# of the spring\n" + WEEK + "fixed,Kickoff,Tue 9\n"
        self.open_week(text)
        self.assertEqual(self.kept("#csv-save", "week.csv"), text.replace("absent,Ida,Mon 9\nabsent,Lea,Tue 9\n", "absent,Ida,Mon 9\nabsent,Lea,Tue 9\n"))
        self.solve()
        _, printed, _ = self.front("solve", "--json", self.file("week.csv", text), program=self.program)
        self.assertEqual((self.slots(), self.text("#answer")), (json.loads(printed)["values"], "cost 1, and none is better (verified), with 1 held"))

    def test_a_meeting_is_dragged_and_held_and_the_rest_is_solved(self):
        self.open_week()
        self.solve()
        self.assertEqual(self.text("#answer"), "cost 1, and none is better (verified)")
        self.sees("#wishes", "in all (verified)")
        before = self.slots()

        def look() -> None:
            self.sees("[data-slot='Mon 9'] .more", "Ida is absent")
            self.sees("[data-slot='Wed 10'] .more", "Retro (Ida, Jon, Kim)")
            self.picture("timetable")

        self.drag("Kickoff", "Mon 11", look)
        self.sees("#answer", "cost 1 (added up), as the best that was found, and it breaks 2 rules")
        self.sees("#breaks", "Kickoff and Design are both in Mon 11, and share Ida, Kim")
        self.assertIn("held", self.find("[data-meeting='Kickoff']").get_attribute("class"))
        self.assertEqual(self.text("#solve"), "Solve the rest")
        self.assertFalse(self.find("#save-report").is_enabled())
        self.solve()
        self.assertEqual(self.text("#answer"), "cost 3, and none is better (verified), with 1 held")
        self.assertEqual((self.slots()["Kickoff"], self.text("#breaks")), ("Mon 11", ""))
        self.sees("#wishes", "can't be, with what is held")
        for back in ("cost 1 (added up)", "cost 1, and none is better (verified)"):
            self.click("#undo")
            self.sees("#answer", back)
        self.assertEqual((self.slots(), self.text("#solve")), (before, "Solve"))
        for on in ("cost 1 (added up)", "cost 3, and none is better (verified), with 1 held"):
            self.click("#redo")
            self.sees("#answer", on)
        self.click("#release")
        self.solve()
        self.assertEqual(self.text("#answer"), "cost 1, and none is better (verified)")

    def test_a_meeting_is_moved_by_the_keyboard(self):
        from selenium.webdriver.common.keys import Keys
        from selenium.webdriver.support.ui import Select

        self.open_week()
        self.solve()
        self.find("[data-meeting='Budget']").send_keys(Keys.ENTER)
        until(lambda: "+1" in self.text("#move-to") or "-" in self.text("#move-to") or "absent" in self.text("#move-to"))
        Select(self.find("#move-to")).select_by_value("Mon 9")
        self.sees("#answer", "cost 3 (added up), 2 more than the best that was found")
        self.assertEqual(self.slots()["Budget"], "Mon 9")
        self.find("#hold").click()
        self.assertEqual(self.text("#solve"), "Solve")

    def test_wishes_that_are_not_met_have_a_price(self):
        self.open_week()
        self.solve()
        self.sees("#wishes", "Budget is in Mon 11, and Budget likes Wed 10")
        self.sees("#wishes", "would cost 4 more, 5 in all (verified)")
        self.click("#wishes button")
        self.sees("#answer", "cost 5 (added up), 4 more than the best that was found")
        self.assertEqual(self.slots()["Budget"], "Wed 10")

    def test_what_is_kept_is_what_the_command_writes(self):
        self.open_week()
        self.solve()
        week = self.file("week.csv", WEEK)
        made = {name: str(Path(week).with_name(name)) for name in ("ics", "svg", "report")}
        self.front("meetings", week, "--ics", made["ics"], "--svg", made["svg"], "--report", made["report"], program=self.program)
        for name in made:
            self.assertEqual(self.kept(f"#save-{name}", f"week.{name}"), Path(made[name]).read_bytes().decode(), name)
        status, _, _ = self.front("check", week, str(Path(self.folder) / "week.report"), program=self.program)
        self.assertEqual(status, 0)

    def test_what_is_wrong_stands_at_its_row(self):
        self.open_week()
        self.type("people", 1, "; Wed 11", column=1)
        self.sees("#grid-people tr.wrong .fault", "Lea is absent in Wed 11, which is not a slot")
        self.sees("#refused", "A row is marked red")
        self.click("#solve")
        self.sees("#answer", "The tables are refused: a row is marked red")
        self.click("#undo")
        until(lambda: not self.all("tr.wrong:not(.fault)"))
        self.assertEqual(self.text("#refused"), "")

    def test_a_name_is_changed_wherever_it_is(self):
        from selenium.webdriver.common.keys import Keys

        self.open_week()
        self.solve()
        for table, row, old, new in (("people", 0, "Ida", "Uma"), ("meetings", 2, "Budget", "Money"), ("slots", 3, "Wed 10", "Wed")):
            cell = self.find(f"#grid-{table} [data-row='{row}'][data-column='0']")
            self.assertEqual(cell.get_attribute("value"), old)
            cell.send_keys(Keys.CONTROL, "a")
            cell.send_keys(new, Keys.ENTER)
        told = self.kept("#csv-save", "week.csv")
        self.assertEqual(told, WEEK.replace("Ida", "Uma").replace("Budget", "Money").replace("Wed 10", "Wed"))
        until(lambda: self.slots().get("Retro") == "Wed")
        self.sees("#answer", "cost 1 (added up)")

    def test_the_slots_of_a_week_are_made_at_once(self):
        self.click("#grid-slots .maker summary")
        self.browser.execute_script("document.querySelector('.maker input[type=date]').value = '2026-03-02'")
        self.click("#make-week")
        self.assertEqual(len(self.rows("slots")), 15)
        self.assertEqual(self.rows("slots")[3], ["Tue 3 9", "2026-03-03 09:00", ""])
        self.click("#make-week")
        self.assertEqual(len(self.rows("slots")), 15, "none is made twice")

    def test_nobodys_words_are_taken_for_html(self):
        evil = "<img src=x onerror=\"window.evil=1\"><script>window.evil=1</script>"
        self.type("slots", 0, evil + "A")
        self.type("slots", 1, "B")
        self.type("meetings", 0, evil + "M", evil + "p; q")
        self.type("meetings", 1, "N", "q")
        self.type("wishes", 0, evil + "M", evil + "A", "3", column=1)
        self.type("people", 0, "B", column=1)
        self.solve()
        self.drag("N", evil + "A")
        self.sees("#breaks", "share q")
        self.click("[data-meeting='N']")
        self.until("document.querySelector('#move-to option')")
        self.assertIn(evil, self.browser.execute_script("return document.body.innerText"))
        self.click("#tab-problem")
        self.click("#problem-timetable")
        if REAL and HAS_D3:
            self.sees("#problem-said", "2 variables")
        self.assertIsNone(self.browser.execute_script("return window.evil ?? null"))
        self.assertEqual(self.all("main img, main script"), [])
        self.click("#tab-timetable")

    def test_a_draft_outlives_a_reload_and_is_its_pages_own(self):
        self.open_week()
        self.solve()
        before = self.slots()
        self.browser.refresh()
        self.until("document.documentElement.dataset.ready")
        self.sees("#answer", "cost 1 (added up)")
        self.assertEqual((self.slots(), len(self.rows("meetings"))), (before, 4))
        first = self.browser.current_window_handle
        self.browser.switch_to.new_window("tab")
        self.browser.get(self.served.link)
        self.until("document.documentElement.dataset.ready")
        self.assertEqual(self.rows("meetings"), [])
        self.open_week("slot,A\nmeeting,Other,x\n")
        self.solve()
        self.browser.close()
        self.browser.switch_to.window(first)
        self.assertEqual(self.slots(), before)


class Slow(Page):
    """A page whose programs take for ever."""

    fake = SLOW
    program = FAKE

    def begin(self) -> None:
        self.open_week("slot,A\nslot,B\nmeeting,M,x\nmeeting,N,x\n")
        self.click("#solve")
        self.sees("#progress", "solving: dpop")

    def test_what_takes_long_is_stopped_and_keeps_the_best(self):
        self.begin()
        self.assertFalse(self.find("#solve").is_enabled())
        self.click("#stop")
        self.sees("#answer", "Stopped: interrupted")
        self.assertEqual(set(self.slots()), {"M", "N"})

    def test_a_page_that_is_closed_ends_its_programs_and_no_others(self):
        self.begin()
        own = workers(self.served.process.pid)
        first = self.browser.current_window_handle
        self.browser.switch_to.new_window("tab")
        self.browser.get(self.served.link)
        self.until("document.documentElement.dataset.ready")
        self.begin()
        others = until(lambda: workers(self.served.process.pid) - own)
        self.browser.close()
        self.browser.switch_to.window(first)
        until(lambda: not any(map(runs, others)))
        self.assertTrue(own and all(map(runs, own)))
        self.click("#stop")
        self.sees("#answer", "Stopped: interrupted")


class Large(Page):
    """A page that solves 200 meetings."""

    program = REAL if MEASURED else FAKE
    searched = SEARCH if MEASURED else None
    fake = "" if MEASURED else SLOW

    def test_the_page_answers_while_it_solves(self):
        self.open_week(large_week())
        self.click("#solve")
        self.sees("#progress", "solving")
        found = self.browser.execute_async_script(MEASURE)
        self.assertTrue(self.find("#stop").is_displayed(), "it still solves")
        for what, milliseconds in found.items():
            self.assertLess(milliseconds, 1_000, what)
        if MEASURED:
            Path(MEASURED).write_text(json.dumps(found) + "\n")
        self.click("#stop")


MEASURE = """
const done = arguments[arguments.length - 1];
const frame = () => new Promise((resolve) => requestAnimationFrame(() => setTimeout(resolve, 0)));
const timed = async (does, rounds) => {
  const found = [];
  for (let round = 0; round < rounds; round += 1) {
    const began = performance.now();
    await does(round);
    found.push(Math.round(10 * (performance.now() - began)) / 10);
  }
  return found.sort((a, b) => a - b)[Math.floor(rounds / 2)];
};
const seen = (does) => async (round) => { does(round); await frame(); };
const cell = document.querySelector("#grid-meetings input");
const type = (round) => { cell.value = `name ${round}`; cell.dispatchEvent(new Event("change", { bubbles: true })); };
const turn = (round) => document.getElementById(round % 2 ? "tab-timetable" : "tab-problem").click();
const told = async () => {
  const plans = await import(new URL("static/plan.js", location.href));
  const { plan } = JSON.parse(sessionStorage.getItem("sefwllon-timetable"));
  return JSON.stringify({ text: plans.bare(plan).text, values: Object.fromEntries(plan.meetings.map((meeting) => [meeting.name, plan.slots[0].name])), fixed: {}, meeting: plan.meetings[0].name });
};
const where = (body) => fetch("timetable/where", { method: "POST", body }).then((answer) => answer.json());
(async () => done({
  "a frame": await timed(frame, 21),
  "a click on another part, or back": await timed(seen(turn), 6),
  "a cell that is typed": await timed(seen(type), 5),
  "the service's health": await timed(() => fetch("health").then((answer) => answer.json()), 5),
  "where a meeting that is dragged could go": await told().then((body) => timed(() => where(body), 5)),
}))();
"""
"""What is measured in the page while it solves: the middle one of several, in milliseconds."""


def large_week(meetings: int = 200, slots: int = 40, people: int = 60) -> str:
    """A timetable from a seed: meetings of 2 to 5 people, an absence in each tenth slot of a person."""
    dice = random.Random(61)
    lines = [f"slot,s{slot},2026-03-{2 + slot // 8:02} {9 + slot % 8:02}:00" for slot in range(slots)]
    names = [f"p{person}" for person in range(people)]
    lines += [f"meeting,m{meeting},{';'.join(dice.sample(names, dice.randint(2, 5)))}" for meeting in range(meetings)]
    there = {name for line in lines if line.startswith("meeting") for name in line.split(",")[2].split(";")}
    lines += [f"absent,{name},{';'.join(f's{slot}' for slot in sorted(dice.sample(range(slots), slots // 10)))}" for name in names if name in there]
    lines += [f"like,m{meeting},s{dice.randrange(slots)},{dice.randint(1, 5)}" for meeting in range(0, meetings, 3)]
    return "\n".join(lines) + "\n"


@unittest.skipUnless(REAL, "no built program: passed over")
@unittest.skipUnless(HAS_D3, NO_D3)
class Agents(Page):
    """Problems and runs."""

    traced = TRACE

    def look_at(self, name: str) -> str:
        text = (PROBLEMS / name).read_text()
        self.click("#tab-problem")
        self.open_file("#problem-file", name, text)
        self.sees("#problem-said", "sum is sought")
        return text

    def test_a_problem_is_looked_at_and_solved_by_each_method(self):
        text = self.look_at("sensors.dcop")
        variables = [line.split()[1] for line in text.splitlines() if line.startswith("var ")]
        for place in ("graph", "tree", *(["ordered"] if ORDER else [])):
            self.until(f"document.querySelectorAll('#{place} .node').length === {len(variables)}")
        told = subprocess.run([REAL, "tree"], input=text, capture_output=True, text=True).stdout
        parents = {words[1]: words[3] for words in map(str.split, told.splitlines()) if words[:1] == ["node"]}
        drawn = self.browser.execute_script("return [...document.querySelectorAll('#tree .node title')].map((title) => title.textContent)")
        self.assertEqual([line.split(":")[0] for line in drawn], list(parents))
        self.click("#problem-solve")
        until(lambda: len(self.all("#problem-methods tr[data-cost]")) >= 3 and not self.find("#problem-stop").is_displayed())
        costs = {row.get_attribute("data-method"): row.get_attribute("data-cost") for row in self.all("#problem-methods tr[data-cost]")}
        _, printed, _ = self.front("solve", "--json", str(PROBLEMS / "sensors.dcop"), program=REAL)
        self.assertEqual({costs["dpop"], costs["cut"], costs["auto"]}, {str(json.loads(printed)["cost"])})
        self.picture("problem")
        self.click("#problem-methods tr[data-method='dpop'] button")
        self.until("document.querySelector('#graph .value').textContent.indexOf('values') < 0")

    def test_files_of_each_kind_are_read(self):
        self.click("#tab-problem")
        for name, text, words in (("week.csv", WEEK, "4 variables"), ("knapsack.wcsp", (EXAMPLES / "knapsack.wcsp").read_text(), "variables")):
            self.open_file("#problem-file", name, text)
            self.sees("#problem-said", words)
        self.click("#problem-paste summary")
        self.find("#problem-text").send_keys("dcop 2\nvar x 2\nvar y 2\ntable x y : 5 3 2\nend\n")
        self.click("#problem-read")
        self.sees("#problem-said", "Line 4")
        self.assertFalse(self.find("#problem-solve").is_enabled())

    def test_a_run_is_stepped_through(self):
        text = self.look_at("sensors.dcop")
        self.click("#tab-run")
        self.click("#run-adopt")
        self.sees("#run-said", "(verified)")
        last = self.until("Number(document.querySelector('#slider').max)")
        report = subprocess.run([REAL, "solve", "--method", "adopt", "--certificate", "yes", "--budget", "2000"], input=text, capture_output=True, text=True).stdout
        self.assertEqual(last, report.count("\nevent "))

        def compare(count: int) -> None:
            self.until(f"document.querySelector('.states')?.dataset.after === '{count}'")
            told = subprocess.run([REAL, "replay", "--after", str(count)], input=text + report, capture_output=True, text=True).stdout
            wanted = [dict(zip(words[2::2], words[3::2])) for words in map(str.split, told.splitlines()) if words[0] == "agent"]
            names = {words[1]: words[3:] for words in map(str.split, text.splitlines()) if words[:1] == ["var"] and words[2] == ":"}
            for state, agent in zip(wanted, [words[1] for words in map(str.split, told.splitlines()) if words[0] == "agent"]):
                state["agent"] = agent
                if agent in names:
                    state["value"] = names[agent][int(state["value"])]
            if TRACE:
                self.compare_messages(text + report, count, wanted)
            script = "return [...document.querySelectorAll('.states tbody tr')].map((row) => ({ agent: row.dataset.agent, ...Object.fromEntries([...row.querySelectorAll('td[data-key]')].map((cell) => [cell.dataset.key, cell.textContent])) }))"
            self.assertEqual(self.browser.execute_script(script), wanted)
            events = [line.split() for line in report.splitlines() if line.startswith("event ")][:count]
            delivered = sum(int(word) for words in events for word in words[4::2])
            self.assertEqual(self.find("#plot .cursor").get_attribute("data-deliveries"), str(delivered))
            self.assertEqual(self.text("#step-at"), f"{count} of {last}")

        compare(0)
        for count in (1, 2, 3):
            self.click("#step-on")
            compare(count)
            self.assertEqual(len(self.all("#run-tree .letter")), len([line for line in report.splitlines() if line.startswith("event ")][count - 1].split()[3::2]))
        self.click("#step-back")
        compare(2)
        middle = last // 2
        self.browser.execute_script("const slider = document.querySelector('#slider'); slider.value = arguments[0]; slider.dispatchEvent(new Event('input'))", middle)
        compare(middle)
        self.picture("run")
        self.click("#step-last")
        compare(last)
        self.click("#step-first")
        compare(0)
        self.click("#step-play")
        self.until("Number(document.querySelector('#slider').value) >= 2")
        self.click("#step-play")
        plot = self.find("#plot svg")
        from selenium.webdriver import ActionChains

        ActionChains(self.browser).move_to_element(plot).click().perform()
        self.until("Number(document.querySelector('#slider').value) > 5")

    def compare_messages(self, text: str, count: int, wanted: list[dict[str, str]]) -> None:
        """Compares the messages that are shown with those of dcop_trace, and adds what it tells of contexts to what is wanted."""
        told = subprocess.run([TRACE, "--to", str(count)], input=text, capture_output=True, text=True).stdout.splitlines()
        names = {words[1]: words[3:] for words in map(str.split, text.splitlines()) if words[:1] == ["var"] and words[2] == ":"}
        contexts, agent, sent, taken = {}, "", 0, 0
        for words in map(str.split, told):
            agent = words[1] if words[0] == "start" else words[2] if words[0] == "event" else agent
            if words[0] == "context":
                pairs = zip(words[1::2], words[2::2])
                contexts[agent] = ", ".join(f"{name} = {names[name][int(value)] if name in names else value}" for name, value in pairs)
            sent, taken = sent + (words[0] == "sent"), taken + (words[0] == "took")
        for state in wanted:
            state["context"] = contexts[state["agent"]]
        here = subprocess.run([TRACE, "--from", str(count), "--to", str(count)], input=text, capture_output=True, text=True).stdout.splitlines()
        for kind, word in (("took", "took "), ("sent", "sent ")):
            lines = self.browser.execute_script("return [...document.querySelectorAll('.messages.' + arguments[0] + ' li')].map((one) => one.dataset.line)", kind)
            self.assertEqual(lines, [line for line in here if line.startswith(word)] if count else [])
        self.assertEqual(len(self.all(".messages.way li")), min(200, sent - taken))
        self.assertEqual(sum(int(dot.text) for dot in self.all("#run-tree .waiting text")), min(200, sent - taken))

    def test_a_report_with_a_log_is_opened(self):
        text = self.look_at("pair.dcop")
        report = subprocess.run([REAL, "solve", "--method", "adopt", "--certificate", "yes"], input=text, capture_output=True, text=True).stdout
        self.click("#tab-run")
        self.open_file("#run-file", "pair.report", report)
        self.sees("#run-said", "6 events, 12 messages: all agents have ended. Cost 2, the best lies between 2 and 2 (verified).")
        self.open_file("#run-file", "pair.report", report.replace("event y 2 x 4", "event y 2 x 5"))
        self.sees("#run-said", "dcop check says no")

    def test_the_tables_of_dpop_go_up_and_values_come_down(self):
        self.look_at("pair.dcop")
        self.click("#tab-run")
        self.click("#run-dpop")
        self.sees("#run-said", "Cost 2, and none is better (verified)")
        self.click("#step-on")
        self.sees("#step-said", "y sends x its table over x, 2 cells.")
        self.assertEqual([row.text for row in self.all(".cells tbody tr")], ["0 3", "1 2"])
        self.click("#step-on")
        self.sees("#step-said", "The root, x, has all tables, and chooses x = 1. The best sum is 2.")
        self.click("#step-on")
        self.sees("#step-said", "x tells y the values x = 1, and y chooses y = 0.")
        self.assertEqual([state.text for state in self.all("#run-tree .state")], ["= 1", "= 0"])


class Doors(Page):
    """A page of another site, and a link without its token."""

    def test_the_link_without_its_token_opens_nothing(self):
        self.browser.get(f"http://127.0.0.1:{self.served.port}/")
        self.assertIn("the token is missing", self.text("body"))
        self.browser.get_log("browser")

    def test_another_sites_page_gets_nothing(self):
        with Served() as other:  # another port is another site
            self.browser.get(other.link)
            found = self.browser.execute_async_script(
                "const done = arguments[arguments.length - 1]; fetch(arguments[0] + 'health').then((answer) => answer.text()).then(done, (fault) => done(`refused: ${fault}`))",
                self.served.link,
            )
            self.assertIn("refused: ", found)
            self.browser.get("about:blank")
        self.browser.get_log("browser")


class First(Page):
    """A page that begins with a file."""

    words = ("--no-browser", str(EXAMPLES / "meetings.csv"))
    fresh = False

    def test_the_page_begins_with_the_file(self):
        self.assertEqual([row[0] for row in self.rows("meetings")], ["standup", "budget", "design", "review"])
        self.solve()
        self.assertEqual(self.text("#answer"), "cost 0, and none is better (verified)")


