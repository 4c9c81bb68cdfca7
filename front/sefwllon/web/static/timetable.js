// The timetable: tables, a solved week, meetings that are dragged and held, wishes and what they would cost.
import { answered, begin, post } from "./api.js";
import { Calendar } from "./calendar.js";
import { by, chooseBy, dropBy, el, figure, keep, say, show } from "./dom.js";
import { Grid } from "./grid.js";
import { History } from "./history.js";
import * as plans from "./plan.js";

const DRAFT = "sefwllon-timetable";
const AT_ONCE = 2; // how many wishes are asked for at the same time
const LOOK_AFTER = 250; // milliseconds behind the last change
const MOST_RESULTS = 50; // how many answers are kept, for undo
const WEEKDAYS = [["Mon", 1], ["Tue", 2], ["Wed", 3], ["Thu", 4], ["Fri", 5], ["Sat", 6], ["Sun", 0]];

export class Timetable {
  constructor() {
    this.plan = plans.empty();
    this.counts = new Map(); // how many meetings each person has
    this.title = "timetable";
    this.look = null; // what the service says of the plan as it is
    this.results = []; // the answers so far, and for which plan each is
    this.job = null;
    this.prices = new Map();
    this.chosen = null;
    this.makeTables();
    this.calendar = new Calendar(by("calendar"), by("tray"), {
      moved: (meeting, slot) => this.move(meeting, slot),
      chose: (meeting) => this.choose(meeting),
      asked: (meeting) => post("timetable/where", { ...this.asked(), meeting }).catch(() => []),
    });
    this.history = new History(this.plan);
    this.bind();
    this.restore();
  }

  makeTables() {
    const grid = (table, title, columns) => new Grid(title, columns, (rows) => this.edit(plans.changed(this.plan, table, rows)));
    this.grids = {
      slots: grid("slots", "Slots", [
        { key: "name", title: "Slot", hint: "Mon 9" },
        { key: "begin", title: "Begins", hint: "2026-03-02 09:00", wide: true },
        { key: "minutes", title: "Minutes", hint: "60" },
      ]),
      meetings: grid("meetings", "Meetings", [
        { key: "name", title: "Meeting", hint: "Kickoff" },
        { key: "people", title: "People", hint: "Ida; Jon; Kim", wide: true },
      ]),
      people: grid("people", "People and absences", [
        { key: "name", title: "Person", hint: "Ida" },
        { key: "absent", title: "Absent in", hint: "Mon 9; Tue 9", wide: true },
        { key: "meets", title: "Meetings", shown: (person) => String(this.counts.get(person.name) ?? 0) },
      ]),
      wishes: grid("wishes", "Wishes", [
        { key: "taste", title: "Wish", options: ["like", "dislike"] },
        { key: "who", title: "Person or meeting", hint: "Retro" },
        { key: "slots", title: "Slots", hint: "Wed 10", wide: true },
        { key: "cost", title: "Cost", hint: "5" },
      ]),
      others: grid("others", "Other lines", [{ key: "line", title: "As in the CSV", wide: true }]),
    };
    for (const [table, one] of Object.entries(this.grids)) one.node.id = `grid-${table}`;
    this.grids.others.node.open = false;
    by("tables").append(...Object.values(this.grids).map((one) => one.node));
    this.grids.slots.node.querySelector("summary").after(this.weekMaker());
  }

  /** A line that makes the slots of a week or more at once. */
  weekMaker() {
    const first = el("input", { type: "date", "aria-label": "first day" });
    const days = WEEKDAYS.map(([name, day]) => el("label", {}, el("input", { type: "checkbox", value: day, checked: day >= 1 && day <= 5 }), name));
    const from = el("input", { type: "time", value: "09:00", "aria-label": "from" });
    const to = el("input", { type: "time", value: "12:00", "aria-label": "to" });
    const minutes = el("input", { type: "number", min: "5", value: "60", "aria-label": "minutes" });
    const weeks = el("input", { type: "number", min: "1", max: "53", value: "1", "aria-label": "weeks" });
    const told = (time) => Number(time.value.slice(0, 2)) * 60 + Number(time.value.slice(3, 5));
    const make = () => {
      if (!first.value || !(Number(minutes.value) >= 5) || told(to) <= told(from)) return first.focus();
      const chosen = days.map((label) => label.firstChild).filter((box) => box.checked).map((box) => Number(box.value));
      const made = plans.weekOfSlots(first.value, chosen, told(from), told(to), Number(minutes.value), Math.min(53, Number(weeks.value) || 1), this.plan.slots);
      this.edit(plans.changed(this.plan, "slots", [...this.plan.slots, ...made]));
    };
    return el(
      "details",
      { class: "maker" },
      el("summary", {}, "Make the slots of a week"),
      el("div", {}, "from the day ", first, days, " from ", from, " to ", to, " each of ", minutes, " minutes, for ", weeks, " weeks ", el("button", { id: "make-week", onclick: make }, "Make them")),
    );
  }

  bind() {
    const open = (name, text) => this.open(name, text);
    chooseBy(by("csv-open"), by("csv-file"), open);
    dropBy(by("timetable"), open);
    by("csv-save").addEventListener("click", () => keep(`${this.title}.csv`, plans.written(this.plan).text, "text/csv"));
    by("example").addEventListener("click", () => open("example.csv", plans.example));
    by("undo").addEventListener("click", () => this.back(this.history.undo()));
    by("redo").addEventListener("click", () => this.back(this.history.redo()));
    by("solve").addEventListener("click", () => this.solve());
    by("release").addEventListener("click", () => this.edit({ ...structuredClone(this.plan), held: {} }));
    by("stop").addEventListener("click", () => this.job?.stop());
    by("who").addEventListener("change", () => this.draw());
    by("save-ics").addEventListener("click", () => this.save("ics", "text/calendar"));
    by("save-svg").addEventListener("click", () => this.save("svg", "image/svg+xml"));
    by("save-report").addEventListener("click", () => this.keepReport());
    document.addEventListener("keydown", (event) => this.keys(event));
  }

  keys(event) {
    if (!(event.ctrlKey || event.metaKey) || by("timetable").hidden) return;
    const key = event.key.toLowerCase();
    const what = key === "z" && !event.shiftKey ? "undo" : key === "y" || (key === "z" && event.shiftKey) ? "redo" : null;
    const typing = document.activeElement?.tagName === "INPUT" && document.activeElement.value !== document.activeElement.defaultValue;
    if (!what || (typing && this.isUnsaid(document.activeElement))) return;
    event.preventDefault();
    this.back(this.history[what]());
  }

  /** Whether something is typed in a cell that the plan does not say yet: then undo is the cell's own. */
  isUnsaid(input) {
    const grid = Object.values(this.grids).find((one) => one.body.contains(input));
    if (!grid) return true;
    const { row, column } = grid.place(input);
    return (grid.rows[row]?.[grid.columns[column].key] ?? "") !== input.value.trim();
  }

  // ---- the plan

  open(name, text) {
    this.title = name.replace(/\.[^.]*$/, "") || "timetable";
    this.edit(plans.read(text));
  }

  /** Takes a plan that was changed by hand. */
  edit(plan) {
    this.plan = plan;
    this.history.take(plan);
    this.refresh();
  }

  back(plan) {
    if (!plan) return;
    this.plan = plan;
    this.refresh();
  }

  refresh() {
    this.counts = plans.meetingsOf(this.plan);
    for (const [table, grid] of Object.entries(this.grids)) grid.set(this.plan[table]);
    by("undo").disabled = !this.history.past.length;
    by("redo").disabled = !this.history.future.length;
    const held = Object.keys(this.plan.held).length;
    by("solve").textContent = held ? "Solve the rest" : "Solve";
    show(by("release"), held > 0);
    by("release").textContent = `Let go of ${held} held`;
    sessionStorage.setItem(DRAFT, JSON.stringify({ title: this.title, plan: this.plan }));
    this.drawPeople();
    this.draw();
    clearTimeout(this.timer);
    this.timer = setTimeout(() => this.lookAt(), LOOK_AFTER);
  }

  restore() {
    try {
      const kept = JSON.parse(sessionStorage.getItem(DRAFT));
      if (kept?.plan) {
        this.title = kept.title;
        this.edit({ ...plans.empty(), ...kept.plan });
      } else this.refresh();
    } catch {
      this.refresh();
    }
  }

  /** What the service is asked about: the tables, where the meetings stand, and which are held. */
  asked() {
    return { text: plans.bare(this.plan).text, values: this.plan.values ?? {}, fixed: this.plan.held };
  }

  /** Asks what the plan as it is costs, and what is wrong with it. */
  async lookAt() {
    clearTimeout(this.timer);
    const asked = this.asked();
    const ready = this.plan.slots.length && this.plan.meetings.length;
    let look = null;
    let why = "";
    if (ready) {
      try {
        look = await post("timetable/look", asked);
      } catch (fault) {
        why = fault.message;
      }
    }
    if (JSON.stringify(asked) !== JSON.stringify(this.asked())) return; // it has changed since
    this.look = look;
    this.tell(why);
    this.draw();
  }

  /** Says what is wrong, and where it has a line, at the row that the line is of. */
  tell(why) {
    const { places } = plans.written(this.plan);
    const faults = Object.fromEntries(Object.keys(this.grids).map((table) => [table, new Map()]));
    const rest = [];
    for (const sentence of why.split("\n")) {
      const found = /^line (\d+): (.*)$/.exec(sentence);
      const place = found && places[Number(found[1]) - 1];
      if (place && faults[place.table]) faults[place.table].set(place.row, found[2].replace(/ \(`.*`\)$/, ""));
      else if (sentence) rest.push(sentence);
    }
    for (const [table, grid] of Object.entries(this.grids)) grid.mark(faults[table]);
    const marked = Object.values(faults).some((those) => those.size);
    say(by("refused"), rest.join("\n") || (marked ? "A row is marked red, and says what is wrong." : ""));
  }

  // ---- solving

  /** Solves it; what is held stays where it is. */
  async solve() {
    this.stopAll();
    const asked = { text: plans.bare(this.plan).text, fixed: this.plan.held, time: Number(by("time").value) };
    this.job = begin("meetings", asked, (news) => this.progress(news));
    this.busy(true);
    try {
      const answer = await answered(this.job);
      if (!answer.values) throw new Error(answer.sentence);
      this.plan = { ...this.plan, values: answer.values };
      this.results = [...this.results.slice(1 - MOST_RESULTS), { answer, text: asked.text, key: this.key() }];
      this.look = answer;
      this.history.take(this.plan);
      this.refresh();
      this.price(asked, answer);
    } catch (fault) {
      this.tell(fault.message);
      say(by("answer"), /^line \d+: /.test(fault.message) ? "The tables are refused: a row is marked red, and says why." : fault.message);
    } finally {
      this.job = null;
      this.busy(false);
    }
  }

  busy(yes) {
    show(by("stop"), yes);
    by("solve").disabled = yes;
    say(by("progress"), yes ? "waiting for a free processor" : "");
  }

  progress(news) {
    say(by("progress"), news.state === "waiting" ? "waiting for a free processor" : `solving: ${news.said}`);
  }

  stopAll() {
    for (const price of this.prices.values()) price.job?.cancel();
    this.prices.clear();
  }

  key() {
    return JSON.stringify([plans.bare(this.plan).text, this.plan.held, this.plan.values]);
  }

  /** The answer that the plan as it is came from, where it did. */
  result() {
    const key = this.key();
    return this.results.findLast((one) => one.key === key) ?? null;
  }

  /** The least cost that was found for these tables, with whatever was held; none where no answer keeps the rules. */
  best() {
    const { text } = plans.bare(this.plan);
    const costs = this.results.filter((one) => one.text === text && !one.answer.broken.length).map((one) => one.answer.cost);
    return costs.length ? Math.min(...costs) : null;
  }

  /** Asks for each wish that is not met what it would cost to meet it: the timetable solved anew with that wish held. */
  async price(asked, answer) {
    const wanted = answer.unmet.filter((wish) => wish.taste).map((wish) => ({ wish, state: "waits" }));
    this.prices = new Map(wanted.map((price) => [wishKey(price.wish), price]));
    this.pricesFor = JSON.stringify([asked.text, asked.fixed]);
    for (const price of wanted) price.now = Number(answer.cost);
    this.drawWishes();
    const prices = this.prices;
    const ask = async () => {
      for (let price = wanted.shift(); price && prices === this.prices; price = wanted.shift()) {
        price.job = begin("wish", { ...asked, wish: price.wish });
        price.state = "asked";
        this.drawWishes();
        try {
          Object.assign(price, { found: await answered(price.job), state: "known" });
        } catch (fault) {
          Object.assign(price, { state: "refused", why: fault.message });
        }
        if (prices === this.prices) this.drawWishes();
      }
    };
    await Promise.all(Array.from({ length: AT_ONCE }, ask));
  }

  // ---- moving meetings

  move(meeting, slot) {
    if (this.plan.values?.[meeting] === slot && this.plan.held[meeting] === slot) return;
    const plan = structuredClone(this.plan);
    plan.values = { ...plan.values, [meeting]: slot };
    plan.held[meeting] = slot;
    this.edit(plan);
    this.lookAt();
  }

  hold(meeting, yes) {
    const plan = structuredClone(this.plan);
    if (yes) plan.held[meeting] = plan.values[meeting];
    else delete plan.held[meeting];
    this.edit(plan);
  }

  choose(meeting) {
    this.chosen = this.chosen === meeting ? null : meeting;
    this.draw();
  }

  take(values) {
    this.edit({ ...structuredClone(this.plan), values });
    this.lookAt();
  }

  // ---- what is shown

  /** Whose meetings can be shown alone. */
  drawPeople() {
    const people = this.plan.people.map((person) => person.name);
    const drawn = JSON.stringify(people);
    if (drawn === this.drawnPeople) return;
    this.drawnPeople = drawn;
    const who = by("who").value;
    by("who").replaceChildren(el("option", { value: "" }, "everyone"), ...people.map((name) => el("option", { value: name, selected: name === who }, name)));
  }

  draw() {
    const look = this.look ?? { slots: [], unmet: [], breaks: [] };
    const values = this.plan.values ?? {};
    const clashing = new Set(look.breaks.flatMap((one) => one.meetings));
    const missing = new Set(look.unmet.map((wish) => wish.meeting));
    const slots = new Set(look.slots.map((slot) => slot.name));
    const stands = (name) => (slots.has(values[name]) ? values[name] : values[name] && (look.stands?.[name] ?? null));
    const meetings = this.plan.meetings.filter((meeting) => meeting.name).map((meeting) => ({
      name: meeting.name,
      people: plans.names(meeting.people),
      slot: stands(meeting.name) || null,
      room: look.rooms?.[meeting.name] ?? "",
      more: slots.has(values[meeting.name]) ? "" : (values[meeting.name] ?? ""),
      held: this.plan.held[meeting.name] !== undefined,
      clashes: clashing.has(meeting.name),
      misses: missing.has(meeting.name),
    }));
    this.calendar.draw(look.slots, meetings, by("who").value, this.chosen);
    this.drawAnswer(look);
    this.drawChosen(meetings);
    this.drawWishes();
  }

  /** The cost: as the answer says it where the plan is still that of the answer, and else as it is added up. */
  drawAnswer(look) {
    const whole = this.look && this.plan.values && look.unplaced.length === 0;
    const result = this.result();
    for (const id of ["save-ics", "save-svg"]) by(id).disabled = !whole;
    by("save-report").disabled = !result?.answer.report;
    const why = result?.answer.why ?? [];
    const points = (lines) => lines.map((line) => el("li", {}, unnumbered(line)));
    by("breaks").replaceChildren(...points([...look.breaks.map((one) => one.sentence), ...why]));
    by("notes").replaceChildren(...points(look.notes ?? []));
    if (!this.plan.values || !this.look) return;
    if (result) {
      const { sentence, stopped } = result.answer;
      const held = Object.keys(this.plan.held).length;
      say(by("answer"), sentence + (held ? `, with ${held} held` : "") + (stopped ? `. Stopped: ${stopped}` : ""));
    } else if (!whole) {
      say(by("answer"), `cost ${look.added} so far (added up); ${look.unplaced.length} in no slot yet: solve`);
    } else {
      const best = this.best();
      const more = best === null ? "" : difference(Number(look.added) - best);
      const broken = look.breaks.length ? `, and it breaks ${look.breaks.length === 1 ? "a rule" : `${look.breaks.length} rules`}` : "";
      say(by("answer"), `cost ${look.added} (added up)${more}${broken}`);
    }
  }

  /** The meeting that was clicked: where it stands, whether it is held, and where it could go. */
  async drawChosen(meetings) {
    const meeting = meetings.find((one) => one.name === this.chosen);
    const slots = this.look?.slots ?? [];
    const drawn = JSON.stringify([meeting, slots, meeting && this.asked()]);
    if (drawn === this.drawnChosen) return; // what is clicked on stays where it is
    this.drawnChosen = drawn;
    show(by("chosen"), Boolean(meeting));
    if (!meeting) return;
    const move = el("select", { id: "move-to", onchange: (event) => this.move(meeting.name, event.target.value) });
    const options = (places) => {
      const told = new Map(places.map((place) => [place.slot, place]));
      move.replaceChildren(...slots.map((slot) => el("option", { value: slot.name, selected: slot.name === meeting.slot }, optionWords(slot, told.get(slot.name)))));
    };
    options([]);
    const held = el("input", { type: "checkbox", id: "hold", checked: meeting.held, disabled: !meeting.slot, onchange: (event) => this.hold(meeting.name, event.target.checked) });
    by("chosen").replaceChildren(el("strong", {}, meeting.name), el("span", { class: "quiet" }, meeting.people.join(", ")), el("label", {}, "in ", move), el("label", {}, held, " held"));
    const places = await post("timetable/where", { ...this.asked(), meeting: meeting.name }).catch(() => []);
    if (move.isConnected && document.activeElement !== move) options(places);
  }

  drawWishes() {
    const unmet = this.plan.values ? (this.look?.unmet ?? []) : [];
    const known = this.pricesFor === JSON.stringify([plans.bare(this.plan).text, this.plan.held]);
    const held = Object.keys(this.plan.held).length > 0;
    const told = unmet.map((wish) => {
      const price = known ? this.prices.get(wishKey(wish)) : undefined;
      return { words: wish.sentence, cost: wish.cost, price: priceWords(price, held), values: price?.found?.values };
    });
    const drawn = JSON.stringify(told);
    if (drawn === this.drawnWishes) return; // what is clicked on stays where it is
    this.drawnWishes = drawn;
    const lines = told.map(({ words, cost, price, values }) =>
      el("tr", {}, el("td", {}, words), el("td", {}, cost), el("td", { class: "price" }, price, " ", values && el("button", { onclick: () => this.take(values) }, "Show it"))),
    );
    const head = el("tr", {}, el("th", {}, "Wish that is not met"), el("th", {}, "costs"), el("th", {}, "meeting it"));
    by("wishes").replaceChildren(...(lines.length ? [el("table", { class: "list" }, el("thead", {}, head), el("tbody", {}, lines))] : []));
  }

  /** Keeps the report, and where it is not of the CSV alone, the problem that it is of. */
  keepReport() {
    const { report, problem } = this.result().answer;
    keep(`${this.title}.report`, report);
    if (problem) keep(`${this.title}.dcop`, problem);
  }

  async save(kind, type) {
    try {
      keep(`${this.title}.${kind}`, await post("timetable/file", { ...this.asked(), kind, name: `${this.title}.csv` }), type);
    } catch (fault) {
      say(by("answer"), fault.message);
    }
  }
}

const wishKey = (wish) => JSON.stringify([wish.meeting, wish.taste, wish.who, wish.slots, wish.cost]);

/** A sentence without the numbers of lines: the tables have none. */
const unnumbered = (line) => line.replace(/^line \d+: /, "").replaceAll(/ \(line \d+\)/g, "");

function difference(more) {
  if (more === 0) return ", as the best that was found";
  return more > 0 ? `, ${figure(more)} more than the best that was found` : `, ${figure(-more)} less than what was found`;
}

/** What it would cost to meet a wish, in words. */
function priceWords(price, held) {
  if (!price) return "";
  if (price.state === "waits" || price.state === "asked") return "is being looked for";
  if (price.state === "refused") return price.why;
  const { cost, lower, solved, rests_on: rests, never } = price.found;
  if (cost === null) {
    if (!never) return "not known within this time";
    return held ? "can't be, with what is held" : "no timetable meets it and keeps all rules";
  }
  const more = cost - price.now;
  const words = more === 0 ? "nothing more" : `${figure(Math.abs(more))} ${more > 0 ? "more" : "less"}`;
  return solved ? `would cost ${words}, ${figure(cost)} in all (${rests})` : `would cost at most ${words}, at least ${figure(Math.max(0, lower - price.now))} more`;
}

function optionWords(slot, place) {
  if (!place) return slot.name;
  return [slot.name, place.more ? `${place.more > 0 ? "+" : ""}${figure(place.more)}` : "", ...place.breaks].filter(Boolean).join(", ");
}
