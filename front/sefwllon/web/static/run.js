// A run of the agents: ADOPT by its log, DPOP by its tables, step by step.
import { answered, begin, get } from "./api.js";
import { by, chooseBy, el, say, show } from "./dom.js";
import { Plot } from "./plot.js";
import { Tree } from "./tree.js";

const STEP = 700; // milliseconds from one step to the next, when it plays
const MOST_SHOWN = 512; // how many cells of a table are shown
const noun = (answer) => (answer.goal === "max" ? "Sum" : "Cost");

/** The steps of ADOPT: an event of the log each, and what `dcop_trace` says of it, or without that `dcop replay`. */
class AdoptSteps {
  constructor(answer) {
    this.answer = answer;
    this.events = answer.events;
    this.last = this.events.length;
    this.own = answer.names;
    this.states = new Map();
    this.delivered = [0];
    for (const event of this.events) this.delivered.push(this.delivered.at(-1) + event.took.reduce((sum, [, count]) => sum + count, 0));
  }

  /** What each agent has come to after so many events, and what was said. */
  state(at) {
    if (!this.states.has(at)) this.states.set(at, get(`jobs/${this.answer.job}/after/${at}`));
    return this.states.get(at);
  }

  letters(at) {
    if (at === 0) return [];
    const { agent, took } = this.events[at - 1];
    return took.map(([from, count]) => ({ from: this.own[from], to: this.own[agent], word: String(count), title: `${count} of ${this.own[from]}` }));
  }

  said(at) {
    if (at === 0) return "The start: no event has happened, and the agents' first messages are on their way.";
    const { agent, stamp, took } = this.events[at - 1];
    const words = took.map(([from, count]) => `${count} ${count === 1 ? "message" : "messages"} of ${this.own[from]}`);
    return `Event ${at}, stamp ${stamp}: ${this.own[agent]} takes ${words.join(" and ")}, and acts. ${this.delivered[at]} messages are delivered.`;
  }

  /** Which event is the last one after which no more than so many messages are delivered. */
  eventAt(deliveries) {
    let at = 0;
    while (at < this.last && this.delivered[at + 1] <= deliveries) at += 1;
    return at;
  }

  async show(view, at) {
    const found = await this.state(at);
    if (view.at !== at) return;
    const told = new Map(found.agents.map((state) => [this.own[state.agent], state]));
    const value = (name) => this.answer.values[name][Number(told.get(name).value)] ?? told.get(name).value;
    const acting = at ? this.own[this.events[at - 1].agent] : null;
    const words = (name) => `${value(name)}  [${told.get(name).lower}, ${told.get(name).upper}]`;
    view.tree?.tell(words, (name) => `${name === acting ? "acts" : ""} ${told.get(name).ended === "yes" ? "ended" : ""}`);
    view.tree?.wait(found.way ?? []);
    const heads = ["agent", "value", "lower", "upper", "threshold", "ended", ...(found.way ? ["context"] : [])];
    const line = (name) => {
      const state = told.get(name);
      const cells = [value(name), state.lower, state.upper, state.threshold, state.ended, ...(found.way ? [state.context] : [])];
      return el("tr", { class: name === acting ? "acts" : "", data: { agent: name } }, el("td", {}, name), cells.map((cell, place) => el("td", { data: { key: heads[place + 1] } }, cell)));
    };
    const table = el("table", { class: "list states", data: { after: at } }, el("thead", {}, el("tr", {}, heads.map((head) => el("th", {}, head)))), el("tbody", {}, [...told.keys()].map(line)));
    by("run-side").replaceChildren(table, ...(found.way ? this.messages(found, acting) : [el("p", { class: "quiet untold" }, `By \`dcop replay\`: each agent's value, its bounds, its threshold. A number on its way counts the messages that the agent takes. ${found.untold}`)]));
    if (at < this.last) this.state(at + 1).catch(() => {});
  }

  /** What was taken and sent in an event, and what is on its way behind it. */
  messages(found, acting) {
    const part = (kind, title, messages, words) =>
      messages.length > 0 && [el("h3", {}, title), el("ul", { class: `messages ${kind}` }, messages.map((message) => el("li", { class: message.kind, data: { line: message.line } }, words(message))))];
    const left = found.on_the_way - found.way.length;
    return [
      ...(part("took", `${acting} took`, found.took, (message) => `${message.from}: ${message.sentence}`) || []),
      ...(part("sent", `and sent`, found.sent, (message) => `${message.to}: ${message.sentence}`) || []),
      ...(part("way", `On their way: ${found.on_the_way}`, found.way, (message) => `${message.from} → ${message.to}: ${message.sentence}`) || []),
      left > 0 && el("p", { class: "quiet" }, `and ${left} more.`),
      el("p", { class: "quiet" }, "By `dcop_trace`: bounds are of an agent's subtree under its context, and a threshold is what its parent lets the subtree cost before it looks for another value."),
    ].filter(Boolean);
  }
}

/** The steps of DPOP: tables go up from the leaves to the root, and values come down. */
class DpopSteps {
  constructor(answer) {
    this.answer = answer;
    const parents = new Map(answer.tree.map((node) => [node.name, node.parent]));
    const up = answer.tree.filter((node) => node.parent !== null).reverse();
    this.steps = [
      ...up.map((node) => ({ kind: "table", from: node.name, to: parents.get(node.name) })),
      { kind: "chosen", from: answer.tree[0].name, to: null },
      ...answer.tree.filter((node) => node.parent !== null).map((node) => ({ kind: "values", from: node.parent, to: node.name })),
    ];
    this.tables = new Map(answer.tables.map((table) => [table.name, table]));
    this.separators = new Map(answer.tree.map((node) => [node.name, node.separator]));
    this.last = this.steps.length;
  }

  letters(at) {
    const step = at ? this.steps[at - 1] : null;
    return step?.to ? [{ from: step.from, to: step.to, word: step.kind === "table" ? "▦" : "=", title: step.kind }] : [];
  }

  said(at) {
    if (at === 0) return "The start: each leaf of the tree joins its tables, and sends to its parent what is best for each choice of the others.";
    const { kind, from, to } = this.steps[at - 1];
    const words = (name) => `${name} = ${this.answer.chosen[name]}`;
    if (kind === "table") return `${from} sends ${to} its table over ${this.tables.get(from).scope.join(", ")}, ${this.tables.get(from).size.toLocaleString("en")} cells.`;
    if (kind === "chosen") return `The root, ${from}, has all tables, and chooses ${words(from)}. The best sum is ${this.answer.cost}.`;
    return `${from} tells ${to} the values ${this.separators.get(to).map(words).join(", ")}, and ${to} chooses ${words(to)}.`;
  }

  async show(view, at) {
    const known = new Set(this.steps.slice(0, at).flatMap((step) => (step.kind === "table" ? [] : [step.to ?? step.from])));
    const step = at ? this.steps[at - 1] : null;
    view.tree?.tell((name) => (known.has(name) ? `= ${this.answer.chosen[name]}` : ""), (name) => (step && name === step.from ? "acts" : ""));
    if (step?.kind === "table") this.shown(step.from);
    else if (at === 0) by("run-side").replaceChildren(el("p", { class: "quiet" }, "Click on an agent to look at the table that it sends."));
  }

  /** The table that an agent sends, with the row of the values that are chosen marked. */
  shown(name) {
    const { scope, size, cells } = this.tables.get(name);
    const sizes = scope.map((one) => this.answer.values[one].length);
    const rows = cells.slice(0, MOST_SHOWN).map((cell, place) => {
      let rest = place;
      const values = scope.map((one, at) => {
        const behind = sizes.slice(at + 1).reduce((product, size) => product * size, 1);
        const value = this.answer.values[one][Math.floor(rest / behind)];
        rest %= behind;
        return value;
      });
      const isChosen = values.every((value, at) => value === this.answer.chosen[scope[at]]);
      return el("tr", { class: isChosen ? "acts" : "" }, values.map((value) => el("td", {}, value)), el("td", { class: "number" }, String(cell)));
    });
    const heads = [...scope, this.answer.goal === "max" ? "misses at least" : "costs at least"].map((word) => el("th", {}, word));
    const more = size > rows.length && el("p", { class: "quiet" }, `The first ${rows.length} of ${size.toLocaleString("en")} cells.`);
    const title = scope.length ? `What ${name} sends` : `What is left at the root, ${name}`;
    by("run-side").replaceChildren(el("table", { class: "list cells", data: { table: name } }, el("caption", {}, title), el("thead", {}, el("tr", {}, heads)), el("tbody", {}, rows)), more || "");
  }
}

export class RunView {
  constructor() {
    this.file = null;
    this.steps = null;
    this.at = 0;
    this.job = null;
    by("run-adopt").addEventListener("click", () => this.adopt());
    by("run-dpop").addEventListener("click", () => this.dpop());
    by("run-stop").addEventListener("click", () => this.job?.cancel());
    chooseBy(by("run-open"), by("run-file"), (name, text) => this.adopt(text));
    const on = (id, does) => by(id).addEventListener("click", () => {
      this.play(false);
      does();
    });
    on("step-first", () => this.go(0));
    on("step-back", () => this.go(this.at - 1));
    on("step-on", () => this.go(this.at + 1, true));
    on("step-last", () => this.go(this.steps.last));
    by("step-play").addEventListener("click", () => this.play(!this.timer));
    by("slider").addEventListener("input", () => {
      this.play(false);
      this.go(Number(by("slider").value));
    });
  }

  /** Takes the problem that was opened under Problem; none while it is being read. */
  take(file) {
    this.play(false);
    this.file = file;
    this.steps = null;
    for (const id of ["run-adopt", "run-dpop", "run-open"]) by(id).disabled = !file;
    say(by("run-name"), file ? file.name : "No problem yet: open one under Problem.");
    for (const id of ["run-tree", "run-side", "plot"]) by(id).replaceChildren();
    for (const id of ["run-said", "step-said"]) say(by(id), "");
    show(by("player"), false);
  }

  async adopt(report) {
    const asked = report ? { ...this.file, report } : { ...this.file, budget: Number(by("run-budget").value), error: by("run-error").value };
    const answer = await this.ask("run", asked, "ADOPT runs, and its log is replayed");
    if (!answer) return;
    this.begin(new AdoptSteps(answer), answer.tree);
    const solved = answer.status === "solved" ? "all agents have ended" : "the messages were spent first";
    say(by("run-said"), `${answer.events.length} events, ${answer.deliveries} messages: ${solved}. ${noun(answer)} ${answer.cost}, the best lies between ${answer.lower} and ${answer.upper} (${answer.rests_on}).${answer.own ? ` ${answer.own}` : ""}`);
    if (typeof d3 !== "undefined") {
      this.plot = new Plot(by("plot"), answer.moments, answer.cost, (deliveries) => this.go(this.steps.eventAt(deliveries)));
    }
    this.go(0);
  }

  async dpop() {
    const answer = await this.ask("dpop", this.file, "DPOP runs");
    if (!answer) return;
    this.begin(new DpopSteps(answer), answer.tree);
    this.plot = null;
    by("plot").replaceChildren();
    say(by("run-said"), `${answer.deliveries} messages: a table from each agent but the root, and values back. ${noun(answer)} ${answer.cost}, and none is better (${answer.rests_on}).${answer.own ? ` ${answer.own}` : ""}`);
    this.go(0);
  }

  async ask(kind, asked, words) {
    this.play(false);
    const file = this.file;
    this.job?.cancel();
    const job = begin(kind, asked, (news) => say(by("run-said"), `${words}: ${news.said || news.state}, ${Math.round(news.seconds)} s`));
    this.job = job;
    say(by("run-said"), `${words}.`);
    show(by("run-stop"), true);
    try {
      const answer = await answered(job);
      return this.file === file && this.job === job ? answer : null;
    } catch (fault) {
      if (this.file === file && this.job === job) say(by("run-said"), fault.message);
      return null;
    } finally {
      if (this.job === job) show(by("run-stop"), false);
    }
  }

  begin(steps, tree) {
    this.steps = steps;
    this.tree = typeof d3 === "undefined" ? null : new Tree(by("run-tree"), tree, (name) => steps.shown?.(name));
    by("run-tree").classList.toggle("fit", tree.length <= 40);
    by("slider").max = steps.last;
    show(by("player"), true);
  }

  /** Goes to a step, and shows it; `moving` lets its messages be seen on their way. */
  async go(at, moving = false) {
    if (!this.steps) return;
    this.at = Math.max(0, Math.min(this.steps.last, at));
    by("slider").value = this.at;
    by("step-at").textContent = `${this.at} of ${this.steps.last}`;
    say(by("step-said"), this.steps.said(this.at));
    this.tree?.send(this.steps.letters(this.at), moving ? STEP * 0.8 : 0);
    if (this.steps.delivered) this.plot?.at(this.steps.delivered[this.at]);
    try {
      await this.steps.show(this, this.at);
    } catch (fault) {
      say(by("step-said"), fault.message);
    }
  }

  /** Plays on from here, a step behind the other, until the end or until it is stopped. */
  async play(on) {
    clearTimeout(this.timer);
    this.timer = null;
    by("step-play").textContent = on ? "❚❚ stop" : "▶ play";
    if (!on || !this.steps) return;
    if (this.at === this.steps.last) await this.go(0);
    const next = async () => {
      const { steps } = this;
      if (this.at >= steps.last) return this.play(false);
      await this.go(this.at + 1, true);
      if (this.timer && this.steps === steps) this.timer = setTimeout(next, STEP);
    };
    this.timer = setTimeout(next, 0);
  }
}
