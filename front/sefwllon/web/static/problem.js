// A problem of any kind: its graph, its trees, and what each method answers, side by side.
import { answered, begin } from "./api.js";
import { by, chooseBy, dropBy, el, figure, keep, say, show } from "./dom.js";
import { drawGraph } from "./graph.js";
import * as plans from "./plan.js";
import { Tree } from "./tree.js";

const METHODS = [
  ["dpop", "DPOP, in the file's order"],
  ["order", "DPOP, in the order of dcop_order"],
  ["search", "dcop_search"],
  ["cut", "DPOP with variables fixed in turn"],
  ["adopt", "ADOPT"],
  ["auto", "one behind the other, as `sefwllon solve`"],
];

const EXAMPLE = `dcop 2
# six sensors around a place choose what to watch
var north : east west away
var east : north south away
var south : east west away
var west : north south away
var high : low far
var low : high far
table north east : 0 5 2 6 1 4 2 4 3
table east south : 5 0 2 1 6 4 2 4 3
table south west : 4 1 3 0 5 2 6 2 4
table west north : 3 2 6 1 0 5 4 2 2
table high north : 2 0 4 1 3 0
table high south : 0 3 1 2 1 4
table low east : 1 4 0 3 0 2
table low high : 0 3 2 1
end
`;

export class ProblemView {
  /** `taken` hears of each problem that was looked at, with its name and its text. */
  constructor(timetable, taken) {
    this.taken = taken;
    this.file = null;
    this.view = null;
    this.jobs = [];
    this.answers = new Map();
    const open = (name, text) => this.open(name, text);
    chooseBy(by("problem-open"), by("problem-file"), open);
    dropBy(by("problem"), open);
    by("problem-timetable").addEventListener("click", () => open(`${timetable.title}.csv`, plans.written(timetable.plan).text));
    by("problem-example").addEventListener("click", () => open("sensors.dcop", EXAMPLE));
    by("problem-read").addEventListener("click", () => open(by("problem-kind").value, by("problem-text").value));
    by("problem-solve").addEventListener("click", () => this.solve());
    by("problem-stop").addEventListener("click", () => this.jobs.forEach((job) => job.stop()));
  }

  /** Looks at a problem: asks for its graph and its trees. */
  async open(name, text) {
    this.jobs.forEach((job) => job.cancel());
    const file = { name, text };
    this.file = file;
    this.view = null;
    this.answers.clear();
    say(by("problem-name"), name);
    say(by("problem-said"), "It is being read.");
    for (const id of ["graph", "tree", "ordered", "problem-methods"]) by(id).replaceChildren();
    by("problem-solve").disabled = true;
    this.taken(null);
    try {
      const job = begin("view", file);
      this.jobs = [job];
      const view = await answered(job);
      if (this.file !== file) return;
      this.view = view;
      this.draw();
      this.taken(file);
    } catch (fault) {
      if (this.file === file) say(by("problem-said"), fault.message);
    }
  }

  draw() {
    const { view } = this;
    const most = (tree) => Math.max(...tree.map((node) => node.cells));
    const words = (count, one) => `${count.toLocaleString("en")} ${one}${count === 1 ? "" : "s"}`;
    say(by("problem-said"), `${words(view.variables.length, "variable")}, ${words(view.tables, "table")} with ${words(view.cells, "cell")}, the ${view.goal === "min" ? "least" : "greatest"} sum is sought.`);
    by("tree-title").textContent = `The agents' tree, largest table ${words(most(view.tree), "cell")}`;
    by("ordered-title").textContent = view.ordered ? `In the order that dcop_order finds, largest table ${words(most(view.ordered), "cell")}` : `No other order: ${view.why_no_order}`;
    by("problem-solve").disabled = false;
    if (typeof d3 === "undefined") return;
    drawGraph(by("graph"), view);
    this.trees = [new Tree(by("tree"), view.tree), view.ordered && new Tree(by("ordered"), view.ordered)];
  }

  /** Solves it by each method, one job each. */
  async solve() {
    const file = this.file;
    this.answers = new Map(METHODS.map(([method]) => [method, { said: "waits" }]));
    this.busy(true);
    this.jobs = METHODS.map(([method]) => {
      const asked = { ...file, method, time: Number(by("problem-time").value), certificate: true };
      return begin("solve", asked, (news) => this.tell(method, { said: news.state === "waiting" ? "waits" : news.said, seconds: news.seconds }));
    });
    await Promise.all(
      this.jobs.map(async (job, at) => {
        const [method] = METHODS[at];
        try {
          const answer = await answered(job);
          const { seconds } = await job.done;
          if (this.file === file) this.tell(method, { answer, seconds });
        } catch (fault) {
          if (this.file === file) this.tell(method, { why: fault.message });
        }
      }),
    );
    if (this.file === file) this.busy(false);
  }

  busy(yes) {
    show(by("problem-stop"), yes);
    by("problem-solve").disabled = yes;
  }

  tell(method, told) {
    this.answers.set(method, told);
    const cells = ["by", "answer", "lower", "upper", "messages or nodes", "seconds", "rests on", ""].map((word) => el("th", {}, word));
    const lines = METHODS.map(([name, words]) => this.line(name, words, this.answers.get(name)));
    by("problem-methods").replaceChildren(el("table", { class: "list methods" }, el("thead", {}, el("tr", {}, cells)), el("tbody", {}, lines)));
  }

  line(method, words, { answer, said, why, seconds }) {
    const first = el("td", {}, words);
    if (!answer) return el("tr", { data: { method } }, first, el("td", { colSpan: 7, class: "quiet" }, why ?? said ?? ""));
    const report = answer.report && el("button", { onclick: () => keep(`${this.file.name}.${method}.report`, answer.report) }, "Report");
    const look = answer.values && typeof d3 !== "undefined" && el("button", { onclick: () => this.shown(answer) }, "Show");
    const numbers = [answer.lower, answer.upper, answer.messages || answer.nodes].map((number) => el("td", { class: "number" }, figure(number)));
    const told = `${answer.sentence}${answer.method && answer.method !== method ? `; by ${answer.method}` : ""}`;
    return el("tr", { data: { method, cost: String(answer.cost) } }, first, el("td", {}, told), numbers, el("td", { class: "number" }, figure(seconds)), el("td", {}, answer.rests_on ?? ""), el("td", {}, look, report));
  }

  /** Shows an answer's values in the pictures. */
  shown(answer) {
    drawGraph(by("graph"), this.view, answer.values);
    for (const tree of this.trees) tree?.tell((name) => `= ${answer.values[name]}`);
  }
}
