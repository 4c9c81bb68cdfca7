// The page: its three parts, and the file that it begins with.
import { get, listen } from "./api.js";
import { by, el, say, show } from "./dom.js";
import { ProblemView } from "./problem.js";
import { RunView } from "./run.js";
import { Timetable } from "./timetable.js";

const parts = ["timetable", "problem", "run"];

function choose(part) {
  for (const name of parts) {
    show(by(name), name === part);
    by(`tab-${name}`).setAttribute("aria-selected", String(name === part));
  }
  if (location.hash !== `#${part}`) history.replaceState(null, "", `#${part}`);
}

for (const name of parts) by(`tab-${name}`).addEventListener("click", () => choose(name));
choose(parts.includes(location.hash.slice(1)) ? location.hash.slice(1) : "timetable");

listen();
const timetable = new Timetable();
const run = new RunView();
const problem = new ProblemView(timetable, (told) => run.take(told));

if (typeof d3 === "undefined") {
  for (const name of ["problem", "run"]) by(name).prepend(el("p", { class: "wrong" }, "The pictures need D3: install Debian's node-d3, and load the page again."));
}

/** The file that was named on the command line. A draft that is kept from before goes before it. */
const first = await get("first").catch((fault) => say(by("lost"), fault.message));
if (first && !sessionStorage.getItem("sefwllon-first")) {
  sessionStorage.setItem("sefwllon-first", "taken");
  if (/\.csv$/i.test(first.name)) timetable.open(first.name, first.text);
  else {
    choose("problem");
    problem.open(first.name, first.text);
  }
}
document.documentElement.dataset.ready = "yes";
