// The service: requests, jobs, and what is heard of them while they run.
import { by, say } from "./dom.js";

/** Whose the jobs are: this page's. When it is closed, they end. */
const page = crypto.randomUUID();
const waiting = new Map();
const heard = new Map();

/** One request, as JSON. What is refused is thrown, with the service's sentence; a job is given as it is. */
export async function request(method, where, told) {
  const options = { method };
  if (told !== undefined) {
    options.body = JSON.stringify(told);
    options.headers = { "Content-Type": "application/json" };
  }
  let answer;
  try {
    answer = await fetch(where, options);
  } catch {
    throw new Error("the service does not answer: is `sefwllon web` still running?");
  }
  const json = (answer.headers.get("Content-Type") ?? "").includes("json");
  const found = json ? await answer.json() : await answer.text();
  if (!answer.ok && !found.job) throw new Error(found.why ?? `the service answered ${answer.status}`);
  return found;
}

export const get = (where) => request("GET", where);
export const post = (where, told) => request("POST", where, told);

const isOver = (job) => !["waiting", "running"].includes(job.state);

/**
 * Begins a job. `news` hears how far it is; `done` is the job once it is over; `stop` has it keep the best so far, and
 * `cancel` ends it.
 */
export function begin(kind, asked, news = () => {}) {
  let name = null;
  const named = post(kind, { ...asked, page }).then((job) => {
    name = job.job;
    return job;
  });
  const done = named.then((job) => {
    if (isOver(job)) return job;
    return new Promise((resolve) => {
      waiting.set(job.job, { news, resolve });
      hear(heard.get(job.job) ?? job);
    });
  });
  const then = (does) => () => named.then(() => does(name)).catch(() => {});
  return {
    done,
    stop: then((job) => post(`jobs/${job}/stop`, {})),
    cancel: then((job) => request("DELETE", `jobs/${job}`)),
  };
}

/** A job's answer; where it has none, its sentence is thrown. */
export async function answered(job) {
  const told = await job.done;
  if (told.state !== "done") throw new Error(told.why ?? "nothing was answered");
  return Object.assign(told.answer, { job: told.job });
}

async function hear(job) {
  heard.set(job.job, job);
  const waits = waiting.get(job.job);
  if (!waits) return;
  waits.news(job);
  if (isOver(job)) {
    waiting.delete(job.job);
    heard.delete(job.job);
    waits.resolve(await get(`jobs/${job.job}`).catch((fault) => ({ state: "failed", why: fault.message })));
  }
}

/** Listens to what happens to this page's jobs, and says so when the service is gone. */
export function listen() {
  const events = new EventSource(`pages/${page}/events`);
  events.onmessage = (event) => JSON.parse(event.data).forEach(hear);
  events.onopen = () => say(by("lost"), "");
  events.onerror = () => say(by("lost"), "The service does not answer. Is `sefwllon web` still running? What stands in the tables is kept: save it as CSV.");
}
