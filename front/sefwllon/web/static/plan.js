// What a timetable is made from: tables of slots, people, meetings and wishes, and the CSV that says the same.
import { line, markOf, parse } from "./csv.js";

export const empty = () => ({ slots: [], people: [], meetings: [], wishes: [], others: [], comments: [], held: {}, values: null });

/** The names of a list, which stand between semicolons or commas. */
export const names = (cell) => cell.split(/[;,]/).map((word) => word.trim()).filter(Boolean);
const list = (words) => words.join("; ");

/** The lines of the CSV, and beside each the table and the row that it is of. */
export function written(plan) {
  const lines = [];
  const places = [];
  const put = (table, row, ...cells) => {
    while (cells.length > 1 && cells.at(-1) === "") cells.pop();
    lines.push(line(cells));
    places.push({ table, row });
  };
  plan.comments.forEach((comment, row) => {
    lines.push(comment);
    places.push({ table: "comments", row });
  });
  plan.slots.forEach((slot, row) => put("slots", row, "slot", slot.name, slot.begin, slot.minutes));
  plan.meetings.forEach((meeting, row) => put("meetings", row, "meeting", meeting.name, names(meeting.people).join(";")));
  plan.people.forEach((person, row) => {
    if (names(person.absent).length) put("people", row, "absent", person.name, names(person.absent).join(";"));
  });
  plan.wishes.forEach((wish, row) => {
    if (wish.who || wish.slots || wish.cost) put("wishes", row, wish.taste, wish.who, names(wish.slots).join(";"), wish.cost);
  });
  plan.others.forEach((other, row) => {
    lines.push(other.line);
    places.push({ table: "others", row });
  });
  Object.entries(plan.held).forEach(([meeting, slot]) => put("held", meeting, "fixed", meeting, slot));
  return { text: lines.length ? `${lines.join("\n")}\n` : "", places };
}

/** The CSV without the meetings that are held by hand: these go beside it. */
export const bare = (plan) => written({ ...plan, held: {} });

const KINDS = /^(slot|meeting|optional|absent|busy|(dis)?like|fixed|minutes|before|after|(not )?same ?day|(an)?other ?day|different ?days?|most|room|needs|weeks|every|zone|person)$/;

/** The tables of a CSV. A line of a kind that has no table of its own is kept as it is. */
export function read(text) {
  const plan = empty();
  const mark = markOf(text);
  const rows = parse(text.replace(/^\ufeff/, ""), mark);
  for (const [at, row] of rows.entries()) {
    const cells = row.map((cell) => cell.trim().replaceAll(/\s+/g, " "));
    while (cells.length && cells.at(-1) === "") cells.pop();
    if (!cells.length) continue;
    const [kind, name = "", ...rest] = [cells[0].toLowerCase(), ...cells.slice(1)];
    const several = (words) => list(words.flatMap(names));
    if (kind.startsWith("#")) plan.comments.push(row.join(mark));
    else if (at === 0 && kind.startsWith("sep=")) continue;
    else if (at === 0 && !KINDS.test(kind)) plan.comments.push(line(cells)); // a heading
    else if (kind === "slot" && rest.length <= 2) plan.slots.push({ name, begin: rest[0] ?? "", minutes: rest[1] ?? "" });
    else if (kind === "meeting") plan.meetings.push({ name, people: several(rest) });
    else if (kind === "absent") absent(plan, name, several(rest));
    else if (kind === "like" || kind === "dislike") plan.wishes.push({ taste: kind, who: name, slots: several(rest.slice(0, -1)), cost: rest.at(-1) ?? "" });
    else if (kind === "fixed" && rest.length === 1 && !rest[0].includes(";")) plan.held[name] = rest[0];
    else plan.others.push({ line: line(cells) });
  }
  return withPeople(plan);
}

function absent(plan, name, slots) {
  const person = plan.people.find((other) => other.name === name);
  if (person) person.absent = list([...new Set([...names(person.absent), ...names(slots)])]);
  else plan.people.push({ name, absent: slots });
}

/** How many meetings each person has who has one. */
export function meetingsOf(plan) {
  const counts = new Map();
  for (const meeting of plan.meetings) for (const name of new Set(names(meeting.people))) counts.set(name, (counts.get(name) ?? 0) + 1);
  return counts;
}

/** The plan with a row for each person who takes part in a meeting. */
export function withPeople(plan) {
  const known = new Set(plan.people.map((person) => person.name));
  for (const name of plan.meetings.flatMap((meeting) => names(meeting.people))) {
    if (!known.has(name)) plan.people.push({ name, absent: "" });
    known.add(name);
  }
  return plan;
}

/**
 * The plan with other rows in a table. A row whose name alone has changed is renamed wherever it is named; what is held or
 * stands in a slot that is gone is let go.
 */
export function changed(plan, table, rows) {
  const old = plan[table];
  const next = { ...structuredClone(plan), [table]: rows };
  if (table !== "wishes" && rows.length === old.length) {
    const gone = old.findIndex((row, at) => row.name !== rows[at].name);
    const lost = gone >= 0 && !rows.some((row) => row.name === old[gone].name);
    if (lost && rows[gone].name) rename(next, table, old[gone].name, rows[gone].name);
  }
  for (const slot of next.slots) if (!slot.name && slot.begin) slot.name = slotName(slot.begin, next.slots);
  return settled(withPeople(next));
}

function rename(plan, table, from, to) {
  const swap = (word) => (word === from ? to : word);
  const inList = (cell) => list(names(cell).map(swap));
  const values = Object.entries(plan.values ?? {});
  const held = Object.entries(plan.held);
  if (table === "people") {
    for (const meeting of plan.meetings) meeting.people = inList(meeting.people);
    for (const wish of plan.wishes) wish.who = swap(wish.who);
  } else if (table === "meetings") {
    for (const wish of plan.wishes) wish.who = swap(wish.who);
    plan.values = plan.values && Object.fromEntries(values.map(([name, slot]) => [swap(name), slot]));
    plan.held = Object.fromEntries(held.map(([name, slot]) => [swap(name), slot]));
  } else if (table === "slots") {
    for (const person of plan.people) person.absent = inList(person.absent);
    for (const wish of plan.wishes) wish.slots = inList(wish.slots);
    plan.values = plan.values && Object.fromEntries(values.map(([name, slot]) => [name, swap(slot)]));
    plan.held = Object.fromEntries(held.map(([name, slot]) => [name, swap(slot)]));
  }
}

function settled(plan) {
  const meetings = new Set(plan.meetings.map((meeting) => meeting.name));
  const slots = new Set(plan.slots.map((slot) => slot.name));
  const there = ([name, slot]) => meetings.has(name) && slots.has(slot);
  plan.held = Object.fromEntries(Object.entries(plan.held).filter(there));
  plan.values = plan.values && Object.fromEntries(Object.entries(plan.values).filter(there));
  return plan;
}

const DAYS = ["Sun", "Mon", "Tue", "Wed", "Thu", "Fri", "Sat"];

/** A name for a slot by when it begins, as `Mon 2 9:00`, that no other slot has. */
export function slotName(begin, slots) {
  const found = /^(\d{4})-(\d{2})-(\d{2})[T ](\d{2}):(\d{2})/.exec(begin);
  if (!found) return begin;
  const [year, month, day, hour, minute] = found.slice(1).map(Number);
  const short = `${DAYS[new Date(year, month - 1, day).getDay()]} ${day} ${hour}${minute ? `:${String(minute).padStart(2, "0")}` : ""}`;
  const taken = new Set(slots.map((slot) => slot.name));
  return taken.has(short) ? begin : short;
}

/** Slots for a week or more: on these days, from one hour to another, so many minutes each. */
export function weekOfSlots(first, days, from, to, minutes, weeks, slots) {
  const made = [];
  const two = (number) => String(number).padStart(2, "0");
  const [year, month, day] = first.split("-").map(Number);
  for (let past = 0; past < 7 * weeks; past += 1) {
    const date = new Date(year, month - 1, day + past);
    if (!days.includes(date.getDay())) continue;
    for (let minute = from; minute + minutes <= to; minute += minutes) {
      const begin = `${date.getFullYear()}-${two(date.getMonth() + 1)}-${two(date.getDate())} ${two(Math.floor(minute / 60))}:${two(minute % 60)}`;
      if ([...slots, ...made].some((slot) => slot.begin === begin)) continue;
      made.push({ name: slotName(begin, [...slots, ...made]), begin, minutes: minutes === 60 ? "" : String(minutes) });
    }
  }
  return made;
}

export const example = `slot,Mon 9,2026-03-02 09:00
slot,Mon 11,2026-03-02 11:00
slot,Tue 9,2026-03-03 09:00
slot,Wed 10,2026-03-04 10:00,90
meeting,Kickoff,Ida;Jon;Kim
meeting,Design,Ida;Kim
meeting,Budget,Jon;Lea
meeting,Retro,Ida;Jon;Kim;Lea
absent,Ida,Mon 9
absent,Lea,Tue 9
like,Retro,Wed 10,5
like,Budget,Wed 10,1
dislike,Jon,Mon 9,2
`;
