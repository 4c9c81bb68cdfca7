// The weeks as a calendar: slots by day and hour, meetings in them that can be dragged to another slot.
import { el } from "./dom.js";

const day = new Intl.DateTimeFormat("en-GB", { weekday: "short", day: "numeric", month: "short", timeZone: "UTC" });
const week = new Intl.DateTimeFormat("en-GB", { day: "numeric", month: "long", year: "numeric", timeZone: "UTC" });

/** A time of the service, as `2026-03-02T09:00:00`, without a zone: as it is written. */
const at = (time) => new Date(`${time.slice(0, 19)}Z`);
const hours = (time) => time.slice(11, 16);
const date = (time) => time.slice(0, 10);

function monday(time) {
  const found = at(`${date(time)}T00:00:00`);
  found.setUTCDate(found.getUTCDate() - ((found.getUTCDay() + 6) % 7));
  return found.toISOString().slice(0, 10);
}

const grouped = (things, key) => {
  const groups = new Map();
  for (const thing of things) groups.set(key(thing), [...(groups.get(key(thing)) ?? []), thing]);
  return groups;
};

export class Calendar {
  /**
   * `place` is where the calendar is drawn, and `tray` where meetings are that have no slot. `moved(meeting, slot)` hears where one
   * was dropped, `chose(meeting)` that one was clicked, and `asked(meeting)` tells where it could go, once it is dragged.
   */
  constructor(place, tray, { moved, chose, asked }) {
    Object.assign(this, { place, tray, moved, chose, asked });
    this.boxes = new Map();
    this.chips = new Map();
    for (const part of [place, tray]) part.addEventListener("pointerdown", (event) => this.press(event));
  }

  /** Draws it: `slots` as the service tells them, `meetings` with name, people, slot, held, clashes and misses. */
  draw(slots, meetings, who, chosen) {
    const drawn = JSON.stringify([slots, meetings, who, chosen]);
    if (drawn === this.drawn) return; // what is clicked on stays where it is
    this.drawn = drawn;
    this.boxes.clear();
    this.chips.clear();
    const inside = grouped(meetings.filter((meeting) => meeting.slot), (meeting) => meeting.slot);
    const box = (slot) => this.box(slot, inside.get(slot.name) ?? [], who, chosen);
    const timed = slots.filter((slot) => slot.begin).sort((a, b) => a.begin.localeCompare(b.begin));
    const parts = [...grouped(timed, (slot) => monday(slot.begin))].map(([first, those]) => this.week(first, those, box));
    const bare = slots.filter((slot) => !slot.begin);
    if (bare.length) {
      const title = timed.length ? "Slots without a time" : "Slots";
      parts.push(el("h3", {}, title), el("div", { class: "bare" }, bare.map(box)));
    }
    this.place.replaceChildren(...parts);
    const loose = meetings.filter((meeting) => !meeting.slot);
    this.tray.hidden = !loose.length || !slots.length;
    this.tray.replaceChildren(el("span", { class: "quiet" }, "In no slot yet: "), ...loose.map((meeting) => this.chip(meeting, who, chosen)));
  }

  week(first, slots, box) {
    const days = [...new Set(slots.map((slot) => date(slot.begin)))];
    const times = [...new Set(slots.map((slot) => hours(slot.begin)))].sort();
    const head = el("tr", {}, el("th"), days.map((one) => el("th", {}, day.format(at(`${one}T00:00:00`)))));
    const lines = times.map((time) => {
      const cells = days.map((one) => el("td", {}, slots.filter((slot) => date(slot.begin) === one && hours(slot.begin) === time).map(box)));
      return el("tr", {}, el("th", { class: "hour" }, time), cells);
    });
    const title = el("caption", {}, `Week of ${week.format(at(`${first}T00:00:00`))}`);
    const table = el("table", { class: "week" }, title, el("thead", {}, head), el("tbody", {}, lines));
    table.style.minWidth = `${56 + 128 * days.length}px`;
    return table;
  }

  box(slot, meetings, who, chosen) {
    const when = slot.begin ? `${hours(slot.begin)}–${hours(slot.end)}` : "";
    const head = el("div", { class: "slot-name" }, el("span", {}, slot.name), el("span", { class: "when" }, when), el("span", { class: "more" }));
    const box = el("div", { class: "slot", data: { slot: slot.name } }, head, meetings.map((meeting) => this.chip(meeting, who, chosen)));
    this.boxes.set(slot.name, box);
    return box;
  }

  chip(meeting, who, chosen) {
    const kinds = ["chip", meeting.held && "held", meeting.clashes && "clash", meeting.misses && "misses", meeting.name === chosen && "chosen", who && !meeting.people.includes(who) && "faint"];
    const told = [meeting.people.join(", ") || "nobody", meeting.held && "held here", meeting.clashes && "breaks a rule", meeting.misses && "a wish is not met"];
    const chip = el(
      "button",
      { class: kinds.filter(Boolean).join(" "), data: { meeting: meeting.name }, title: told.filter(Boolean).join("; "), onclick: () => this.chose(meeting.name) },
      el("span", { class: "what" }, meeting.name),
      el("span", { class: "who" }, [meeting.people.join(", "), meeting.room, meeting.more].filter(Boolean).join(" · ")),
    );
    this.chips.set(meeting.name, chip);
    return chip;
  }

  /** A meeting is taken up, follows the pointer once it has moved a little, and is put down in the slot below. */
  press(event) {
    const chip = event.target.closest?.(".chip");
    if (!chip || event.button !== 0) return;
    const name = chip.dataset.meeting;
    const from = { x: event.clientX, y: event.clientY };
    let ghost = null;
    let over = null;
    const begin = () => {
      ghost = chip.cloneNode(true);
      ghost.classList.add("ghost");
      ghost.style.width = `${chip.offsetWidth}px`;
      document.body.append(ghost);
      document.body.classList.add("dragging");
      this.tint(name);
    };
    const move = (next) => {
      if (!ghost && Math.hypot(next.clientX - from.x, next.clientY - from.y) < 5) return;
      if (!ghost) begin();
      next.preventDefault();
      ghost.style.left = `${next.clientX - chip.offsetWidth / 2}px`;
      ghost.style.top = `${next.clientY - 14}px`;
      over?.classList.remove("over");
      over = document.elementFromPoint(next.clientX, next.clientY)?.closest(".slot") ?? null;
      over?.classList.add("over");
    };
    const end = (last) => {
      for (const [what, does] of listeners) document.removeEventListener(what, does, true);
      if (!ghost) return;
      const target = last.type === "pointerup" ? over?.dataset.slot : undefined;
      ghost.remove();
      over?.classList.remove("over");
      document.body.classList.remove("dragging");
      this.untint();
      document.addEventListener("click", swallow, { capture: true, once: true });
      setTimeout(() => document.removeEventListener("click", swallow, true), 0);
      if (target !== undefined) this.moved(name, target);
    };
    const swallow = (click) => {
      click.stopPropagation();
      click.preventDefault();
    };
    const escape = (key) => key.key === "Escape" && end(key);
    const listeners = [["pointermove", move], ["pointerup", end], ["pointercancel", end], ["keydown", escape]];
    for (const [what, does] of listeners) document.addEventListener(what, does, { capture: true, passive: false });
  }

  /** Shows of each slot what it would cost to move a meeting there. */
  async tint(name) {
    this.tinting = name;
    const places = await this.asked(name);
    if (this.tinting !== name) return;
    for (const { slot, more, breaks } of places) {
      const box = this.boxes.get(slot);
      if (!box) continue;
      box.classList.add(breaks.length ? "barred" : more > 0 ? "dearer" : "fine");
      box.querySelector(".more").textContent = breaks.length ? breaks[0] : more === 0 ? "" : `${more > 0 ? "+" : ""}${more}`;
    }
  }

  untint() {
    this.tinting = null;
    for (const box of this.boxes.values()) {
      box.classList.remove("barred", "dearer", "fine");
      box.querySelector(".more").textContent = "";
    }
  }
}
