// A table to type and to paste into. Below its rows one is always empty.
import { el, put, say, show } from "./dom.js";
import { parse } from "./csv.js";

export class Grid {
  /**
   * `columns` have a `key`, a `title`, and where need be `options` (a choice), `shown` (a cell that is only read), `hint`, or
   * `wide`. `changed` gets all rows, once one has changed: a list of objects with the keys as words.
   */
  constructor(title, columns, changed) {
    this.columns = columns;
    this.changed = changed;
    this.rows = [];
    this.faults = new Map();
    this.lines = [];
    this.count = el("span", { class: "count" });
    this.body = el("tbody");
    const heads = columns.map((column) => el("th", { class: column.wide ? "wide" : "" }, column.title));
    this.table = el("table", { class: "grid" }, el("thead", {}, el("tr", {}, heads, el("th"))), this.body);
    this.node = el("details", { open: true }, el("summary", {}, title, " ", this.count), this.table);
    this.table.addEventListener("change", (event) => this.typed(event));
    this.table.addEventListener("paste", (event) => this.pasted(event));
    this.table.addEventListener("keydown", (event) => this.pressed(event));
  }

  blank() {
    return Object.fromEntries(this.columns.filter((column) => !column.shown).map((column) => [column.key, ""]));
  }

  set(rows) {
    this.rows = rows;
    this.draw();
  }

  /** Marks rows by what is wrong with them: a map from a row's place to a sentence. */
  mark(faults) {
    this.faults = faults;
    this.draw();
  }

  /** Draws what has changed alone: who types or clicks here keeps the place. */
  draw() {
    this.count.textContent = this.rows.length || "";
    while (this.lines.length > this.rows.length + 1) this.lines.pop().node.remove();
    while (this.lines.length < this.rows.length + 1) {
      const line = this.line(this.lines.length);
      this.lines.push(line);
      this.body.append(line.node);
    }
    this.lines.forEach((line, at) => this.fill(line, this.rows[at]));
  }

  line(at) {
    const cells = this.columns.map((column, place) => this.input(column, at, place));
    const fault = el("p", { class: "fault", hidden: true });
    const remove = el("button", { class: "remove", title: "take this row away", tabIndex: -1, onclick: () => this.remove(at) }, "×");
    const columns = cells.map((cell, place) => el("td", {}, cell, place === 0 && fault));
    return { node: el("tr", {}, columns, el("td", {}, remove)), cells, fault, remove, at };
  }

  input(column, row, place) {
    if (column.shown) return el("span", { class: "quiet" });
    const data = { row, column: place };
    const label = `${column.title}, row ${row + 1}`;
    if (!column.options) return el("input", { data, spellcheck: false, autocomplete: "off", "aria-label": label });
    return el("select", { data, "aria-label": label }, column.options.map((word) => el("option", { value: word }, word)));
  }

  fill(line, row) {
    this.columns.forEach((column, place) => {
      const cell = line.cells[place];
      if (column.shown) put(cell, "textContent", row ? column.shown(row) : "");
      else {
        put(cell, "value", row?.[column.key] || (column.options ? column.options[0] : ""));
        if (!column.options) put(cell, "placeholder", this.rows.length ? "" : (column.hint ?? ""));
      }
    });
    show(line.remove, Boolean(row));
    say(line.fault, row && this.faults.get(line.at));
    line.node.classList.toggle("wrong", !line.fault.hidden);
  }

  cell(row, column) {
    return this.body.querySelector(`[data-row="${row}"][data-column="${column}"]`);
  }

  place(node) {
    return { row: Number(node.dataset.row), column: Number(node.dataset.column) };
  }

  typed(event) {
    const { row, column } = this.place(event.target);
    const rows = structuredClone(this.rows);
    if (row >= rows.length) rows.push(this.blank());
    rows[row][this.columns[column].key] = event.target.value.trim();
    this.give(rows);
  }

  /** What was copied from a spreadsheet goes into the cells from this one on, to the right and below. */
  pasted(event) {
    const place = this.place(event.target);
    const text = event.clipboardData.getData("text/plain").replace(/[\r\n]+$/, "");
    if (!/[\t\n\r]/.test(text)) return;
    event.preventDefault();
    const rows = structuredClone(this.rows);
    parse(text, "\t").forEach((cells, down) => {
      const row = (rows[place.row + down] ??= this.blank());
      cells.forEach((cell, right) => {
        const column = this.columns[place.column + right];
        if (column && !column.shown) row[column.key] = cell.trim().replaceAll(/\s*[\r\n]+\s*/g, " ");
      });
    });
    this.give(rows);
  }

  pressed(event) {
    const down = { Enter: 1, ArrowDown: 1, ArrowUp: -1 }[event.key];
    if (!down || event.isComposing || event.target.tagName !== "INPUT") return;
    const { row, column } = this.place(event.target);
    event.preventDefault();
    event.target.blur(); // what was typed is taken first
    (this.cell(row + down, column) ?? event.target).focus();
  }

  remove(at) {
    this.give(this.rows.filter((_, place) => place !== at));
  }

  /** Gives all rows that say something, each with its choices made. */
  give(rows) {
    const full = rows.filter((row) => Object.values(row).some((cell) => cell !== ""));
    for (const row of full) {
      for (const column of this.columns) if (column.options && !column.options.includes(row[column.key])) row[column.key] = column.options[0];
    }
    this.changed(full);
    this.draw();
  }
}
