// What was, to go back to: undo and redo.

export class History {
  constructor(state) {
    this.past = [];
    this.future = [];
    this.now = JSON.stringify(state);
  }

  /** Takes a state that is new, and says whether it is one. */
  take(state) {
    const told = JSON.stringify(state);
    if (told === this.now) return false;
    this.past.push(this.now);
    if (this.past.length > 200) this.past.shift();
    this.future = [];
    this.now = told;
    return true;
  }

  /** Puts something beside the state as it is now, without a step of its own. */
  amend(state) {
    this.now = JSON.stringify(state);
  }

  undo() {
    return this.move(this.past, this.future);
  }

  redo() {
    return this.move(this.future, this.past);
  }

  move(from, to) {
    if (!from.length) return null;
    to.push(this.now);
    this.now = from.pop();
    return JSON.parse(this.now);
  }
}
