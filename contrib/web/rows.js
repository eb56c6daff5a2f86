// A list of any length that is scrolled: only the rows that are seen are made, and all have one height. One row is chosen, by a
// click or by the keys for up, down, a page, the first and the last.

import { make } from "./dom.js";

/** How many rows are made beyond those that are seen, on each side. */
const BEYOND = 8;
const STEPS = { ArrowDown: () => 1, ArrowUp: () => -1, PageDown: (page) => page, PageUp: (page) => -page, Home: () => -Infinity, End: () => Infinity };

let lists = 0;

export class Rows {
  #calls;
  #items = [];
  #made = { from: 0, to: 0 };
  #id = `rows-${lists++}`;

  /** `cells(item)` are the elements of a row, `choose(item)` is called for the chosen one, `enter()` when it is entered, and `see(items)`
   *  for those whose rows are made. */
  constructor(label, calls) {
    this.#calls = calls;
    this.chosen = -1;
    this.inner = make("div", "inner");
    this.inner.setAttribute("role", "presentation");
    this.box = make("div", "rows", this.inner);
    this.box.tabIndex = 0;
    this.box.setAttribute("role", "listbox");
    this.box.setAttribute("aria-label", label);
    this.box.onscroll = () => requestAnimationFrame(() => this.#draw());
    this.box.onkeydown = (event) => this.#press(event);
    this.inner.onclick = (event) => {
      const row = event.target.closest("[data-index]");
      if (row) this.choose(Number(row.dataset.index));
    };
    // The height of a row changes with the width of the page.
    new ResizeObserver(() => this.#draw(true)).observe(this.box);
  }

  show(items) {
    this.#items = items;
    this.chosen = -1;
    this.box.scrollTop = 0;
    this.#draw(true);
  }

  /** Makes the rows anew, as where more is known of their items. */
  redraw() {
    this.#draw(true);
  }

  /** The chosen item. */
  get current() {
    return this.#items[this.chosen];
  }

  get height() {
    return this.inner.firstElementChild?.offsetHeight || 44;
  }

  choose(index) {
    if (!this.#items.length) return;
    this.chosen = Math.max(0, Math.min(this.#items.length - 1, index));
    const { height, box } = this;
    const top = this.chosen * height;
    if (top < box.scrollTop) box.scrollTop = top;
    else if (top + height > box.scrollTop + box.clientHeight) box.scrollTop = top + height - box.clientHeight;
    this.#draw(true);
    this.#calls.choose(this.#items[this.chosen]);
  }

  #press(event) {
    if (event.key === "Enter" && this.chosen >= 0) this.#calls.enter();
    const step = STEPS[event.key]?.(Math.max(1, Math.floor(this.box.clientHeight / this.height) - 1));
    if (step === undefined && event.key !== "Enter") return;
    event.preventDefault();
    if (step !== undefined) this.choose(this.chosen < 0 && Number.isFinite(step) ? 0 : this.chosen + step);
  }

  #draw(isAnew = false) {
    if (!this.inner.firstElementChild && this.#items.length) this.inner.append(this.#row(0));
    const { height, box } = this;
    const from = Math.max(0, Math.floor(box.scrollTop / height) - BEYOND);
    const to = Math.min(this.#items.length, Math.ceil((box.scrollTop + box.clientHeight) / height) + BEYOND);
    this.inner.style.height = `${this.#items.length * height}px`;
    if (!isAnew && from === this.#made.from && to === this.#made.to) return;
    this.#made = { from, to };
    const rows = [];
    for (let i = from; i < to; i++) {
      const row = this.#row(i);
      row.style.top = `${i * height}px`;
      rows.push(row);
    }
    this.inner.replaceChildren(...rows);
    const isThere = this.chosen >= from && this.chosen < to;
    if (isThere) box.setAttribute("aria-activedescendant", `${this.#id}-${this.chosen}`);
    else box.removeAttribute("aria-activedescendant");
    this.#calls.see(this.#items.slice(from, to));
  }

  #row(index) {
    const row = make("div", "item", ...this.#calls.cells(this.#items[index]));
    row.id = `${this.#id}-${index}`;
    row.dataset.index = index;
    row.setAttribute("role", "option");
    row.setAttribute("aria-selected", index === this.chosen);
    row.setAttribute("aria-setsize", this.#items.length);
    row.setAttribute("aria-posinset", index + 1);
    return row;
  }
}
