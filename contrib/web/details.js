// What is reported of a finding beyond its place: its name, its id and the paths in it, from the bytes of its feature or text.

import { STRIDE } from "./lines.js";
import { calledOf, valueOf, writtenId, ID_REACH } from "./names.js";

/** A name is sought in features that are no longer than this. */
const NAME_REACH = 256 << 10;
/** The fewest bytes that are read again at once: findings lie one after the other. */
const WINDOW = 256 << 10;

/** The places of a finding, each once, in their order. */
export const placesOf = ({ offset, warnings }) => [...new Set([offset, ...warnings.map((it) => it.offset)])].filter((it) => it !== null).sort((a, b) => a - b);

/** Adds to findings what was left out. `read(from, to)` gives bytes of the input, or null for those that are gone. */
export class Details {
  #locator;
  #read;

  constructor(locator, read) {
    this.#locator = locator;
    this.#read = read;
  }

  /** A finding that was reported in brief, in full. */
  async of({ idAt, ...item }) {
    const paths = item.verdict === "not JSON" ? new Map() : await this.#pathsTo(placesOf(item), item);
    const pathOf = (it) => paths.get(it.offset) ?? null;
    const called = item.index === undefined ? {} : { id: await this.#idAt(idAt) };
    const warnings = item.warnings.map((it) => ({ ...it, path: pathOf(it) }));
    return { ...item, ...called, name: await this.#nameOf(item), path: pathOf(item), warnings };
  }

  /** The paths to places, which ascend, in one reading from the start of the feature or text. */
  async #pathsTo(places, { index, place }) {
    const root = index === undefined ? "$" : `$.features[${index}]`;
    const paths = new Map();
    this.#locator.begin();
    let at = place;
    for (const it of places) {
      for (; at <= it; at = Math.min(it + 1, at + STRIDE)) {
        const bytes = await this.#read(at, Math.min(it + 1, at + STRIDE));
        if (!bytes) return paths;
        this.#locator.feed(bytes);
      }
      paths.set(it, root + this.#locator.steps());
    }
    return paths;
  }

  async #idAt(place) {
    const bytes = place === null ? null : await this.#read(place, place + ID_REACH);
    return bytes && writtenId(bytes);
  }

  async #nameOf({ place, end }) {
    if (end === null || end - place > NAME_REACH) return null;
    const bytes = await this.#read(place, end);
    return bytes && calledOf(valueOf(bytes));
  }
}

/** Reads of a source that lie near one another: the bytes that were read last are kept. */
export function nearbyReads(source) {
  let [start, kept] = [0, new Uint8Array(0)];
  return async (from, to) => {
    if (from < start || to > start + kept.length) {
      const bytes = await source.read(from, Math.max(to, from + WINDOW));
      if (!bytes) return null;
      [start, kept] = [from, bytes];
    }
    return kept.subarray(from - start, to - start);
  };
}
