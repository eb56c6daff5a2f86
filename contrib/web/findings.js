// What is found in each feature of a text, or in each text of an input of many, in one reading: with line, column, path, id and name.

import { Details, placesOf } from "./details.js";

/** How many bytes are checked before what they show is reported: in a text as [1,1,1] each second byte ends an element. */
const STEP = 64 << 10;
/** The first bytes of a text, in which the names stand that can already show that it is not valid. */
const EARLY = 64 << 10;

/** One reading of an input. `isText`: the findings are of the features of one text, and otherwise of many texts. */
export class Search {
  #linter;
  #locator;
  #early;
  #isDoomed = false;
  #source;
  #isText;
  #isBrief;
  #isWanted;
  #details;
  #piece = new Uint8Array(0);

  /** `which` is what is reported: "faults", "findings" (also the features that have warnings) or "all". Of faults and of features that
   *  have warnings no more than `most` are reported; `counts` has them all. What is reported in brief lacks name, id and path. `early` is a Linter
   *  of the text that has begun; without one, only a fault that was found shows that the input is not valid. */
  constructor({ linter, locator, early = null }, source, isText, { which = "findings", most = Infinity, isBrief = false } = {}) {
    if (!["faults", "findings", "all"].includes(which)) throw new RangeError("which is faults, findings or all");
    this.#linter = linter;
    this.#locator = locator;
    this.#early = early;
    this.#source = source;
    this.#isText = isText;
    this.#isBrief = isBrief;
    this.#details = new Details(locator, (from, to) => this.#read(from, to));
    this.counts = { all: 0, faults: 0, warned: 0, told: 0 };
    /** Of the first fault and the first warning of each kind: the place, with what the verdict needs of it. */
    this.known = new Map();
    this.#isWanted = this.#wants(which, most);
  }

  /** Counts the finding that was pulled last, and says whether it is reported. */
  #wants(which, most) {
    const { counts } = this;
    return () => {
      counts.all++;
      if (!this.#linter.isValid) return counts.faults++ < most;
      if (this.#linter.isWarned) return counts.warned++ < most && which !== "faults";
      return which === "all";
    };
  }

  async *run({ signal, onProgress } = {}) {
    const linter = this.#linter;
    for await (const bytes of this.#source.pieces()) {
      signal?.throwIfAborted();
      this.#lookEarly(bytes);
      linter.put(bytes);
      this.#piece = bytes;
      for (let at = 0; at < bytes.length; at += STEP) {
        const told = [];
        const goesOn = linter.take(at, Math.min(at + STEP, bytes.length), () => this.#take(told));
        yield* this.#placedOf(told);
        if (!goesOn) return;
      }
      this.#isDoomed ||= this.counts.faults > 0;
      onProgress?.({ read: linter.taken, size: this.#source.size, isDoomed: this.#isDoomed, ...this.counts });
    }
  }

  /** What the text's own object breaks is in no feature, and is reported at the end alone. */
  #lookEarly(bytes) {
    if (!this.#early || this.#isDoomed || this.#early.taken >= EARLY) return;
    this.#early.feed(bytes.subarray(0, EARLY - this.#early.taken));
    this.#isDoomed = this.#early.isDoomed();
  }

  /** Takes the finding that was pulled last, where it is reported or the verdict needs it. */
  #take(told) {
    const isTold = this.#isWanted();
    if (isTold || this.#isNew()) told.push({ ...this.#linter.finding, isTold });
  }

  #isNew() {
    if (!this.#linter.isValid) return !this.#kept.has("fault");
    return this.#linter.isWarned && this.#linter.kinds.some((it) => !this.#kept.has(it));
  }

  async *#placedOf(told) {
    for (const { isTold, ...it } of told) {
      const placed = await this.#placed(it);
      if (!isTold) continue;
      this.counts.told++;
      yield placed;
    }
  }

  /** What the end of the input shows, of many texts. */
  async *rest() {
    const told = [];
    this.whole = this.#linter.finish(() => this.#take(told));
    yield* this.#placedOf(told);
  }

  /** The line and the column of a place: those that ascend are found on the way. */
  async #spotOf(place) {
    const { lines, taken } = this.#linter;
    if (place < lines.offset || place > taken) return lines.find(place, (from, to) => this.#read(from, to), (mark, bytes) => this.#locator.counted(mark, bytes));
    lines.pass(place);
    return { line: lines.line, column: lines.column };
  }

  /** Bytes of the input, as they lie in this piece or are read again. */
  async #read(from, to) {
    const { start, taken } = this.#linter;
    if (from >= start && to <= taken) return this.#piece.subarray(from - start, to - start);
    return this.#source.read(from, to);
  }

  /** What was pulled, with its lines and columns, and in full where it is not reported in brief or the verdict needs its path. */
  async #placed({ number, id, ...finding }) {
    const spots = new Map([[null, { line: null, column: null }]]);
    for (const it of placesOf(finding)) spots.set(it, await this.#spotOf(it));
    const brief = {
      ...(this.#isText ? { index: number } : { number }),
      idAt: id,
      ...finding,
      ...spots.get(finding.offset),
      warnings: finding.warnings.map((it) => ({ ...it, ...spots.get(it.offset) })),
    };
    const keys = keysOf(brief).filter((it) => !this.#kept.has(it));
    if (this.#isBrief && !keys.length) return brief;
    const full = await this.#details.of(brief);
    this.#keep(full, keys);
    return this.#isBrief ? brief : full;
  }

  #kept = new Set();

  /** Keeps the paths of the places that `keys` are found at for the first time. */
  #keep(item, keys) {
    for (const it of keys) this.#kept.add(it);
    const firsts = item.verdict === "valid" ? item.warnings.filter((it) => keys.includes(it.rule)) : keys.length ? [item] : [];
    for (const { offset, path } of firsts) this.known.set(offset, { path, index: item.index ?? null, start: item.place });
  }
}

/** What a finding may be the first of: a fault, or each kind of its warnings. */
const keysOf = ({ verdict, warnings }) => (verdict === "valid" ? warnings.map((it) => it.rule) : ["fault"]);

/** Findings as they come, and when they have ended `verdict` and `counts`. */
export class Findings {
  #run;

  constructor(run) {
    this.verdict = null;
    this.counts = null;
    this.#run = run(this);
  }

  next() {
    return this.#run.next();
  }

  return() {
    return this.#run.return();
  }

  [Symbol.asyncIterator]() {
    return this;
  }
}
