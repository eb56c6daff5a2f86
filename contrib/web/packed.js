// What is found in features or texts as numbers: so it goes from the worker to the page, and so it is kept there, 120 bytes for a feature
// with one warning. As objects, 65,536 of them took some 20 MB in each of the two.

const KEPT_VERDICTS = ["valid", "broken", "not JSON"];
const LETTERS = { broken: "G", "not JSON": "J" };
/** How many numbers are kept of a finding, and how many more of each of its warnings. A place that is not there is -1. */
const OF_FINDING = 10;
const OF_WARNING = 5;
/** A part has no more numbers than this. */
const PART_SIZE = 1 << 14;

const numberOf = (rule) => (rule === null ? 0 : Number(rule.slice(1)));
const placed = (it) => it ?? -1;
const unplaced = (it) => (it < 0 ? null : it);

/** Makes parts of findings that are reported in brief. */
export class Packer {
  #room = new Float64Array(PART_SIZE);
  #used = 0;

  add({ index, number, idAt, place, end, verdict, rule, offset, line, column, warnings }) {
    this.#put(index ?? number, placed(idAt), place, placed(end), KEPT_VERDICTS.indexOf(verdict), numberOf(rule), placed(offset), placed(line), placed(column), warnings.length);
    for (const it of warnings) this.#put(numberOf(it.rule), it.count, it.offset, placed(it.line), placed(it.column));
  }

  #put(...numbers) {
    this.#room.set(numbers, this.#used);
    this.#used += numbers.length;
  }

  /** Whether there may be no room for another one. */
  get isFull() {
    return this.#used + OF_FINDING + 9 * OF_WARNING > PART_SIZE;
  }

  /** What was added since the last part. */
  part() {
    const part = this.#room.slice(0, this.#used);
    this.#used = 0;
    return part;
  }
}

/** The findings of a file. Each becomes an object when it is asked for, and stays one. */
export class Packed {
  #texts;
  #isText;
  #parts = [];
  /** Where each begins: the number of its part, and the place in it. */
  #starts = [];
  #made = new Map();

  /** `texts` has the texts of the rules, as [["G1", "not an object"], ..]; `isText`: they are of the features of one text. */
  constructor(texts = [], isText = true) {
    this.#texts = new Map(texts);
    this.#isText = isText;
  }

  add(part) {
    for (let at = 0; at < part.length; at += OF_FINDING + OF_WARNING * part[at + OF_FINDING - 1]) this.#starts.push(this.#parts.length * PART_SIZE + at);
    this.#parts.push(part);
  }

  get length() {
    return this.#starts.length;
  }

  /** The rule that a finding breaks, or the kinds of its warnings. */
  rulesOf(index) {
    const { part, at } = this.#find(index);
    const verdict = KEPT_VERDICTS[part[at + 4]];
    if (verdict !== "valid") return [`${LETTERS[verdict]}${part[at + 5]}`];
    return Array.from({ length: part[at + OF_FINDING - 1] }, (_, i) => `W${part[at + OF_FINDING + i * OF_WARNING]}`);
  }

  /** Whether one of them is a fault at this place. */
  hasFaultAt(offset) {
    return this.#starts.some((_, i) => {
      const { part, at } = this.#find(i);
      return part[at + 4] !== 0 && part[at + 6] === offset;
    });
  }

  at(index) {
    if (!this.#made.has(index)) this.#made.set(index, this.#make(index));
    return this.#made.get(index);
  }

  slice(from, to) {
    return Array.from({ length: Math.max(0, Math.min(to, this.length) - from) }, (_, i) => this.at(from + i));
  }

  *[Symbol.iterator]() {
    for (let i = 0; i < this.length; i++) yield this.at(i);
  }

  #find(index) {
    const start = this.#starts[index];
    return { part: this.#parts[Math.floor(start / PART_SIZE)], at: start % PART_SIZE };
  }

  #make(index) {
    const { part, at } = this.#find(index);
    const [number, idAt, place, end, kind, , offset, line, column, count] = part.subarray(at, at + OF_FINDING);
    const verdict = KEPT_VERDICTS[kind];
    const rules = this.rulesOf(index);
    const toldOf = (rule) => ({ rule, text: this.#texts.get(rule) });
    const warnings = Array.from({ length: count }, (_, i) => {
      const [, count, offset, line, column] = part.subarray(at + OF_FINDING + i * OF_WARNING, at + OF_FINDING + (i + 1) * OF_WARNING);
      return { ...toldOf(rules[i]), count, offset, line: unplaced(line), column: unplaced(column) };
    });
    return {
      ...(this.#isText ? { index: number } : { number }),
      idAt: unplaced(idAt),
      place,
      end: unplaced(end),
      verdict,
      ...(verdict === "valid" ? { rule: null, text: null } : toldOf(rules[0])),
      offset: unplaced(offset),
      line: unplaced(line),
      column: unplaced(column),
      warnings,
    };
  }
}
