// The calls of the WebAssembly module, each kind of linter as a class. Nothing proves this file; the module below it is built from
// proved source.
//
// An instance of the module has one handle, room for what a call answers and for one piece, all taken at its start: the memory grows
// no more after it, so the views of it stay good. Addresses and lengths are BigInt at the boundary, in the 64-bit module and in
// the one that is lowered to a 32-bit memory.

import { HEAD } from "./hints.js";
import { Lines, STRIDE } from "./lines.js";

const PAGE = 65536;
/** How many kinds of warning there are: W1 to W9. */
export const KINDS = 9;
const REPORT_SIZE = 32 + 16 * KINDS;
/** Of a finding: its number, its two ends and the place of its id stand before its report. */
const FINDING_HEAD = 32;
const DONE = 0;
const REFUSED = 1;
const LIMITS = 3;
const VERDICTS = ["none", "valid", "broken", "not JSON"];
const FRAMINGS = { sequence: 0, lines: 1 };

const roundUp = (number, step) => Math.ceil(number / step) * step;
const wrongState = (status) => new Error(`the linter answers ${status}: it was not begun, or has ended`);

/** Lets the memory grow, by a Number or, where its addresses have 64 bits, in most engines by a BigInt. */
function grow(memory, pages) {
  try {
    memory.grow(pages);
  } catch (error) {
    if (!(error instanceof TypeError)) throw error;
    memory.grow(BigInt(pages));
  }
}

/** A handle of the library in an instance of its own, with room for one piece of an input. */
class Handle {
  /** A handle over `module`, a WebAssembly.Module; `piece` is how many bytes there is room for. */
  static async make(module, piece = STRIDE) {
    return new this((await WebAssembly.instantiate(module, {})).exports, piece);
  }

  constructor(calls, size, piece) {
    this.calls = calls;
    this.piece = piece;
    // The module's data and its stack end at __heap_base; what follows is free.
    const handle = roundUp(Number(calls.__heap_base.value), Number(calls.geolint_alignment()));
    this.report = roundUp(handle + Number(size), 16);
    this.text = roundUp(this.report + FINDING_HEAD + REPORT_SIZE, 16);
    this.room = roundUp(this.text + 32, 64);
    const lacking = Math.ceil((this.room + piece - calls.memory.buffer.byteLength) / PAGE);
    if (lacking > 0) grow(calls.memory, lacking);
    this.bytes = new Uint8Array(calls.memory.buffer);
    this.view = new DataView(calls.memory.buffer);
    this.words = new Uint32Array(calls.memory.buffer, this.report, (FINDING_HEAD + REPORT_SIZE) / 4);
    this.address = BigInt(handle);
    // A struct comes back through a pointer, which is the first argument.
    this.answer = BigInt(this.report);
    this.spot = BigInt(this.text);
  }

  /** Of what a call answered: a number of four bytes, and one of eight. */
  wordAt(at) {
    return this.words[at / 4];
  }

  longAt(at) {
    return this.words[at / 4] + 2 ** 32 * this.words[at / 4 + 1];
  }

  /** The report that stands `at` bytes from the start of the answer. Places are byte offsets from 0. */
  reportAt(at) {
    if (this.wordAt(at) !== DONE) throw wrongState(this.wordAt(at));
    const [verdict, rule, cause] = [4, 8, 12].map((it) => this.wordAt(at + it));
    const warnings = [];
    for (let kind = 1; kind <= KINDS; kind++) {
      const [count, offset] = [this.longAt(at + 16 + 16 * kind), this.longAt(at + 24 + 16 * kind)];
      if (count > 0) warnings.push({ rule: `W${kind}`, text: this.warningText(kind), count, offset });
    }
    const found = { verdict: VERDICTS[verdict], rule: null, text: null, offset: null, warnings };
    if (rule) return { ...found, rule: `G${rule}`, text: this.ruleText(rule), offset: this.longAt(at + 16) };
    if (cause) return { ...found, rule: `J${cause}`, text: this.causeText(cause), offset: this.longAt(at + 16) };
    return found;
  }

  /** The same of an input that has ended, which is kept for its hint. */
  whole() {
    this.last = this.bytes.slice(this.report, this.report + REPORT_SIZE);
    return this.reportAt(0);
  }

  /** The hint for the input that ended last, or an empty text: by its first bytes, those before the place and those from it on, at most
   *  HEAD of each. So many `levels` of arrays and objects are open there. What is in the room is gone after it. */
  hint(levels, clues) {
    this.bytes.set(this.last, this.report);
    const places = clues.map((_, i) => this.room + HEAD * i);
    clues.forEach((it, i) => this.bytes.set(it, places[i]));
    return this.#readText(this.calls.geolint_hint_around, [this.answer, levels, ...clues.flatMap((it, i) => [BigInt(places[i]), BigInt(it.length)])]);
  }

  /** What a handle begins with, which is allowed or not. */
  begun(status) {
    if (status === LIMITS) throw new RangeError("maxBytes is from 1 to 2^60, and maxDepth from 1 to 256");
    /** How many bytes were put, and where the piece begins that is in the room. */
    this.taken = 0;
    this.start = 0;
    this.lines = new Lines((spot, from, to) => this.#counted(spot, this.room + from - this.start, to - from));
  }

  /** Puts the next piece into the room. */
  put(piece) {
    this.lines.pass(this.taken);
    this.bytes.set(piece, this.room);
    this.start = this.taken;
    this.taken += piece.length;
  }

  /** An input in pieces for which there is room. */
  *parts(bytes) {
    for (let at = 0; at < bytes.length; at += this.piece) yield bytes.subarray(at, at + this.piece);
  }

  /** The line and the column after bytes of the memory more. */
  #counted({ line, column }, from, length) {
    const { view, text, spot } = this;
    view.setBigUint64(text, BigInt(line), true);
    view.setBigUint64(text + 8, BigInt(column), true);
    this.calls.geolint_lines_feed(this.answer, spot, BigInt(from), BigInt(length));
    return { line: this.longAt(0), column: this.longAt(8) };
  }

  /** The line and the column after these bytes more. What is in the room is gone after it. */
  counted(spot, bytes) {
    let found = spot;
    for (const part of this.parts(bytes)) {
      this.bytes.set(part, this.room);
      found = this.#counted(found, this.room, part.length);
    }
    return found;
  }

  ruleText(rule) {
    return this.#textBy("rule", rule);
  }

  causeText(cause) {
    return this.#textBy("cause", cause);
  }

  warningText(kind) {
    return this.#textBy("warning", kind);
  }

  version() {
    return this.#textBy("version");
  }

  #texts = new Map();

  #textBy(name, ...number) {
    const key = `${name} ${number}`;
    if (!this.#texts.has(key)) this.#texts.set(key, this.#readText(this.calls[`geolint_${name}_text`], number));
    return this.#texts.get(key);
  }

  #readText(call, number) {
    // What is there must be a text already: one of no bytes, at an address that is not null.
    this.view.setBigUint64(this.text, BigInt(this.room), true);
    this.view.setBigUint64(this.text + 8, 0n, true);
    call(...number, BigInt(this.text));
    const at = Number(this.view.getBigUint64(this.text, true));
    const size = Number(this.view.getBigUint64(this.text + 8, true));
    // A byte 0 ends it.
    return new TextDecoder().decode(this.bytes.slice(at, at + size - 1));
  }
}

/** The verdict of a text. */
export class Linter extends Handle {
  constructor(calls, piece) {
    super(calls, calls.geolint_size(), piece);
    this.isBegun = false;
  }

  /** Begins anew. `maxBytes` and `maxDepth` are the limits; 0 stands for the most of either. */
  begin(maxBytes = 0, maxDepth = 0) {
    const begin = this.isBegun ? this.calls.geolint_begin_again : this.calls.geolint_begin;
    this.begun(begin(this.address, maxDepth, BigInt(maxBytes)));
    this.isBegun = true;
  }

  /** Takes the next bytes. False once the input is refused: then no further byte changes the verdict. */
  feed(bytes) {
    for (const part of this.parts(bytes)) {
      this.put(part);
      const status = this.calls.geolint_feed(this.address, BigInt(this.room), BigInt(part.length));
      if (status === REFUSED) return false;
      if (status !== DONE) throw wrongState(status);
    }
    return true;
  }

  /** Whether the input cannot be valid any more, as far as that is seen early. */
  isDoomed() {
    return this.calls.geolint_doomed(this.address) === 1;
  }

  /** How many arrays and objects are open after the bytes taken. */
  levels() {
    return this.calls.geolint_levels(this.address);
  }

  /** The verdict of all bytes since `begin`, and the end of the linter. */
  finish() {
    this.calls.geolint_finish(this.answer, this.address);
    return this.whole();
  }
}

/** What linters of features and of records have in common: a piece is taken up to the next finding, which is then pulled. */
class Puller extends Handle {
  /** Takes the next bytes, and calls `each` after each finding, which the getters below then give. False once the input is refused. */
  feed(bytes, each) {
    for (const part of this.parts(bytes)) {
      this.put(part);
      if (!this.take(0, part.length, each)) return false;
    }
    return true;
  }

  /** The same, for a part of the piece that is in the room. */
  take(from, to, each) {
    for (let at = from; at < to; ) {
      this.takes(this.answer, this.address, BigInt(this.room + at), BigInt(to - at));
      const [taken, status, isReady] = [this.longAt(0), this.wordAt(8), this.wordAt(12)];
      at += taken;
      if (isReady) this.pull(each);
      if (status === REFUSED) return false;
      if (status !== DONE || taken === 0) throw wrongState(status);
    }
    return true;
  }

  /** Calls `each` after each finding that is ready. */
  pull(each) {
    for (;;) {
      this.next(this.answer, this.address);
      if (this.wordAt(FINDING_HEAD) !== DONE) return;
      each();
    }
  }

  /** Of the finding that was pulled last, before anything else is called. */
  get number() {
    return this.longAt(0);
  }

  get place() {
    return this.longAt(8);
  }

  get end() {
    return this.longAt(16);
  }

  get isValid() {
    return this.wordAt(FINDING_HEAD + 4) === 1;
  }

  get isWarned() {
    return this.wordAt(FINDING_HEAD + 24) === 1;
  }

  /** The kinds of its warnings. */
  get kinds() {
    const kinds = [];
    for (let kind = 1; kind <= KINDS; kind++) if (this.longAt(FINDING_HEAD + 16 + 16 * kind) > 0) kinds.push(`W${kind}`);
    return kinds;
  }

  /** All of it: `id` is the place of the value of the member, and like `end` it is null where there is none. */
  get finding() {
    const { number, place } = this;
    return { number, place, end: this.end || null, id: this.longAt(24) || null, ...this.reportAt(FINDING_HEAD) };
  }
}

/** The features of a text, each as soon as its last byte has come, and the verdict. */
export class FeatureLinter extends Puller {
  constructor(calls, piece) {
    super(calls, calls.geolint_features_size(), piece);
    this.takes = calls.geolint_features_feed;
    this.next = calls.geolint_features_next;
  }

  begin(maxBytes = 0, maxDepth = 0) {
    this.begun(this.calls.geolint_features_begin(this.address, maxDepth, BigInt(maxBytes)));
  }

  /** The verdict, and the end. */
  finish() {
    this.calls.geolint_features_finish(this.answer, this.address);
    return this.whole();
  }
}

/** The texts of an input of many: of a text sequence (RFC 8142), or one in each line. */
export class RecordLinter extends Puller {
  constructor(calls, piece) {
    super(calls, calls.geolint_records_size(), piece);
    this.takes = calls.geolint_records_feed;
    this.next = calls.geolint_records_next;
  }

  /** `framing` is "sequence" or "lines". */
  begin(framing, maxBytes = 0, maxDepth = 0) {
    if (!Object.hasOwn(FRAMINGS, framing)) throw new RangeError("framing is sequence or lines");
    this.begun(this.calls.geolint_records_begin(this.address, FRAMINGS[framing], maxDepth, BigInt(maxBytes)));
  }

  /** What the input is as a whole, with the number of the first record that is not valid, or how many there are. `each` is called
   *  after the last record, where there is one. */
  finish(each) {
    this.calls.geolint_records_finish(this.answer, this.address);
    const found = this.whole();
    const number = this.longAt(REPORT_SIZE);
    this.pull(each);
    const isValid = found.verdict === "valid";
    return { ...found, record: isValid ? null : number, records: isValid ? number : null };
  }
}

/** The path to a place of a text. */
export class Locator extends Handle {
  constructor(calls, piece) {
    super(calls, calls.geolint_locator_size(), piece);
  }

  begin() {
    this.begun(this.calls.geolint_locator_begin(this.address, 0, 0n));
  }

  /** Takes the bytes before the place, and the one that stands there. */
  feed(bytes) {
    for (const part of this.parts(bytes)) {
      this.bytes.set(part, this.room);
      this.calls.geolint_locator_feed(this.address, BigInt(this.room), BigInt(part.length));
    }
  }

  /** The steps after the root, as `.features[3]`. */
  steps() {
    let steps = "";
    for (let i = 0; ; i++) {
      this.calls.geolint_locator_step(this.answer, this.address, i);
      const size = this.longAt(0);
      if (size === 0) return steps;
      steps += String.fromCharCode(...this.bytes.subarray(this.report + 8, this.report + 8 + size));
    }
  }
}
