// A text as an editor has it: lines that edits change, places in UTF-16 as the protocol counts them, and bytes as the module counts them.

import { LF } from "./lines.js";
import { endOfValue } from "./paths.js";

const RETURN = 13;
const LONGEST_TOKEN = 1024;
/** The units of UTF-16 are counted for each so many bytes. */
const BLOCK = 8192;
const encoder = new TextEncoder();
const decoder = new TextDecoder("utf-8", { ignoreBOM: true });

/** The lines of a text, each with its end, which is LF, CR LF or CR. */
function linesOf(string) {
  const lines = [];
  const next = (mark, from) => (string.indexOf(mark, from) + 1 || Infinity) - 1;
  let [start, line, carriage] = [0, next("\n", 0), next("\r", 0)];
  while (Math.min(line, carriage) < Infinity) {
    const end = Math.min(line, carriage + 1 === line ? line : carriage) + 1;
    lines.push(string.slice(start, end));
    start = end;
    if (line < end) line = next("\n", end);
    if (carriage < end) carriage = next("\r", end);
  }
  lines.push(string.slice(start));
  return lines;
}

/** How many units a line has before its end. */
function widthOfLine(line) {
  const isEnd = (at) => line.charCodeAt(at) === LF || line.charCodeAt(at) === RETURN;
  if (!isEnd(line.length - 1)) return line.length;
  return line.length - (isEnd(line.length - 2) && line.length > 1 ? 2 : 1);
}

/** The last index whose number, of some that ascend, is at most this one. */
function lastAtMost(numbers, most) {
  let [low, high] = [0, numbers.length];
  while (high - low > 1) {
    const middle = (low + high) >> 1;
    if (numbers[middle] <= most) low = middle;
    else high = middle;
  }
  return low;
}

/** A text that stays as it is: an edit makes another one. */
export class EditedText {
  #lines;
  #bytes = null;
  #starts = null;
  #blocks = null;

  constructor(lines) {
    this.#lines = lines;
  }

  static of(string) {
    return new EditedText(linesOf(string));
  }

  /** The text after an edit as the protocol has it: of a range, or of the whole text where there is none. */
  edited({ range, text }) {
    if (!range) return EditedText.of(text);
    const lines = this.#lines;
    const [start, end] = [range.start, range.end].map((it) => this.#inside(it)).sort((a, b) => a.line - b.line || a.character - b.character);
    // The line before may end with a CR that gets its LF.
    const first = Math.max(0, start.line - 1);
    const before = (first < start.line ? lines[first] : "") + lines[start.line].slice(0, start.character);
    const changed = linesOf(before + text + lines[end.line].slice(end.character));
    const after = lines.slice(end.line + 1);
    // Nothing stands between the end of the last of these lines and the next line.
    if (after.length) changed.pop();
    return new EditedText(lines.slice(0, first).concat(changed, after));
  }

  /** A position, or the nearest one before it that there is. */
  #inside({ line, character }) {
    const lines = this.#lines;
    if (line >= lines.length) return { line: lines.length - 1, character: lines.at(-1).length };
    return { line, character: Math.min(character, widthOfLine(lines[line])) };
  }

  get bytes() {
    return (this.#bytes ??= encoder.encode(this.#lines.join("")));
  }

  /** How many units stand before each line. */
  get #lineStarts() {
    if (this.#starts) return this.#starts;
    this.#starts = new Uint32Array(this.#lines.length);
    for (let i = 1; i < this.#lines.length; i++) this.#starts[i] = this.#starts[i - 1] + this.#lines[i - 1].length;
    return this.#starts;
  }

  /** Where a block of bytes begins: with a character. */
  #blockAt(number) {
    let at = Math.min(number * BLOCK, this.bytes.length);
    while ((this.bytes[at] & 0xc0) === 0x80) at--;
    return at;
  }

  /** How many units stand before each block. */
  get #blockStarts() {
    if (this.#blocks) return this.#blocks;
    this.#blocks = new Uint32Array(Math.floor(this.bytes.length / BLOCK) + 1);
    for (let i = 1; i < this.#blocks.length; i++) this.#blocks[i] = this.#blocks[i - 1] + this.written(this.#blockAt(i - 1), this.#blockAt(i)).length;
    return this.#blocks;
  }

  /** The position of a byte. */
  positionOf(place) {
    const block = Math.floor(place / BLOCK);
    const unit = this.#blockStarts[block] + this.written(this.#blockAt(block), place).length;
    const line = lastAtMost(this.#lineStarts, unit);
    return this.#inside({ line, character: unit - this.#lineStarts[line] });
  }

  /** The byte at a position. */
  placeOf(position) {
    const { line, character } = this.#inside(position);
    const unit = this.#lineStarts[line] + character;
    const block = lastAtMost(this.#blockStarts, unit);
    const [from, to] = [block, block + 1].map((it) => this.#blockAt(it));
    return from + encoder.encode(this.written(from, to).slice(0, unit - this.#blockStarts[block])).length;
  }

  rangeOf(from, to) {
    return { start: this.positionOf(from), end: this.positionOf(to) };
  }

  /** The byte after the value or the character at a place; null where a value does not end before `limit`. */
  endOf(place, limit = this.bytes.length) {
    const [token] = this.written(place, place + LONGEST_TOKEN).match(/^(?:["[{]|[-+.\w]+|.)/su) ?? [""];
    return /^["[{]/.test(token) ? endOfValue(this.bytes.subarray(0, limit), place) : place + encoder.encode(token).length;
  }

  /** From a place on, to the end of the value that begins there, or of its line. */
  rangeAt(place) {
    const start = this.positionOf(place);
    const endOfLine = { line: start.line, character: widthOfLine(this.#lines[start.line]) };
    const limit = this.placeOf(endOfLine);
    const end = this.endOf(place, limit);
    return { start, end: end === null || end > limit ? endOfLine : this.positionOf(end) };
  }

  /** Bytes as a string. */
  written(from, to) {
    return decoder.decode(this.bytes.subarray(from, to));
  }
}
