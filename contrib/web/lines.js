// Lines, columns and the text around a place. A line ends with LF alone, and a column counts characters from 1. The library counts
// both in the one reading, with a mark every megabyte or two, so that a place is found from the last mark before it.

export const LF = 10;
const CR = 13;
/** How many bytes of an input are read at once, and how many lie between two marks, at least. */
export const STRIDE = 1 << 20;
/** How many bytes of a line are looked at on each side of a place, and how many characters are shown. */
const TEXT_AROUND = 256;
const SHOWN = 50;
/** How many bytes on each side are looked at for whole lines, how many of these are shown, and how much of each. */
const NEAR = 2048;
const LINES_BEFORE = 2;
const LINES_AFTER = 4;
const WIDTH = 110;

/** Where in the lines the bytes end that were counted, and marks on the way. The library counts, in the piece that lies in its memory. */
export class Lines {
  #count;

  /** `count(spot, from, to)` is the line and the column at `to`, of a place in that piece, from those at `from`. */
  constructor(count) {
    Object.assign(this, { offset: 0, line: 1, column: 1 });
    this.marks = [{ offset: 0, line: 1, column: 1 }];
    this.#count = count;
  }

  /** Goes on to a place that is in the piece. */
  pass(place) {
    const { offset, line, column } = this;
    if (place <= offset) return;
    if (offset - this.marks.at(-1).offset >= STRIDE) this.marks.push({ offset, line, column });
    Object.assign(this, this.#count(this, offset, place));
    this.offset = place;
  }

  /** The line and the column of a place, from 1. `read(from, to)` gives the bytes there, or null, and `counted(spot, bytes)` the line and
   *  the column after bytes. At most the bytes since the last mark are read again. */
  async find(place, read, counted) {
    const mark = this.marks.findLast((it) => it.offset <= place);
    const bytes = await read(mark.offset, place);
    if (!bytes) return { line: null, column: null };
    const { line, column } = counted(mark, bytes);
    return { line, column };
  }
}

/** Controls, marks of the direction of writing, separators of lines and characters without width: what would not be seen, or turn
 *  the rest about. */
const HARMFUL = /[\u0000-\u001f\u007f-\u009f\u061c\u200b-\u200f\u2028-\u202e\u2060-\u2069\ufeff]/u;
const harmless = (character) => (character === "\t" ? " " : HARMFUL.test(character) ? "\ufffd" : character);
/** A name or an id without what a terminal or a runner of jobs would obey: in its place are the numbers of its bytes. */
export const shownName = (text) =>
  text.replace(new RegExp(`^[ #:]|${HARMFUL.source}`, "gu"), (it) => Array.from(new TextEncoder().encode(it), (byte) => `\\x${byte.toString(16).padStart(2, "0")}`).join(""));
const charactersOf = (bytes) => [...new TextDecoder("utf-8", { ignoreBOM: true }).decode(bytes)].map(harmless);

/** Without a CR at its end. */
const withoutReturn = (bytes) => (bytes.at(-1) === CR ? bytes.subarray(0, -1) : bytes);

/** Bytes at each LF. */
function splitLines(bytes) {
  const parts = [];
  let start = 0;
  for (let end = bytes.indexOf(LF); end >= 0; end = bytes.indexOf(LF, start)) {
    parts.push(bytes.subarray(start, end));
    start = end + 1;
  }
  return [...parts, bytes.subarray(start)];
}

function shownLine(bytes) {
  const shown = charactersOf(withoutReturn(bytes));
  return shown.slice(0, WIDTH).join("") + (shown.length > WIDTH ? "…" : "");
}

/** The part of the line around a place: what stands before it, and from it on, and some lines on each side. `isCutBefore` and
 *  `isCutAfter` say where the line goes on. */
export async function excerptAt(place, read) {
  const before = await read(Math.max(0, place - NEAR), place);
  const after = await read(place, place + NEAR);
  if (!before || !after) return null;
  const lines = { before: splitLines(before), after: splitLines(after) };
  const left = charactersOf(lines.before.pop().subarray(-TEXT_AROUND));
  const right = charactersOf(withoutReturn(lines.after.shift().subarray(0, TEXT_AROUND)));
  // The first line that was read may have begun before it, and the last may go on; after a last LF there is none.
  if (place > NEAR) lines.before.shift();
  if (after.length === NEAR || lines.after.at(-1)?.length === 0) lines.after.pop();
  return {
    before: left.slice(-SHOWN).join(""),
    after: right.slice(0, SHOWN).join(""),
    isCutBefore: left.length > SHOWN,
    isCutAfter: right.length > SHOWN,
    isAtEnd: after.length === 0,
    linesBefore: lines.before.slice(-LINES_BEFORE).map(shownLine),
    linesAfter: lines.after.slice(0, LINES_AFTER).map(shownLine),
  };
}
