// Checks inputs: reads each once, and finds line, column, path and feature of what it has to report.

import { Linter, FeatureLinter, RecordLinter, Locator } from "./linter.js";
import { STRIDE, excerptAt } from "./lines.js";
import { PathFinder, endOfValue } from "./paths.js";
import { Search, Findings } from "./findings.js";
import { Details, nearbyReads } from "./details.js";
import { hintFor } from "./hints.js";
import { valueOf } from "./names.js";
import { sourceOf } from "./source.js";
import { Sequence } from "./split.js";

/** What takes a second reading up to a place, as its path, is sought for places that are no further than this from the start. */
export const PATH_REACH = 64 << 20;
/** The text of a feature is given where it is no longer than this. */
export const FEATURE_REACH = 1 << 20;

/** Checks texts. Any number of calls may be under way at once. */
export class Geolint {
  #module;
  #idle = new Map();

  constructor(module) {
    this.#module = module;
  }

  /** The version of the library, as "0.1.0". */
  async version() {
    return this.#with([Linter], ([linter]) => linter.version());
  }

  /** The texts of all rules, warnings and causes: [["G1", "not an object"], ..]. */
  async texts() {
    const listed = (letter, most, text) => Array.from({ length: most }, (_, i) => [`${letter}${i + 1}`, text(i + 1)]);
    return this.#with([Linter], ([it]) => [
      ...listed("G", 21, (n) => it.ruleText(n)),
      ...listed("W", 9, (n) => it.warningText(n)),
      ...listed("J", 4, (n) => it.causeText(n)),
    ]);
  }

  /**
   * The verdict of `input`, which is read once: bytes, a Blob, a ReadableStream or an iterable of bytes, or an object that has
   * its `size` and `read(from, to)`. `maxBytes` and `maxDepth` are limits, `signal` an AbortSignal, and `onProgress` is called with how
   * many bytes are checked. `isQuick` asks for a yes or no alone: what is not valid gets no rule and no place, and is read no further than
   * it takes to see that.
   */
  async check(input, { maxBytes = 0, maxDepth = 0, isQuick = false, signal, onProgress } = {}) {
    const source = sourceOf(input);
    return this.#with([Linter], async ([linter]) => {
      linter.begin(maxBytes, maxDepth);
      for await (const bytes of source.pieces()) {
        signal?.throwIfAborted();
        if (!linter.feed(bytes)) break;
        const isDoomed = linter.isDoomed();
        onProgress?.({ read: linter.taken, size: source.size, isDoomed });
        if (isQuick && isDoomed) break;
      }
      const levels = linter.levels();
      const found = linter.finish();
      return isQuick && found.verdict !== "valid" ? notValid(linter.taken) : located(found, { linter, source, levelsAt: () => levels });
    });
  }

  /** What is found in the features of a text, as an async iterator; `verdict` and `counts` are there when it has ended. */
  features(input, options = {}) {
    return this.#findings(FeatureLinter, input, options);
  }

  /** What is found in the texts of an input of many: `framing` is "sequence" (RFC 8142) or "lines". */
  records(input, options = {}) {
    return this.#findings(RecordLinter, input, options);
  }

  /** What was reported in brief, in full: the input, which can be read from any place, is read again where the findings lie. */
  async completed(input, findings) {
    const source = sourceOf(input);
    return this.#with([Locator], async ([locator]) => {
      const details = new Details(locator, nearbyReads(source));
      const all = [];
      for (const it of findings) all.push(it.idAt === undefined ? it : await details.of(it));
      return all;
    });
  }

  /**
   * The valid features of a Blob, or its valid texts where there is a `framing`, as a text sequence: { blob, count, others }. Each
   * has its own bytes, and the Blob is never held whole.
   */
  async split(file, { framing, maxBytes = 0, maxDepth = 0, signal, onProgress } = {}) {
    const source = sourceOf(file);
    return this.#with([framing ? RecordLinter : FeatureLinter], async ([linter]) => {
      const sequence = new Sequence(file);
      let [all, start, next, piece] = [0, 0, 0, new Uint8Array(0)];
      const each = () => {
        all++;
        if (linter.isValid) sequence.add(linter.place, linter.end, piece, start);
      };
      framing ? linter.begin(framing, maxBytes, maxDepth) : linter.begin(maxBytes, maxDepth);
      for await (piece of source.pieces()) {
        signal?.throwIfAborted();
        [start, next] = [next, next + piece.length];
        if (!linter.feed(piece, each)) break;
        onProgress?.({ read: next, size: source.size });
      }
      linter.finish(each);
      return { blob: sequence.blob(), count: sequence.count, others: all - sequence.count };
    });
  }

  #findings(Kind, input, options) {
    const source = sourceOf(input);
    const { framing, maxBytes = 0, maxDepth = 0, hasPaths = true } = options;
    const isText = Kind === FeatureLinter;
    const lend = () => Promise.all([Kind, Locator, ...(isText && options.onProgress ? [Linter] : [])].map((it) => this.#lend(it)));
    const giveBack = (those) => those.forEach((it) => this.#giveBack(it));
    const levelsAt = (place) => (isText ? this.#levelsAt(place, source) : 1);
    return new Findings(async function* (found) {
      const [linter, locator, early] = await lend();
      isText ? linter.begin(maxBytes, maxDepth) : linter.begin(framing, maxBytes, maxDepth);
      early?.begin(maxBytes, maxDepth);
      const search = new Search({ linter, locator, early }, source, isText, options);
      yield* search.run(options);
      if (!isText) yield* search.rest();
      const whole = isText ? linter.finish() : search.whole;
      found.counts = search.counts;
      found.verdict = await located(whole, { linter, source, levelsAt, known: search.known, isText, hasPaths });
      giveBack([linter, locator, early].filter(Boolean));
    });
  }

  /** How many arrays and objects are open before a place of a text, which is read again up to there; 1 where it is too far or gone. */
  #levelsAt(place, source) {
    return this.#with([Linter], async ([linter]) => {
      linter.begin();
      for (let at = 0; at < place; at += STRIDE) {
        const bytes = place > PATH_REACH ? null : await source.read(at, Math.min(at + STRIDE, place));
        if (!bytes) return 1;
        linter.feed(bytes);
      }
      return linter.levels();
    });
  }

  async #lend(Kind) {
    return this.#idle.get(Kind)?.pop() ?? Kind.make(this.#module);
  }

  #giveBack(it) {
    this.#idle.set(it.constructor, [...(this.#idle.get(it.constructor) ?? []), it]);
  }

  /** Lends linters, and takes them back where the call returns: after a trap the module answers no more. */
  async #with(kinds, call) {
    const those = await Promise.all(kinds.map((it) => this.#lend(it)));
    const result = await call(those);
    those.forEach((it) => this.#giveBack(it));
    return result;
  }
}

/** What a quick look says of what is not valid. */
function notValid(read) {
  const nothing = { rule: null, text: null, offset: null, line: null, column: null, path: null, feature: null, excerpt: null };
  return { record: null, records: null, verdict: "not valid", ...nothing, warnings: [], hint: null, read };
}

/** Adds the hint, and line, column, excerpt, path and feature of each place of a verdict; null for what cannot be found. `known` has the
 *  places whose path is known. Without `hasPaths` no path and no feature is sought. */
async function located(found, { linter, source, levelsAt, known = new Map(), isText = true, hasPaths = true }) {
  const read = (from, to) => source.read(from, to);
  const { lines, taken } = linter;
  lines.pass(taken);
  const findings = found.verdict === "valid" ? found.warnings : [found];
  const paths = hasPaths ? await pathsTo(found, findings, known, isText, read) : new Map();
  const placed = [];
  for (const it of findings) {
    const { path = null, feature = null } = paths.get(it.offset) ?? {};
    const spot = await lines.find(it.offset, read, (mark, bytes) => linter.counted(mark, bytes));
    placed.push({ ...it, ...spot, path, feature, excerpt: await excerptAt(it.offset, read) });
  }
  const hint = await hintFor(found, linter, levelsAt, read);
  const none = { line: null, column: null, path: null, feature: null, excerpt: null };
  const first = found.verdict === "valid" ? { ...found, ...none, warnings: placed } : placed[0];
  return { record: null, records: null, ...first, hint, read: taken };
}

/** The paths of the places, and the feature around each. What is not known is sought near the start of a text. */
async function pathsTo(found, findings, known, isText, read) {
  const paths = new Map();
  if (found.verdict === "not JSON") return paths;
  const places = [...new Set(findings.map((it) => it.offset))].sort((a, b) => a - b);
  const finder = new PathFinder(isText ? places.filter((it) => it <= PATH_REACH && !known.has(it)) : []);
  while (!finder.isDone) {
    const bytes = await read(finder.offset, finder.offset + STRIDE);
    if (!bytes?.length) break;
    finder.feed(bytes);
  }
  const all = [...finder.found, ...[...known].filter(([place]) => places.includes(place))];
  for (const [place, { path, index, start }] of all) paths.set(place, { path, feature: await featureAt(index, start, read) });
  return paths;
}

/** The feature whose text begins at `start`: its index in the collection, or null where it is the text itself, and its value. */
async function featureAt(index, start, read) {
  const bytes = await read(start, start + FEATURE_REACH);
  const end = bytes && endOfValue(bytes);
  if (!end) return index === null ? null : { index, value: null };
  return { index, value: valueOf(bytes.subarray(0, end)) };
}
