// What is found in a text, as the diagnostics of the protocol.

import { guessFor } from "./guesses.js";
import { mendOf, say, whatOf } from "./language.js";
import { STRIDE } from "./lines.js";
import { eachOf } from "./report.js";

/** At most so many faults, and as many features or texts with warnings, are listed. */
const MOST = 1000;
const [ERROR, WARNING, INFORMATION] = [1, 2, 3];
const TOP = { line: 0, character: 0 };

/** Bytes in pieces, each in a turn of its own, so that an edit which comes in between ends the reading. */
const inTurnsOf = (bytes) => ({
  size: bytes.length,
  read: async (from, to) => bytes.subarray(from, to),
  async *pieces() {
    for (let at = 0; at < bytes.length; at += STRIDE) {
      await new Promise((done) => setTimeout(done));
      yield bytes.subarray(at, at + STRIDE);
    }
  },
});

const isWarned = (code) => code.startsWith("W");

/** As Feature 3. */
const partOf = ({ index, number }) => (index === undefined ? say("record", { number: `${number}` }) : say("feature", { number: `${index + 1}` }));

/** Of one finding, with its place as `offset`: what is wrong, how to mend it, and in which part of the text. */
function diagnosticOf(text, { rule, offset, count = 1 }, part) {
  const where = [part, count > 1 && say("times", { count })].filter(Boolean).join(", ");
  return {
    range: text.rangeAt(offset),
    severity: isWarned(rule) ? WARNING : ERROR,
    code: rule,
    source: "geolint",
    message: `${whatOf(rule)} ${mendOf(rule)}${where && `\n${where}`}`,
    data: { offset },
  };
}

/** One that stands at the beginning of the text, and for no rule. */
export const noteOf = (message, severity = ERROR) => ({ range: { start: TOP, end: TOP }, severity, source: "geolint", message });

/** The diagnostics of a text; `framing` is that of a file of many. Of what is no JSON text the features that ended before the place are
 *  there: what is found in them holds however the text goes on. */
export async function diagnosticsOf(geolint, text, { framing, signal }) {
  const input = inTurnsOf(text.bytes);
  const options = { most: MOST, isBrief: true, hasPaths: false, signal };
  const findings = framing ? geolint.records(input, { framing, ...options }) : geolint.features(input, options);
  const found = new Map();
  const add = (item, part) => {
    for (const it of eachOf([item])) {
      const key = `${it.rule} ${it.offset}`;
      if (!found.has(key)) found.set(key, diagnosticOf(text, it, part));
    }
  };
  for await (const it of findings) add(it, partOf(it));
  const { verdict, counts } = findings;
  add(verdict, "");
  const all = [...found.values()];
  const guess = guessFor(verdict);
  const guessed = guess && all.find((it) => it.data.offset === guess.offset);
  if (guessed) guessed.message += `\n${say("hint")} ${say(`hints.${guess.name}`)}`;
  const isCut = counts.faults > MOST || counts.warned > MOST;
  return isCut ? [...all, noteOf(say("listCut", { count: MOST }), INFORMATION)] : all;
}
