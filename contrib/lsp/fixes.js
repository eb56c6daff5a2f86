// Quick fixes: edits that have one way out, each tried on the text and judged again before it is offered.

import { diagnosticsOf } from "./diagnostics.js";
import { language } from "./language.js";
import { endOfValue } from "./paths.js";

/** No more are tried at once. */
const MOST_TRIED = 10;
const TITLES = {
  en: {
    G3: "Write “{text}”",
    G15: "Close the ring with its first position",
    G18: "Write null",
    W1: "Remove the byte order mark",
    W9: "Remove “crs”",
  },
  de: {
    G3: "„{text}“ schreiben",
    G15: "Den Ring mit seiner ersten Position schließen",
    G18: "null schreiben",
    W1: "Die Byte-Reihenfolge-Marke entfernen",
    W9: "„crs“ entfernen",
  },
};
const [OPENING, CLOSING] = [0x5b, 0x5d];

/** What may mend a finding at a place, by its rule: { from, to, text }, in bytes. `chapter` is that on the rule. */
const EDITS = {
  /** Words of the chapter that differ from the type in their case alone. */
  G3(text, place, chapter) {
    const [from, to] = [place + 1, text.endOf(place) - 1];
    const type = text.written(from, to).toLowerCase();
    const words = new Set([...chapter.matchAll(/`(\w+)`/g)].map(([, word]) => word));
    return [...words].filter((it) => it.toLowerCase() === type).map((it) => ({ from, to, text: it }));
  },
  /** The first position once more, after as much space as the second has before it. */
  G15(text, place) {
    const { bytes } = text;
    const first = bytes.indexOf(OPENING, place + 1);
    const second = bytes.indexOf(OPENING, endOfValue(bytes, first));
    const last = bytes.lastIndexOf(CLOSING, text.endOf(place) - 2) + 1;
    const end = endOfValue(bytes, first);
    return [{ from: last, to: last, text: text.written(end, second) + text.written(first, end) }];
  },
  G18: (text, place) => [{ from: place, to: text.endOf(place), text: "null" }],
  W1: () => [{ from: 0, to: 3, text: "" }],
  /** The member with a comma: the one before it, or of the first member the one after it. */
  W9(text, place) {
    const name = text.endOf(place);
    const space = (at) => /^\s*/.exec(text.written(at, at + 1024))[0].length;
    const value = name + space(name) + 1;
    const end = text.endOf(value + space(value));
    const before = /,\s*$/.exec(text.written(Math.max(0, place - 1024), place));
    if (before) return [{ from: place - before[0].length, to: end, text: "" }];
    const [after] = /^\s*,\s*|/.exec(text.written(end, end + 1024));
    return [{ from: place, to: end + after.length, text: "" }];
  },
};

const isSame = (one, other) => one.code === other.code && one.data?.offset === other.data.offset;
const refusalsIn = (diagnostics) => diagnostics.filter((it) => it.code?.startsWith("J")).length;

/** The fixes for some of a text's diagnostics: { title, diagnostic, edit }. An edit is left out where the text that it makes has the same
 *  finding at the same place, or is not JSON there any more. */
export async function fixesOf(geolint, { text, framing, diagnostics }, wanted, { chapters, signal }) {
  const fixes = [];
  const mendable = wanted.filter((it) => Object.hasOwn(EDITS, it.code ?? ""));
  for (const diagnostic of mendable.slice(0, MOST_TRIED)) {
    for (const { from, to, text: written } of EDITS[diagnostic.code](text, diagnostic.data.offset, chapters.get(diagnostic.code))) {
      const edit = { range: text.rangeOf(from, to), newText: written };
      const judged = await diagnosticsOf(geolint, text.edited({ range: edit.range, text: written }), { framing, signal });
      if (judged.some((it) => isSame(it, diagnostic)) || refusalsIn(judged) > refusalsIn(diagnostics)) continue;
      fixes.push({ title: TITLES[language()][diagnostic.code].replace("{text}", written), diagnostic, edit });
      break;
    }
  }
  return fixes;
}
