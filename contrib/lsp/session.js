// The texts that an editor has open, and what it asks of them: the server speaks the protocol over this, the extension for VS Code uses
// it as it is. Positions and ranges are those of the protocol.

import { diagnosticsOf, noteOf } from "./diagnostics.js";
import { framingOf } from "./endings.js";
import { fixesOf } from "./fixes.js";
import { mendOf, say, whatOf } from "./language.js";
import { EditedText } from "./text.js";

const RECORD_STARTS = { lines: 0x0a, sequence: 0x1e };
const LONGEST_NUMBER = 64;
const isAtMost = (one, other) => one.line < other.line || (one.line === other.line && one.character <= other.character);
const touches = (one, other) => isAtMost(one.start, other.end) && isAtMost(other.start, one.end);

/** The chapters of docs/rules.md on each rule, by its code; links within the page are left out. */
export function chaptersOf(manual) {
  const parts = manual.split(/^## /m).map((it) => [/^([GWJ]\d+): /.exec(it)?.[1], `### ${it.replace(/\[([^\]]*)\]\(#[^)]*\)/g, "$1").trim()}\n`]);
  return new Map(parts.filter(([code]) => code));
}

export class Session {
  #geolint;
  #chapters;
  #publish;
  #documents = new Map();

  /** `manual` is docs/rules.md. `publish({ uri, version, diagnostics })` is called whenever a text was checked. */
  constructor(geolint, manual, publish) {
    this.#geolint = geolint;
    this.#chapters = chaptersOf(manual);
    this.#publish = publish;
  }

  open({ uri, version, text }) {
    const framing = framingOf(uri.replace(/[?#].*$/, ""));
    this.#documents.get(uri)?.checking.abort();
    const document = { uri, framing, version, text: EditedText.of(text), diagnostics: [], checking: null, checked: null };
    this.#documents.set(uri, document);
    this.#check(document);
  }

  /** Edits come in turn, and each is of the text that those before it have made. */
  change({ uri, version }, edits) {
    const document = this.#documents.get(uri);
    if (!document) return;
    document.text = edits.reduce((text, it) => text.edited(it), document.text);
    document.version = version;
    this.#check(document);
  }

  close(uri) {
    this.#documents.get(uri)?.checking.abort();
    if (this.#documents.delete(uri)) this.#publish({ uri, diagnostics: [] });
  }

  /** Checks the text as it is now. What an edit or the end comes before is given up. */
  #check(document) {
    document.checking?.abort();
    const { signal } = (document.checking = new AbortController());
    const tell = (diagnostics) => {
      if (signal.aborted) return;
      document.diagnostics = diagnostics;
      this.#publish({ uri: document.uri, version: document.version, diagnostics });
    };
    const { text, framing } = document;
    // Edits that have come together are checked together.
    document.checked = new Promise((done) => setTimeout(done))
      .then(() => signal.aborted || diagnosticsOf(this.#geolint, text, { framing, signal }))
      .then(tell, () => tell([noteOf(say("trapped"))]));
  }

  /** A text whose last check has ended, with its diagnostics that touch a range; null where there is none. */
  async #at(uri, range) {
    const document = this.#documents.get(uri);
    for (let checked; document && checked !== document.checked; ) await (checked = document.checked);
    if (!document || this.#documents.get(uri) !== document) return null;
    return { document, found: document.diagnostics.filter((it) => it.code && touches(it.range, range)) };
  }

  /** What is wrong at a position and how to mend it, with the chapters on it, as Markdown. */
  async hover(uri, position) {
    const { found = [] } = (await this.#at(uri, { start: position, end: position })) ?? {};
    if (!found.length) return null;
    const codes = [...new Set(found.map((it) => it.code))];
    const parts = codes.map((it) => `${whatOf(it)} ${mendOf(it)}\n\n${this.#chapters.get(it)}`);
    const path = await this.path(uri, found[0].range.start);
    return { value: [...parts, `${say("path")}: \`${path}\`\n`].join("\n---\n\n"), range: found[0].range };
  }

  /** The quick fixes in a range, which were tried on the text as it is now; none where it is edited meanwhile. */
  async fixes(uri, range) {
    const { document, found = [] } = (await this.#at(uri, range)) ?? {};
    if (!found.length) return [];
    const { signal } = document.checking;
    const fixes = await fixesOf(this.#geolint, document, found, { chapters: this.#chapters, signal }).catch((error) => {
      if (!signal.aborted) throw error;
    });
    return signal.aborted ? [] : fixes;
  }

  /** The path of the value at a position. */
  async path(uri, position) {
    const document = this.#documents.get(uri);
    if (!document) return null;
    const { text, framing } = document;
    const at = text.placeOf(position);
    const start = framing ? text.bytes.subarray(0, at).lastIndexOf(RECORD_STARTS[framing]) + 1 : 0;
    const [before] = /[-+.\w]*$/.exec(text.written(Math.max(start, at - LONGEST_NUMBER), at));
    const isBegun = /["[{\w-]/.test(text.written(at, at + 1));
    // The value that begins there, or the number that the position is in or after, or what is open before it.
    const place = before || isBegun ? at - before.length : Math.max(start, at - 1);
    const [{ path }] = await this.#geolint.completed(text.bytes, [{ idAt: null, verdict: "broken", offset: place, place: start, end: null, warnings: [] }]);
    return path;
  }
}
