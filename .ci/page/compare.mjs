// Checks each file of a folder by the sources of a folder, and compares with the report of geolint-files in the form json:
//
//     node compare.mjs SOURCES MODULE FOLDER REPORT [MOST]
//
// as bytes, as a Blob and as a stream for line, column and path, and cut into pieces for the verdict.

import { readFileSync } from "node:fs";
import { pathToFileURL } from "node:url";

const [sources, modulePath, folder, reportPath, most = Infinity] = process.argv.slice(2);
const from = (name) => import(pathToFileURL(`${sources}/${name}`));
const { load, jsonOf } = await from("geolint.js");
const { Linter } = await from("linter.js");

const bytes = readFileSync(modulePath);
const geolint = await load(bytes);
const linter = await Linter.make(await WebAssembly.compile(bytes), 4096);
// But for what was found at the place: the module does not say it.
const withoutFound = (line) => line.replace(/,"found":(?:null|"(?:[^"\\]|\\.)*")(?=,"hint":)/, "");
const wanted = readFileSync(reportPath, "utf8").trim().split("\n").slice(0, Number(most)).map(withoutFound);

let seed = 7;
const random = (below) => ((seed = (Math.imul(seed, 1103515245) + 12345) >>> 0), seed % below);

function* cut(text, longest) {
  for (let at = 0; at < text.length; ) {
    const size = 1 + random(longest);
    yield text.subarray(at, at + size);
    at += size;
  }
}

/** What a linter says of pieces: the verdict with its place and its warnings, and no lines. */
function judged(pieces) {
  linter.begin();
  for (const piece of pieces) if (!linter.feed(piece)) break;
  const { verdict, rule, text, offset, warnings } = linter.finish();
  return JSON.stringify([verdict, rule, text, offset, warnings.map((it) => [it.rule, it.text, it.count, it.offset])]);
}

function shortOf(line) {
  const { verdict, rule, text, offset, warnings } = JSON.parse(line);
  return JSON.stringify([verdict, rule, text, offset, warnings.map((it) => [it.rule, it.text, it.count, it.offset])]);
}

const ways = {
  bytes: (text) => text,
  Blob: (text) => new Blob([text]),
  stream: (text) => new Blob([text]).stream(),
  iterable: (text) => cut(text, 5000),
};

let failed = 0;
const differs = (name, way, got, line) => {
  if (failed++ < 5) console.log(`DIFFERS: ${name}, ${way}:\n  ${got}\n  ${line}`);
};
for (const line of wanted) {
  const name = JSON.parse(line).path;
  const text = readFileSync(`${folder}/${name}`);
  for (const [way, made] of Object.entries(ways)) {
    const got = jsonOf(name, await geolint.check(made(text)));
    if (got !== line) differs(name, way, got, line);
  }
  for (const [way, pieces] of [["whole", [text]], ["pieces", cut(text, 97)], ["small pieces", cut(text.length < 6000 ? text : text.subarray(0, 0), 3)]]) {
    if (way === "small pieces" && text.length >= 6000) continue;
    const got = judged(pieces);
    if (got !== shortOf(line)) differs(name, way, got, shortOf(line));
  }
}
console.log(`${wanted.length} inputs, ${failed} differ`);
process.exit(failed ? 1 : 0);
