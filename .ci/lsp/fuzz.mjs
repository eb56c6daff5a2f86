// Edits texts at random, and compares what the language server finds with a fresh opening of the same text: node fuzz.mjs SERVER FOLDER EDITS
//
// FOLDER is what .ci/page/found.py wrote. Edits come one by one, several in a message, and several messages while a text is checked.

import { readFileSync, readdirSync } from "node:fs";
import { isDeepStrictEqual } from "node:util";
import { Client, edited } from "./client.mjs";

const [server, folder, most] = process.argv.slice(2);
const names = readdirSync(folder).filter((it) => it !== "expected.jsonl").sort();
const PIECES = ["", "", '"', "{", "}", "[", "]", ",", ":", "\n", "\r\n", "\r", "\n\r", "\x1e", "🚲", "é", "\ud83d", "1", " ", "null", '{"type":"Feature","geometry":null,"properties":3}', '{"type":"point","coordinates":[1,2]},\n', "\ufeff"];

let seed = 3;
const random = (below) => ((seed = (Math.imul(seed, 1103515245) + 12345) >>> 0), (seed >>> 8) % below);
const one = (list) => list[random(list.length)];
const pause = (milliseconds) => new Promise((done) => setTimeout(done, milliseconds));

/** A position near a random line; some lie after the end of the line or of the text. */
function place(text) {
  const lines = text.split(/\r\n|\r|\n/);
  const line = random(lines.length + (random(20) ? 0 : 3));
  return { line, character: random((lines[line]?.length ?? 0) + 1 + (random(20) ? 0 : 9)) };
}

function edit(text) {
  if (random(50) === 0) return { text: text + one(PIECES) };
  const start = place(text);
  const end = random(3) ? start : { line: start.line + (random(4) ? 0 : 1), character: random(4) ? start.character + random(9) : random(9) };
  return { range: random(9) ? { start, end } : { start: end, end: start }, text: one(PIECES) };
}

const client = await Client.begun(server);
let [edits, compared, failed, text, uri, version] = [0, 0, 0, "", "", 0];
for (let round = 0; edits < Number(most); round++) {
  if (round % 10 === 0) {
    if (uri) client.close(uri);
    const name = one(names);
    [text, uri, version] = [readFileSync(`${folder}/${name}`, "utf8"), `file:///${round}/${name}`, 1];
    client.open(uri, text);
  }
  for (let messages = 1 + random(3); messages > 0; messages--) {
    const changes = [];
    for (let count = 1 + random(3); count > 0; count--, edits++) {
      changes.push(edit(text));
      text = edited(text, changes.at(-1));
    }
    client.change(uri, ++version, ...changes);
    if (random(2)) await pause(random(4));
  }
  const fresh = `file:///fresh/${round}/${uri.split("/").at(-1)}`;
  const [{ diagnostics }, wanted] = await Promise.all([client.found(uri, version), client.opened(fresh, text)]);
  client.close(fresh);
  const again = client.published.filter((it) => it.uri === uri && it.version === version).length;
  compared++;
  if (again !== 1 || !isDeepStrictEqual(diagnostics, wanted)) {
    if (failed++ < 3) console.log(`DIFFERS: ${JSON.stringify(text)}, told ${again} times:\n  ${JSON.stringify(diagnostics)}\n  wanted ${JSON.stringify(wanted)}`);
  }
  client.published = client.published.filter((it) => it.uri === uri && it.version === version);
}
const status = await client.end();
console.log(`${edits} edits, ${compared} texts compared, ${failed} differ`);
process.exit(failed || status || client.errors ? 1 : 0);
