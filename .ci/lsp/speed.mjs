// How long the language server takes to answer an edit in a large text: node speed.mjs SERVER FILE. It fails where an answer is wrong,
// whatever time it takes.

import { readFileSync } from "node:fs";
import { Client, positionOf } from "./client.mjs";

const [server, file] = process.argv.slice(2);
const text = readFileSync(file, "utf8");
const middle = text.indexOf('"type":', text.length / 2) < 0 ? text.length / 2 : text.indexOf('"type"', text.length / 2);
const position = positionOf(text, middle);
const uri = "file:///large.geojson";
const client = await Client.begun(server);
client.open(uri, text);
const before = (await client.found(uri)).diagnostics.length;
const times = [];
let isRight = true;
for (let version = 2; version < 12; version++) {
  // A member that nobody asks for, which is typed and taken back: a fault, and again none.
  const isTyped = version % 2 === 0;
  const end = { ...position, character: position.character + (isTyped ? 0 : 3) };
  const began = performance.now();
  client.change(uri, version, { range: { start: position, end }, text: isTyped ? "!!!" : "" });
  const { diagnostics, at } = await client.found(uri, version);
  if (!isTyped) times.push(at - began);
  isRight &&= isTyped ? diagnostics.some((it) => it.code === "J1") : diagnostics.length === before;
}
client.kill();
const rounded = times.map(Math.round).sort((a, b) => a - b);
console.log(`${(text.length / 1e6).toFixed(1)} MB, ${before} found: an edit is answered in ${rounded.join(", ")} ms`);
process.exit(isRight ? 0 : 1);
