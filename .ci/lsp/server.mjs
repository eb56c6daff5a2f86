// Uses the language server as an editor does: node server.mjs PACKAGE FOLDER RULES
//
// PACKAGE is the folder of the package, FOLDER what .ci/page/found.py wrote, and RULES docs/rules.md.

import { readFileSync } from "node:fs";
import { pathToFileURL } from "node:url";
import { isDeepStrictEqual } from "node:util";
import { Client, edited, indexOf, positionOfByte } from "./client.mjs";

const [folder, inputs, rules] = process.argv.slice(2);
const server = `${folder}/geolint-language-server.js`;
const { load } = await import(pathToFileURL(`${folder}/geolint.js`));
const { GERMAN } = await import(pathToFileURL(`${folder}/texts.de.js`));
const geolint = await load();

let [tried, failed] = [0, 0];
function same(what, got, wanted) {
  tried++;
  if (!isDeepStrictEqual(got, wanted) && failed++ < 5) console.log(`DIFFERS: ${what}:\n  ${JSON.stringify(got)}\n  wanted ${JSON.stringify(wanted)}`);
}
const spanOf = ({ start, end }) => `${start.line}:${start.character}-${end.line}:${end.character}`;
const briefOf = (diagnostics) => diagnostics.map((it) => `${it.code} ${spanOf(it.range)}`).sort();
const WHOLE = { start: { line: 0, character: 0 }, end: { line: 1e6, character: 0 } };
const client = await Client.begun(server);

// ---- what is found in each feature and each text, by the definitions

/** Whether a range ends where the value at its start does, or its line. */
function endsRight(text, { code, range }) {
  const [from, to] = [indexOf(text, range.start), indexOf(text, range.end)];
  const written = text.slice(from, to);
  if (code.startsWith("J") || code === "W1") return [...written].length <= 1 || /^["[{\w]/.test(written);
  if (/^[\r\n]|^$/.test(text.slice(to))) return !/[\r\n]/.test(written);
  try {
    JSON.parse(written);
  } catch {
    return false;
  }
  const goesOn = /[-+.\w]$/.test(written) && /^[-+.\w]/.test(text.slice(to));
  return !goesOn && !/^\s|\s$/.test(written);
}

for (const line of readFileSync(`${inputs}/expected.jsonl`, "utf8").trim().split("\n")) {
  const { name, found } = JSON.parse(line);
  const text = readFileSync(`${inputs}/${name}`, "utf8");
  const diagnostics = await client.opened(`file:///${name}`, text);
  const startOf = ({ rule, offset }) => ({ code: rule, ...positionOfByte(text, offset) });
  const inner = (found ?? []).flatMap((it) => (it.rule ? [it] : it.warnings)).map(startOf);
  const { verdict, warnings, ...first } = name.endsWith(".geojson") ? await geolint.check(Buffer.from(text)) : { verdict: "valid", warnings: [] };
  const outer = (verdict === "valid" ? warnings : [first]).map(startOf);
  const wanted = [...inner, ...outer.filter((it) => !inner.some((other) => isDeepStrictEqual(it, other)))].map((it) => JSON.stringify(it)).sort();
  same(name, diagnostics.map(({ code, range }) => JSON.stringify({ code, ...range.start })).sort(), wanted);
  for (const it of diagnostics) same(`${name}: the end of ${it.code} at ${spanOf(it.range)}`, endsRight(text, it), true);
  client.close(`file:///${name}`);
}

// ---- ranges and fixes by hand. A text, what is found in it, and the text after each fix.

const feature = (geometry, properties = "{}") => `{"type":"Feature","geometry":${geometry},"properties":${properties}}`;
const rows = [
  ["a.geojson", '{"type":"Point","coordinates":[1]}', ["G12 0:30-0:33"], []],
  ["a.geojson", `{"name":"🚲é",\r\n"type":"Point","coordinates":[]}`, ["W6 1:29-1:31"], []],
  ["a.geojson", `["🚲",\r\n "é🚲", 🚲]`, ["J1 1:8-1:10"], []],
  ["a.geojson", '{"type":"Point","coordinates":["🚲"', ["J2 0:35-0:35"], []],
  ["a.geojson", "", ["J2 0:0-0:0"], []],
  ["a.geojson", '{"type":"Feature","properties":null,"id":"🚲","geometry":{"type":"point","coordinates":[1,2]}}', ["G3 0:65-0:72"], ['{"type":"Feature","properties":null,"id":"🚲","geometry":{"type":"Point","coordinates":[1,2]}}']],
  // A word with its right case that is still not allowed there, and one that is nobody's.
  ["a.geojson", feature('{"type":"feature"}'), ["G3 0:37-0:46"], []],
  ["a.geojson", '{"type":"circle"}', ["G3 0:8-0:16"], []],
  ["a.geojson", '{"type":"Feature","geometry":null,\r"properties":["🚲",\n1]}', ["G18 1:13-1:19"], ['{"type":"Feature","geometry":null,\r"properties":null}']],
  ["a.geojson", feature("null", "-1.5e1"), ["G18 0:47-0:53"], [feature("null", "null")]],
  ["a.geojson", feature("null", '"a\\"}"'), ["G18 0:47-0:53"], [feature("null", "null")]],
  [
    "a.geojson",
    '{"type":"Polygon","coordinates":[[\n [0,0],\n [1,0],\n [1,1],\n [0, 1.0]\n]]}',
    ["G15 0:33-0:34"],
    ['{"type":"Polygon","coordinates":[[\n [0,0],\n [1,0],\n [1,1],\n [0, 1.0],\n [0,0]\n]]}'],
  ],
  [
    "a.geojsons",
    `\x1e${feature("null")}\n\x1e${feature('{"type":"Polygon","coordinates":[[[0,0],[1,0],[1,1],[0,1]]]}')}\r\n`,
    ["G15 1:63-1:88"],
    [`\x1e${feature("null")}\n\x1e${feature('{"type":"Polygon","coordinates":[[[0,0],[1,0],[1,1],[0,1],[0,0]]]}')}\r\n`],
  ],
  ["a.ndjson", `${feature("null")}\r\n${feature("null", "3")}\r\n`, ["G18 1:47-1:48"], [`${feature("null")}\r\n${feature("null", "null")}\r\n`]],
  ["a.geojson", `\ufeff${feature("null")}`, ["W1 0:0-0:1"], [feature("null")]],
  ["a.geojson", '{"type":"Point",\n  "crs": {"a":[",}"]} ,"coordinates":[1,2]}', ["W9 1:2-1:7"], ['{"type":"Point" ,"coordinates":[1,2]}']],
  ["a.geojson", '{ "crs":null , "type":"Point","coordinates":[1,2]}', ["W9 0:2-0:7"], ['{ "type":"Point","coordinates":[1,2]}']],
  ["a.geojson", '{"type":"Point","coordinates":[1,2], "crs" : "x"\n}', ["W9 0:37-0:42"], ['{"type":"Point","coordinates":[1,2]\n}']],
  // What is found before the place where a text is no JSON stays.
  ["a.geojson", `{"type":"FeatureCollection","features":[${feature("null", "1")},${feature("null", "x")}]}`, ["G18 0:87-0:88", "J1 0:137-0:138"], [`{"type":"FeatureCollection","features":[${feature("null", "null")},${feature("null", "x")}]}`]],
];
const words = ["Point", "MultiPoint", "LineString", "MultiLineString", "Polygon", "MultiPolygon"];
rows.push(...words.map((it) => ["a.geojson", `{"coordinates":[],"type":"${it.toUpperCase()}"}`, [`G3 0:25-0:${27 + it.length}`], [`{"coordinates":[],"type":"${it}"}`]]));
rows.push(["a.geojson", '{"geometries":[],"type":"geometrycollection"}', ["G3 0:24-0:44"], ['{"geometries":[],"type":"GeometryCollection"}']]);
rows.push(["a.geojson", '{"features":[],"type":"featureCollection"}', ["G3 0:22-0:41"], ['{"features":[],"type":"FeatureCollection"}']]);
rows.push(["a.geojson", '{"geometry":null,"properties":{},"type":"FEATURE"}', ["G3 0:40-0:49"], ['{"geometry":null,"properties":{},"type":"Feature"}']]);
for (const [name, text, wanted, mended] of rows) {
  const uri = `file:///rows/${name}`;
  same(`${text}: what is found`, briefOf(await client.opened(uri, text)), wanted);
  const actions = await client.request("textDocument/codeAction", { textDocument: { uri }, range: WHOLE, context: { diagnostics: [] } });
  const got = actions.map(({ edit, kind }) => kind === "quickfix" && edit.changes[uri].reduce((it, { range, newText }) => edited(it, { range, text: newText }), text));
  same(`${text}: the fixes`, got, mended);
  client.close(uri);
  client.published.length = 0;
}

// Characters of one to four bytes, over the ends of the blocks in which they are counted.
for (const [i, filling] of ["é", "東", "🚲", "a🚲"].entries()) {
  const uri = `file:///rows/${i}.geojson`;
  const text = `{"name":"${"a".repeat(i)}${filling.repeat(30_000)}","type":"Polygon","coordinates":[[[0,0],[1,0],[1,1],[0,1]]]}`;
  const at = text.indexOf("[[[") + 1;
  same(`many ${filling}`, briefOf(await client.opened(uri, text)), [`G15 0:${at}-0:${at + 25}`]);
  const { contents } = await client.request("textDocument/hover", { textDocument: { uri }, position: { line: 0, character: at + 2 } });
  same(`the path after many ${filling}`, /`(\$.*)`\n$/.exec(contents.value)?.[1], "$.coordinates[0]");
  client.close(uri);
}

// ---- hover: the chapter as docs/rules.md has it, and in German what is wrong

const chapter = /^## (G15: ring not closed)\n(.*?)(?=^## )/ms.exec(readFileSync(rules, "utf8"));
const ring = '{"type":"Polygon","coordinates":[[[0,0],[1,0],[1,1],[0,1]]]}';
async function hoverAt(editor, character) {
  await editor.opened("file:///hover.geojson", ring);
  const found = await editor.request("textDocument/hover", { textDocument: { uri: "file:///hover.geojson" }, position: { line: 0, character } });
  editor.close("file:///hover.geojson");
  return found;
}
const hover = await hoverAt(client, 40);
same("the chapter", [hover?.contents.kind, hover?.contents.value.includes(`### ${chapter[1]}\n\n${chapter[2].trim()}`), hover && spanOf(hover.range)], ["markdown", true, "0:33-0:58"]);
same("nothing is wrong there", await hoverAt(client, 3), null);
const german = await Client.begun(server, { locale: "de-AT", capabilities: { textDocument: { hover: { contentFormat: ["plaintext"] } } } });
same("in German", [(await hoverAt(german, 33)).contents.kind, (await german.opened("file:///g.geojson", ring))[0].message], ["plaintext", `${GERMAN.rules.G15.join(" ")}`]);
const [fix] = await german.request("textDocument/codeAction", { textDocument: { uri: "file:///g.geojson" }, range: WHOLE, context: { diagnostics: [] } });
same("a fix in German", fix.title, "Den Ring mit seiner ersten Position schließen");
same("other kinds of actions", await german.request("textDocument/codeAction", { textDocument: { uri: "file:///g.geojson" }, range: WHOLE, context: { only: ["source.organizeImports"] } }), []);
same("the end", await german.end(), 0);

// ---- the protocol

const early = new Client(server);
same("before it begins", (await early.answer("textDocument/hover", {})).error.code, -32002);
const body = Buffer.from(JSON.stringify({ jsonrpc: "2.0", id: "é", method: "initialize", params: { capabilities: {} } }));
const answered = early.answerWithId("é");
for (const byte of Buffer.concat([Buffer.from(`content-type: x\r\nCONTENT-LENGTH:${body.length}\r\n\r\n`), body])) early.write(Buffer.of(byte));
same("a message byte by byte", (await answered).result.capabilities.positionEncoding, "utf-16");
const parse = early.answerWithId(null);
early.write("Content-Length: 2\r\n\r\n{]Content-Length: 4\r\n\r\nnullContent-Length: 1\r\n\r\n7");
same("no JSON", (await parse).error.code, -32700);
same("an unknown method", (await early.answer("textDocument/definition", {})).error.code, -32601);
same("a name that all objects have", (await early.answer("toString", {})).error.code, -32601);
same("a request without what it asks for", (await early.answer("textDocument/hover")).error.code, -32803);
early.notify("textDocument/didOpen", {});
early.notify("$/setTrace", { value: "off" });
early.change("file:///unknown.geojson", 2, { text: "" });
early.close("file:///unknown.geojson");
same("a text that is not open", await early.request("textDocument/hover", { textDocument: { uri: "file:///unknown.geojson" }, position: { line: 0, character: 0 } }), null);
await early.request("shutdown");
same("after the end", (await early.answer("textDocument/hover", {})).error.code, -32600);
early.notify("exit");
same("the status after shutdown", await early.ended, 0);
const killed = await Client.begun(server);
killed.notify("exit");
same("the status without shutdown", await killed.ended, 1);
const headless = await Client.begun(server);
headless.write("Content-Type: x\r\n\r\n");
same("a message without its length", [await headless.ended, /no Content-Length/.test(headless.errors)], [1, true]);

// ---- what nobody sends on purpose

const many = (count, properties) => `{"type":"FeatureCollection","features":[${Array(count).fill(feature("null", properties)).join(",")}]}`;
const long = many(Math.ceil(1e6 / feature("null", '"🚲"').length), '"🚲"');
const inLong = await client.opened("file:///long.geojson", long);
same("a line of a megabyte", [inLong.length, inLong.at(-1).message], [1001, "Only the first 1,000 are listed."]);
same("its ranges", inLong.slice(0, -1).every(({ code, range }) => code === "G18" && long.slice(range.start.character, range.end.character) === '"🚲"'), true);
const late = await client.request("textDocument/hover", { textDocument: { uri: "file:///long.geojson" }, position: inLong[700].range.start });
same("the path in it", /`(\$.*)`\n$/.exec(late.contents.value)?.[1], "$.features[700].properties");
const fixes = await client.request("textDocument/codeAction", { textDocument: { uri: "file:///long.geojson" }, range: WHOLE, context: { diagnostics: [] } });
same("its fixes are tried to a limit", fixes.length, 10);
// An edit that comes while one text is checked, and the end of another one.
client.open("file:///closed.geojson", long);
client.close("file:///closed.geojson");
client.change("file:///long.geojson", 2, { text: '{"type":"Point"}' });
client.change("file:///long.geojson", 3, { range: { start: { line: 9, character: 9 }, end: { line: 8, character: 0 } }, text: "\n3" });
same("edits that come together", briefOf((await client.found("file:///long.geojson", 3)).diagnostics), ["J1 1:0-1:1"]);
// Versions that go down, and positions that are not there: the edits count in the order in which they come.
client.published.length = 0;
client.change("file:///long.geojson", 1, { range: { start: { line: 1, character: 0 }, end: { line: 1, character: 99 } }, text: "" });
same("edits out of order", briefOf((await client.found("file:///long.geojson", 1)).diagnostics).slice(-1), ["G4 0:0-0:16"]);
client.change("file:///long.geojson", 5, { range: { start: { line: -1, character: 0 }, end: { line: "x", character: 0 } }, text: "" });
client.change("file:///long.geojson", 6, { text: "[1,2,\0" });
same("no JSON at all", briefOf((await client.found("file:///long.geojson", 6)).diagnostics), ["J1 0:5-0:6"]);
for (const text of ["\0\0\0", "hello", "\ud83d", "[".repeat(300), "1".repeat(2_000_000), '"'.repeat(9), "\r\r\n\n\r"]) {
  const codes = (await client.opened("file:///odd.geojson", text)).map((it) => it.code);
  same(`${text.slice(0, 9)}: one finding`, [codes.length, /^[GJ]/.test(codes[0])], [1, true]);
  client.close("file:///odd.geojson");
  client.published.length = 0;
}
await client.opened("file:///last.geojson", "{}");
same("nothing is told of a text that is closed", client.published.filter((it) => it.uri === "file:///closed.geojson" && it.diagnostics.length), []);
same("the server goes on", await client.end(), 0);

console.log(`${tried} compared, ${failed} differ`);
process.exit(failed ? 1 : 0);
