// What a file looks like: node hints.mjs SOURCES MODULE FOLDER PROGRAM. Each hint of geolint-files is given where PROGRAM gives it, with its
// text, and the page gives it too.

import { mkdirSync, readFileSync, writeFileSync } from "node:fs";
import { spawnSync } from "node:child_process";
import { pathToFileURL } from "node:url";

const [sources, module, folder, program] = process.argv.slice(2);
const from = (name) => import(pathToFileURL(`${sources}/${name}`));
const { load } = await from("geolint.js");
const { guessFor } = await from("guesses.js");
const { ENGLISH } = await from("texts.en.js");
const { GERMAN } = await from("texts.de.js");

// Each character is a byte. The name, or null; then what the page alone says.
const rows = [
  ["\x1f\x8b\x08\x00", "gzip"],
  ["PK\x03\x04rest", "zip"],
  ["SQLite format 3\0rest", "sqlite"],
  ["\0\0\x27\x0a\0\0", "shapefile"],
  ["fgb\x03fgb", "flatgeobuf"],
  ["PAR1rest", "parquet"],
  ["%PDF-1.7", "pdf"],
  ["\xff\xfe{\0", "utf16"],
  ["{\0\"\0", "utf16"],
  ["<!doctype html><p>Log in", "html"],
  ["\n<html>", "html"],
  ["\xef\xbb\xbf <p>not found</p>", "xml"],
  ["<?xml version='1.0'?>\n<kml xmlns='x'>", "kml"],
  ["<?xml version='1.0'?><a xmlns:gml='http://www.opengis.net/gml'>", "gml"],
  ["<?xml version='1.0'?><osm>", "xml"],
  ["<gpx version='1.1'>", "gpx"],
  ["<gpx version='1.1'><wpt lat='54' lon='9'/>", "waypoints"],
  ['\x1e{"type":"Point","coordinates":[0,0]}\n', "sequence"],
  ['{"type":"Point","coordinates":[0,0]}\n{"type":"Point","coordinates":[0,0]}\n', "secondText"],
  ["[1][2]", "secondText"],
  [`[1${" ".repeat(9_000_000)}] [2]`, "secondText"],
  ["[[1] [2]]", null],
  ['{"a":1,}', "extraComma"],
  ["[1,2,\n]", "extraComma"],
  ["[1,,2]", "extraComma"],
  ["[,2]", "extraComma"],
  ["{'a':1}", "singleQuotes"],
  ['{"a":NaN}', "notANumber"],
  ['{"a":nan}', "notANumber"],
  ['{"a":-Infinity}', "infinity"],
  ['{"a":1} // a note', "comment"],
  ['/* a note */ {"a":1}', "comment"],
  ["[1] # a note", "comment"],
  ['{"a":"Stra\xdfe"}', "latin1"],
  ['{"a":"caf\xe9"}', "latin1"],
  ['{"a":"\xe2\x82"}', "latin1"],
  ['{"a":"\xf8"}', "latin1"],
  ['{"type":"Topology","objects":{}}', "topojson"],
  ['{"displayFieldName":"","geometryType":"esriGeometryPoint"}', "esri"],
  ['{"spatialReference":{}}', "esri"],
  ['{"features":[{"attributes":{}}]}', "esri"],
  ['"{\\"type\\":\\"Point\\"}"', "textInString"],
  ['{"type":"Point","coordinates":[52.5,113.4]}', "swapped"],
  ['{"type":"Point","coordinates":[522000.5,6070000]}', "metres"],
  ['{"type":"Point","coordinates":[ -52.5 , -113.4 , 7 ]}', "swapped"],
  ['{"type":"Point","coordinates":[192.5,13.4]}', null],
  ['{"type":"Point","coordinates":[5e1,113.4]}', null],
  ['{"type":"Point","coordinates":[0.1234567890123456789012345678901,0]}', "manyDigits"],
  ['{"type":"Point","coordinates":[1e999,0]}', "largeNumber"],
  ['{"type":"Point","coordinates":[-1E-999,0]}', "smallNumber"],
  ['{"type":"Point"}', null],
  ['{"type":"Point","coordinates":[0,0]}', null],
  ['{"type":"Point","coordinates":[0,0]', null],
  ["\x89PNG\r\n", "image"],
  ["\xff\xd8\xff\xe0", "image"],
  ["id;name;lat;lon\n1;a;2;3\n", "csv"],
  [' json_agg \n----------\n {"type":"Point","coordinates":[0,0]}\n(1 row)\n', "psql"],
  ['"{""type"":""Point""}"', "doubledQuotes"],
  ['show({"type":"Point","coordinates":[0,0]});', "script"],
  ["Not found\n", "plainText"],
  ["[\n<<<<<<< HEAD\n{},", "conflict"],
  ['{"type":"Point",\0\0\0\0', "zeros"],
  ['{"a":True}', "python"],
  ['{"a":None}', "python"],
  ["{'a': None}", "pythonText"],
  ['{"a":undefined}', "word"],
  ['{"a":NULL}', "word"],
  ["{a:1}", "unquoted"],
  ['{"a":"two\nlines"}', "control"],
  ['{"file":"C:\\maps"}', "backslash"],
  ['{"a":"the "old" pier"}', "innerQuote"],
  ["{\xe2\x80\x9ca\xe2\x80\x9d:1}", "typographicQuotes"],
  ['{"a":.5}', "number"],
  ['{"a":+5}', "number"],
  ['{"a":05}', "number"],
  ["[1.]", "number"],
  ['{"depth":41,5}', "decimalComma"],
  ['{"a":1 "b":2}', "missingComma"],
  ['{"a":{},{', "missingBrace"],
  ['{"a":1},\n{"a":2},\n', "commaBetween"],
  ['{"type":"Point","coordinates":null}', "nullGeometry"],
  ['{"type":null}', "nullGeometry"],
  // What the page alone says.
  ["", null, "empty"],
];
const bytesOf = (text) => Uint8Array.from(text, (it) => it.charCodeAt(0));
mkdirSync(folder, { recursive: true });
rows.forEach(([text], i) => writeFileSync(`${folder}/${i}.geojson`, bytesOf(text)));
const said = spawnSync(program, ["--format", "json", ...rows.map((_, i) => `${folder}/${i}.geojson`)], { encoding: "utf8" });
// The program's hints name the file.
const native = said.stdout.trim().split("\n").map((line) => JSON.parse(line)).map(({ hint, path }) => hint?.replaceAll(` ${path}`, " IN") ?? null);

const geolint = await load(readFileSync(module));
let failed = 0;
const wants = (what, got, wanted) => got === wanted || (failed++, console.log(`${JSON.stringify(what.slice(0, 60))}: ${got}, wanted ${wanted}`));
const told = new Set();
for (const [i, [text, name, onPage = name]] of rows.entries()) {
  const bytes = bytesOf(text);
  for (const input of [bytes, new Blob([bytes]).stream()]) {
    const { hint } = await geolint.check(input);
    wants(text, hint?.name ?? null, name);
    wants(text, hint?.text ?? null, native[i]);
  }
  const features = geolint.features(bytes);
  for await (const it of features) void it;
  wants(text, features.verdict.hint?.name ?? null, name);
  wants(text, guessFor(features.verdict)?.name ?? null, onPage);
  if (onPage) told.add(onPage);
}
// Where a sequence is due.
told.add("noSeparator");
for (const table of [ENGLISH, GERMAN]) wants(`what ${table.language} has`, Object.keys(table.hints).sort().join(), [...told].sort().join());
process.exit(failed ? 1 : 0);
