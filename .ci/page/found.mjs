// Compares what features() and records() find, and what split() saves, with what is expected: node found.mjs SOURCES MODULE FOLDER
//
// FOLDER is what found.py wrote. Each input is given as a Blob, as a stream and in pieces of random length.

import { readFileSync } from "node:fs";
import { pathToFileURL } from "node:url";
import { isDeepStrictEqual } from "node:util";

const [sources, modulePath, folder] = process.argv.slice(2);
const { load } = await import(pathToFileURL(`${sources}/geolint.js`));
const geolint = await load(readFileSync(modulePath));
const { Packer, Packed } = await import(pathToFileURL(`${sources}/packed.js`));
const texts = await geolint.texts();

let seed = 5;
const random = (below) => ((seed = (Math.imul(seed, 1103515245) + 12345) >>> 0), seed % below);
function* cut(bytes, longest) {
  for (let at = 0; at < bytes.length; ) {
    const size = 1 + random(longest);
    yield bytes.subarray(at, at + size);
    at += size;
  }
}

const framings = { geojsons: "sequence", ndjson: "lines" };
const ways = [(bytes) => new Blob([bytes]), (bytes) => new Blob([bytes]).stream(), (bytes) => cut(bytes, 9), (bytes) => cut(bytes, 300)];
const place = ({ rule, offset, line, column, path }) => ({ rule, offset, line, column, path });
const plain = ({ index, number, place: start, end, warnings, ...it }) =>
  JSON.stringify({ called: index ?? number, start, end, ...place(it), warnings: warnings.map((one) => ({ count: one.count, ...place(one) })) });

/** Findings as the page has them: sent as numbers, in parts. */
function sent(findings, isText) {
  const [packer, packed] = [new Packer(), new Packed(texts, isText)];
  findings.forEach((it, i) => {
    packer.add(it);
    if (packer.isFull || i % 7 === 6) packed.add(packer.part());
  });
  packed.add(packer.part());
  return packed;
}

let [inputs, found, failed] = [0, 0, 0];
const differs = (...told) => failed++ < 5 && console.log("DIFFERS:", ...told);
for (const line of readFileSync(`${folder}/expected.jsonl`, "utf8").trim().split("\n")) {
  const { name, found: wanted, split } = JSON.parse(line);
  const bytes = readFileSync(`${folder}/${name}`);
  const framing = framings[name.split(".")[1]];
  inputs++;
  const find = async (input, options = {}) => {
    const findings = framing ? geolint.records(input, { framing, ...options }) : geolint.features(input, options);
    const got = [];
    for await (const it of findings) got.push(it);
    return { got, verdict: findings.verdict };
  };
  for (const way of ways) {
    const { got, verdict } = await find(way(bytes));
    const brief = await find(way(bytes), { isBrief: true });
    const told = JSON.stringify(await geolint.completed(new Blob([bytes]), brief.got));
    if (told !== JSON.stringify(got) || JSON.stringify(brief.verdict) !== JSON.stringify(verdict)) differs(name, "in brief and then in full", told, brief.verdict);
    if (brief.got.some((it) => it.idAt === undefined || "path" in it || "name" in it)) differs(name, "in brief", brief.got);
    const packed = sent(brief.got, !framing);
    const rules = brief.got.map((it) => (it.verdict === "valid" ? it.warnings.map(({ rule }) => rule) : [it.rule]));
    if (!isDeepStrictEqual([...packed], brief.got) || !isDeepStrictEqual(brief.got.map((_, i) => packed.rulesOf(i)), rules)) differs(name, "as numbers", [...packed]);
    if (brief.got.some((it) => packed.hasFaultAt(it.offset) !== (it.verdict !== "valid"))) differs(name, "faults by their places", brief.got);
    if (wanted === null) {
      if (verdict.verdict !== "not JSON") differs(name, "is no JSON text", verdict.verdict);
      continue;
    }
    found += got.length;
    const [mine, theirs] = [got.map(plain).join("\n"), wanted.map(plain).join("\n")];
    if (mine !== theirs) differs(name, `\n${mine}\n  expected\n${theirs}`);
    const first = wanted.find((it) => it.rule !== null);
    if (framing && JSON.stringify(place(verdict)) !== JSON.stringify(place(first ?? verdict))) differs(name, "the verdict", verdict);
    if (!framing && JSON.stringify(await geolint.check(bytes)) !== JSON.stringify(verdict)) differs(name, "the verdict of check", verdict);
  }
  if (split === null) continue;
  const { blob, count } = await geolint.split(new Blob([bytes]), { framing });
  const saved = Buffer.from(await blob.arrayBuffer());
  if (saved.toString("latin1") !== split) differs(name, `split\n${saved.toString("latin1")}\n  expected\n${split}`);
  const again = geolint.records(blob, { framing: "sequence", which: "all" });
  let all = 0;
  for await (const it of again) all += it.verdict === "valid" ? 1 : 0;
  if (all !== count || again.verdict.records !== count) differs(name, "what is saved is checked", all, count, again.verdict);
}
// Features that are longer than what is checked at once, some of them over the end of a piece that is read.
const long = Array.from({ length: 90 }, (_, i) => `{"type":"Feature","id":${i},"properties":{"pad":"${"é".repeat(100_000)}"},"geometry":{"type":"Point","coordinates":[1${i % 3 ? "" : ",2"}]}}`);
const whole = Buffer.from(`{"type":"FeatureCollection","features":[\n${long.join(",\n")}\n]}`);
for (const way of ways.slice(0, 2)) {
  const findings = geolint.features(way(whole));
  let at = 0;
  for await (const it of findings) {
    while (at % 3 === 0) at++;
    const start = whole.indexOf(`{"type":"Feature","id":${at},`);
    const [offset, column] = [start + Buffer.from(long[at]).length - 5, [...long[at]].length - 4];
    const path = `$.features[${at}].geometry.coordinates`;
    const wanted = JSON.stringify([at, start, offset + 5, "G12", offset, at + 2, column, path, `${at}`]);
    const got = JSON.stringify([it.index, it.place, it.end, it.rule, it.offset, it.line, it.column, it.path, it.name]);
    if (got !== wanted) differs("long features", got, wanted);
    at++;
  }
  inputs++;
  if (at !== 90 || findings.counts.faults !== 60 || findings.verdict.line !== 3) differs("long features", at, findings.counts, findings.verdict.line);
}
const { blob, count } = await geolint.split(new Blob([whole]));
if (count !== 30 || (await blob.text()) !== long.filter((_, i) => i % 3 === 0).map((it) => `\x1e${it}\n`).join("")) differs("long features are saved", count, blob.size);
// Places near the ends of the pieces that a Blob is read by: the text around them lies in two pieces.
for (const place of [-2000, -30, 0, 30, 2000].flatMap((it) => [(1 << 20) + it, (2 << 20) + it])) {
  const head = '{"type":"Point",';
  const text = Buffer.from(`${head}${`${" ".repeat(40)}\n`.repeat(1 << 16).slice(0, place - head.length - 14)}"coordinates":[1]}${"\n ".repeat(1500)}`);
  const [asBlob, asBytes] = [await geolint.check(new Blob([text])), await geolint.check(text)];
  inputs++;
  if (asBlob.offset !== place || JSON.stringify(asBlob) !== JSON.stringify(asBytes)) differs("near the end of a piece", place, asBlob, asBytes);
}

console.log(`${inputs} inputs, ${found} findings, ${failed} differ`);
process.exit(failed ? 1 : 0);
