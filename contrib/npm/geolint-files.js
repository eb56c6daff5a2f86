#!/usr/bin/env node
// Checks GeoJSON files and folders in Node, with the options of the program geolint-files as far as they serve.

import { lstat, open, readdir, realpath, stat } from "node:fs/promises";
import { constants, createReadStream, readFileSync } from "node:fs";
import { createHash } from "node:crypto";
import { dirname, join, sep } from "node:path";
import { parseArgs } from "node:util";
import { endsIn, framingOf, FOLDER_ENDINGS } from "./endings.js";
import { load, textOf, jsonOf, jsonOfUnread, linesOf, sarifOf, githubOf, githubOfUnread, eachOf, demandsOf } from "./geolint.js";
import { textOfFindings, jsonOfFindings, linesOfFindings, githubOfFindings } from "./geolint.js";
import { issueOfUnread, issuesOf, issuesOfFindings } from "./issues.js";
import { shownName as shown } from "./lines.js";
import { chaptersOf } from "./session.js";

const read = (name) => readFileSync(new URL(name, import.meta.url), "utf8");
const NOT_SERVED = ["split", "force", "part", "join", "file"];
const { about, after, options } = JSON.parse(read("options.json"));
const SERVED = options.filter(({ name }) => !NOT_SERVED.includes(name));

class WrongWords extends Error {}

/** What --help says. */
function helpText() {
  const lines = SERVED.map(({ name, letter, help, notes, value_name: value, alone }) => {
    const word = `--${name}${alone ? `[=<${value}>]` : value ? ` <${value}>` : ""}`;
    return `  ${letter ? `-${letter},` : "   "} ${word.padEnd(19)}  ${help}${notes}\n`;
  });
  return `${about}\n\nUsage: geolint-files [OPTIONS] [PATH]...\n\nOptions:\n${lines.join("")}\n${after}\n`;
}

/** Sees that an option may be given with the others, and takes what it was given. */
function tryOption({ name, values, least, conflicts, needs }, given) {
  const other = conflicts.find((it) => given[it] !== undefined);
  if (other) throw new WrongWords(`--${name} and --${other} cannot be given together`);
  if (needs.some((it) => given[it] === undefined)) throw new WrongWords(`--${name} needs --${needs[0]}`);
  const isNumber = (it) => /^[0-9]+$/.test(it) && BigInt(it) >= BigInt(least) && BigInt(it) <= 1n << 60n;
  const isWrong = (it) => (values.length && !values.includes(it)) || (least !== null && !isNumber(it));
  const wrong = [given[name]].flat().find(isWrong);
  const wanted = least === null ? values.join(", ") : `a number from ${least} to 2^60`;
  if (wrong !== undefined) throw new WrongWords(`invalid value '${wrong}' for '--${name}': it is ${wanted}`);
}

/** The words of the call, tried. */
function givenWords() {
  const known = SERVED.map(({ name, letter, value_name: value, several, default: usual }) => {
    const preset = several ? { default: [] } : usual ? { default: usual } : {};
    return [name, { type: value ? "string" : "boolean", multiple: Boolean(several), ...preset, ...(letter ? { short: letter } : {}) }];
  });
  let given;
  try {
    const args = process.argv.slice(2).map((it) => (it === "--every" ? "--every=faults" : it));
    given = parseArgs({ args, options: Object.fromEntries(known), allowPositionals: true });
  } catch (error) {
    throw new WrongWords(error.message);
  }
  const kindsOf = (list) => list.flatMap((it) => it.toUpperCase().split(",")).map((it) => it.trim());
  const { values, positionals: paths } = given;
  const words = { ...values, allow: kindsOf(values.allow), deny: kindsOf(values.deny), explain: values.explain?.toUpperCase() };
  for (const option of SERVED) if (words[option.name] !== undefined) tryOption(option, words);
  const endings = [...FOLDER_ENDINGS, ...words.ending.map((it) => `.${it.replace(/^\./, "").toLowerCase()}`)];
  const which = { faults: "faults", warnings: "findings" }[words.every] ?? null;
  const framing = words.seq ? "sequence" : words.ndjson ? "lines" : null;
  const maxBytes = BigInt(words["max-bytes"] ?? 0);
  return { ...words, maxBytes, which, framing, endings, paths, most: Number(words.most) || Infinity, list: words["files-from"] ?? null };
}

/** The paths that are given, and those of a list: { path, isListed } each. */
async function pathsOf({ paths, list, null: isNull }) {
  const given = (list === null && !paths.length ? ["-"] : paths).map((path) => ({ path, isListed: false }));
  if (list === null) return given;
  const parts = [];
  try {
    for await (const it of list === "-" ? process.stdin : createReadStream(list)) parts.push(it);
  } catch (error) {
    throw new Error(`${shown(list)}: ${reasonOf(error)}`);
  }
  const listed = Buffer.concat(parts).toString().split(isNull ? "\0" : "\n").filter(Boolean);
  return [...given, ...listed.map((path) => ({ path, isListed: true }))];
}

/** The files that the paths name: { name } each, with the `folder` in which it was found or listed, or with the reason why it cannot be looked
 *  at. Only a path that is given may be a stream. */
async function* filesOf(paths, endings, others) {
  for (const { path, isListed } of paths) {
    if (path !== "-") yield* filesAt(path, { endings, others, isListed, seen: new Set() });
    else if (isListed) yield { name: path, reason: "a list cannot name standard input; ./- is a file of that name" };
    else yield { name: path };
  }
}

async function* filesAt(path, walk, folder = null) {
  const { endings, others, isListed, seen } = walk;
  const isWanted = folder === null || endsIn(path, endings);
  let is;
  try {
    is = await stat(path);
    folder ??= isListed ? await realpath(dirname(path)) : is.isDirectory() ? await realpath(path) : null;
  } catch (error) {
    // Of a link that leads nowhere only one with an ending is reported. A name that is not Unicode text is not found either, and is no link.
    if (isWanted || !(await isLostLink(path, error))) yield { name: path, reason: reasonOf(error) };
    return;
  }
  if (!is.isDirectory()) {
    if (!isWanted) others.count += Number(is.isFile());
    else if (folder === null || is.isFile()) yield { name: path, folder };
    else yield { name: path, reason: NO_FILE };
    return;
  }
  const identity = `${is.dev} ${is.ino}`;
  if (seen.has(identity)) return;
  seen.add(identity);
  let names;
  try {
    names = await readdir(path);
  } catch (error) {
    return yield { name: path, reason: reasonOf(error) };
  }
  for (const name of names.sort()) yield* filesAt(join(path, name), walk, folder);
}

/** Whether a name was not found since it is a link that leads nowhere. */
async function isLostLink(path, error) {
  if (error.code !== "ENOENT" && error.code !== "ELOOP") return false;
  return lstat(path).then((is) => is.isSymbolicLink(), () => false);
}

const NO_FILE = "no regular file; it is read where it is given by name";
const reasonOf = (error) => error.message.replace(/^\w+: /, "").replace(/, \w+( '.*')?$/s, "");

/** The report of a file, or of standard input. Of a file outside of the folder in which it was found no text is shown. */
async function judge(geolint, { name, folder = null }, words) {
  if (name === "-") return judgeInput(geolint, name, process.stdin, words);
  // A FIFO that has taken the place of the file is not waited for.
  const file = await open(name, folder === null ? constants.O_RDONLY : constants.O_RDONLY | constants.O_NONBLOCK);
  try {
    const is = await file.stat();
    if (folder !== null && !is.isFile()) throw new Error(NO_FILE);
    const input = is.isFile() ? { size: is.size, read: (from, to) => bytesOf(file, from, to) } : file.createReadStream({ autoClose: false });
    const report = await judgeInput(geolint, name, input, words);
    if (folder === null || join(await realpath(name), sep).startsWith(join(folder, sep))) return report;
    return { ...report, verdict: without(NO_LINE, report.verdict), items: report.items.map((it) => without(NO_TEXT, it)) };
  } finally {
    await file.close();
  }
}

/** A verdict or a finding without what the text shows; the one reading of a stream gives lines to the findings under --every alone. */
const without = (what, it) => ({ ...it, ...what, warnings: it.warnings.map((one) => ({ ...one, ...what })) });
const NO_TEXT = { path: null, feature: null, excerpt: null, hint: null, id: null, name: null };
const NO_LINE = { ...NO_TEXT, line: null, column: null };

/** The verdict, and under --every what is found in the features or records: `items`, and how many `more` there are. */
async function judgeInput(geolint, name, input, { maxBytes, framing = null, which, most, quick: isQuick }) {
  const form = framing ?? framingOf(name);
  const [items, counts] = [[], { all: 0 }];
  if (!form && !which) return { verdict: await geolint.check(input, { maxBytes, isQuick }), items, more: 0 };
  const options = which ? { maxBytes, which } : { maxBytes, most: 0 };
  const findings = form ? geolint.records(input, { framing: form, ...options }) : geolint.features(input, options);
  for await (const it of findings) {
    for (const one of eachOf([it])) if (counts.all++ < most) items.push(one);
  }
  const { verdict } = findings;
  // Of a file that is no JSON text only the report is written.
  if (verdict.verdict === "not JSON" && !form) return { verdict, items: [], more: 0 };
  return { verdict, items, more: counts.all - items.length };
}

async function bytesOf(file, from, to) {
  const bytes = new Uint8Array(to - from);
  let at = 0;
  while (at < bytes.length) {
    const { bytesRead } = await file.read(bytes, at, bytes.length - at, from + at);
    if (bytesRead === 0) break;
    at += bytesRead;
  }
  return bytes.subarray(0, at);
}

/** An issue of a file as GitLab's Code Quality reads it. Its fingerprint stays the same while the file has this at this place. */
function gitlabIssue(name, { level, rule, text, offset, line }) {
  const fingerprint = createHash("sha256").update(`${rule} ${offset} ${name}`).digest("hex");
  const severity = { error: "major", warning: "minor", notice: "info" }[level];
  return JSON.stringify({ description: text, check_name: rule, fingerprint, severity, location: { path: shown(name), lines: { begin: line ?? 1 } } });
}

/** Checks all files, writes what the form has of each, and returns the status. */
async function run(words) {
  const geolint = await load();
  const { fails, passes } = demandsOf(words);
  let issueCount = 0;
  const gitlabOf = (name, issues) => issues.map((it) => (issueCount++ ? ",\n" : "[") + gitlabIssue(name, it)).join("");
  const forms = {
    lines: (name, { verdict, items, more }) => linesOf(shown(name), verdict) + linesOfFindings(shown(name), items, more),
    json: (name, { verdict, items, more }) => [jsonOf(name, verdict, passes), ...jsonOfFindings(name, items, more), ""].join("\n"),
    text: (name, { verdict, items, more }) => `==> ${shown(name)} <==\n${textOf(verdict)}${textOfFindings(items, more)}`,
    github: (name, { verdict, items, more }) => githubOf(shown(name), verdict, fails) + githubOfFindings(shown(name), items, more, fails),
    gitlab: (name, { verdict, items, more }) => gitlabOf(name, [...issuesOf(shown(name), verdict, fails), ...issuesOfFindings(items, more, fails)]),
    sarif: () => "",
  };
  const unreadForms = {
    json: (name, reason) => `${jsonOfUnread(name, reason)}\n`,
    github: (name, reason) => githubOfUnread(shown(name), reason),
    gitlab: (name, reason) => gitlabOf(name, [issueOfUnread(reason)]),
  };
  const counts = { valid: 0, "valid with warnings": 0, broken: 0, "not JSON": 0, "not read": 0, ...(words.quick ? { "not valid": 0 } : {}) };
  const [reports, unread, others] = [[], [], { count: 0 }];
  let status = 0;
  for await (const { name, folder, reason } of filesOf(await pathsOf(words), words.endings, others)) {
    try {
      if (reason) throw new Error(reason);
      const report = await judge(geolint, { name, folder }, words);
      const { verdict } = report;
      await write(forms[words.format](name, report));
      if (words.format === "sarif") reports.push({ name, ...report });
      counts[verdict.verdict === "valid" && verdict.warnings.length ? "valid with warnings" : verdict.verdict]++;
      if (!passes(verdict)) status = Math.max(status, 1);
    } catch (error) {
      status = 2;
      counts["not read"]++;
      unread.push({ name, reason: reasonOf(error) });
      process.stderr.write(`geolint-files: ${shown(name)}: ${reasonOf(error)}\n`);
      await write(unreadForms[words.format]?.(name, reasonOf(error)) ?? "");
    }
  }
  if (words.format === "gitlab") await write(issueCount ? "]\n" : "[]\n");
  if (words.format === "sarif") await write(sarifOf(reports, await geolint.texts(), await geolint.version(), unread));
  if (words.summary) process.stderr.write(Object.entries(counts).map(([name, count]) => `${count} ${name}`).join(", ") + "\n");
  const isNone = Object.values(counts).every((it) => it === 0);
  if (isNone && !words["allow-empty"]) {
    process.stderr.write(`geolint-files: no file was checked${others.count ? `; ${others.count} files have other endings` : ""}\n`);
    return 2;
  }
  return status;
}

/** The version, and the commit and the proof kit of a package that `make dist` made. */
function versionLines() {
  const { version, geolint: build } = JSON.parse(read("package.json"));
  return `geolint-files ${version}\n${build ? `commit: ${build.commit}\nproved and compiled by: ${build.kit}\n` : ""}`;
}

const write = (text) => new Promise((done, failed) => process.stdout.write(text, (error) => (error ? failed(error) : done())));

// Where nobody reads the report any more, the run ends without a word.
process.stdout.on("error", (error) => {
  if (error.code === "EPIPE") process.exit(141);
  process.stderr.write(`geolint-files: the report cannot be written: ${reasonOf(error)}\n`);
  process.exit(2);
});
try {
  const words = givenWords();
  if (words.help) process.stdout.write(helpText());
  else if (words.explain) process.stdout.write(chaptersOf(read("rules.md")).get(words.explain).replace("### ", ""));
  else if (words.version) process.stdout.write(versionLines());
  else process.exitCode = await run(words);
} catch (error) {
  process.stderr.write(`geolint-files: ${shown(error.message)}\n${error instanceof WrongWords ? "\nFor more information, try '--help'.\n" : ""}`);
  process.exitCode = 2;
}
// Node may wait for ever for its own compiler of the module, so the command does not leave its end to it.
await write("");
process.exit();
