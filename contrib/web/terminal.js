// The forms of a report for a terminal: the lines of the program geolint, and the form `lines` of geolint-files.

import { issueOfUnread, issuesOf, issuesOfFindings } from "./issues.js";
import { shownName } from "./lines.js";
import { eachOf, hintText } from "./report.js";
import { widthOf } from "./width.js";

const isTold = (it) => it !== null && it !== undefined;
const wordOf = (it) => (it.rule.startsWith("W") ? "warning" : it.verdict);
const calledIn = (it) => (it.index === undefined ? `record ${it.number}` : `feature ${it.index}`);

/** The lines of `geolint`, which have byte offsets. */
export function textOf(verdict) {
  const { verdict: name, rule, text, offset, warnings, path, record, records } = verdict;
  const inside = isTold(record) ? `record ${record}\n` : "";
  if (name === "broken") return `${inside}broken ${rule} at ${offset}: ${text}\n${path ? `path ${path}\n` : ""}`;
  if (name === "not JSON") return `${inside}not JSON at ${offset}: ${text}\n`;
  if (name === "not valid") return "not valid\n";
  const all = isTold(records) ? [`records ${records}`] : [];
  return ["valid", ...all, ...warnings.map((it) => `warning ${it.rule} count ${it.count} first ${it.offset}: ${it.text}`)].join("\n") + "\n";
}

export function textOfFindings(items, more = 0) {
  const lines = eachOf(items).map((it) => {
    const id = isTold(it.id) ? ` id ${shownName(it.id)}` : "";
    const spot = [`at ${it.offset}`, it.line !== null && `line ${it.line}, column ${it.column}`, it.path].filter(Boolean).join(", ");
    return `${calledIn(it)}${id} ${wordOf(it)} ${it.rule} ${spot}: ${it.text}\n`;
  });
  return lines.join("") + (more > 0 ? `and ${more} more\n` : "");
}

const place = (name, it) => (it.line === null ? name : `${name}:${it.line}:${it.column}`);
function detailsOf(it) {
  const details = [isTold(it.record) && `record ${it.record}`, it.count > 1 && `${it.count} times`, it.line === null && `at byte ${it.offset}`, it.path].filter(Boolean);
  return details.length ? ` (${details.join(", ")})` : "";
}

/** Positions out of range, as metres are, come before their long numbers. */
const rankOf = (it) => (it.rule === "W5" ? 3.5 : Number(it.rule.slice(1)));

/** The form `lines`: a line for each finding, and under a fault the part of the line with a caret. */
export function linesOf(name, verdict) {
  const lineOf = (it, word) => `${place(name, it)}: ${word} ${it.rule}: ${it.text}${detailsOf(it)}\n`;
  const hint = verdict.hint ? `    hint: ${hintText(name, verdict.hint)}\n` : "";
  const shown = [...verdict.warnings].sort((a, b) => rankOf(a) - rankOf(b));
  if (verdict.verdict === "valid") return shown.map((it) => lineOf(it, "warning")).join("") + hint;
  if (verdict.verdict === "not valid") return `${name}: not valid\n`;
  return lineOf(verdict, verdict.verdict) + excerptOf(verdict.excerpt) + hint;
}

/** The part of the line, and a caret under the place, by the width of the characters before it. */
function excerptOf(excerpt) {
  if (!excerpt) return "";
  const { before, after, isCutBefore, isCutAfter } = excerpt;
  const left = (isCutBefore ? "..." : "") + before;
  return `  | ${left}${after}${isCutAfter ? "..." : ""}\n  | ${" ".repeat(widthOf(left))}^\n`;
}

export function linesOfFindings(name, items, more = 0) {
  const lines = eachOf(items).map((it) => {
    const id = isTold(it.id) ? `id ${shownName(it.id)}` : null;
    const details = [calledIn(it), id, it.line === null && `at byte ${it.offset}`, it.path].filter(Boolean).join(", ");
    return `${place(name, it)}: ${wordOf(it)} ${it.rule}: ${it.text} (${details})\n`;
  });
  return lines.join("") + (more > 0 ? `${name}: and ${more} more\n` : "");
}

const inMessage = (text) => text.replace(/[%\r\n]/g, (it) => `%${it.charCodeAt(0).toString(16).toUpperCase().padStart(2, "0")}`);
const inProperty = (text) => inMessage(text).replace(/:/g, "%3A").replace(/,/g, "%2C");
const neverFails = () => false;

/** The form `github`: a workflow command for each issue. */
const commandsOf = (name, issues) =>
  issues
    .map(({ level, rule, text, line, column }) => {
      const spot = line === null ? "" : `,line=${line},col=${column}`;
      const title = /\d/.test(rule) ? `,title=${rule}` : "";
      return `::${level} file=${inProperty(name)}${spot}${title}::${inMessage(text)}\n`;
    })
    .join("");

/** `fails` says of a kind of warning whether it fails the file. */
export const githubOf = (name, verdict, fails = neverFails) => commandsOf(name, issuesOf(name, verdict, fails));
export const githubOfUnread = (name, reason) => commandsOf(name, [issueOfUnread(reason)]);
export const githubOfFindings = (name, items, more = 0, fails = neverFails) => commandsOf(name, issuesOfFindings(items, more, fails));
