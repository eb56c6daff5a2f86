// Draws what was found of a file: a card with one sentence, and a table with a row for each finding.

import { say, size, time, number, whatOf, mendOf } from "./language.js";
import { pictureOf, drawingOf } from "./draw.js";
import { button, make } from "./dom.js";
import { listingOf, tableOfAll } from "./listing.js";
import { calledOf } from "./names.js";
import { demandsOf } from "./report.js";

/** How many rows of a table, and cards of a list, are drawn at once. */
export const STEP = 100;

/** What is reported of a file: the fault, or each kind of warning. */
export const findingsOf = (verdict) => (verdict.verdict === "valid" ? verdict.warnings : [verdict]);

/** The kinds of warning that are not let pass, and what passes by them. */
export const denied = new Set();
export const demanded = () => demandsOf({ deny: [...denied] });

/** Which of the five groups an entry belongs to: valid, warned, denied, bad, or none where there is no verdict. */
export function groupOf({ verdict }) {
  if (!verdict) return "none";
  if (verdict.verdict !== "valid") return "bad";
  if (!demanded().passes(verdict)) return "denied";
  return verdict.warnings.length ? "warned" : "valid";
}

/** The one sentence for a file. */
export function sentenceOf(entry) {
  const { verdict, reason } = entry;
  if (!verdict) return reason ?? say("sentence.none");
  const group = groupOf(entry);
  const { record, records } = verdict;
  if (group === "valid") return records === null ? say("sentence.valid") : say("sentence.validMany", { count: records });
  if (group === "denied") return say("sentence.denied", { kinds: verdict.warnings.map((it) => it.rule).filter(demanded().fails).join(", ") });
  if (group === "warned") return say("sentence.warned", { count: verdict.warnings.length });
  if (record !== null) return say("sentence.brokenMany", { number: record, what: whatOf(verdict.rule) });
  if (entry.hint?.isOtherKind) return say("sentence.otherKind", { hint: hintSaid(entry) });
  return say(verdict.verdict === "broken" ? "sentence.broken" : "sentence.notJson", { what: whatOf(verdict.rule) });
}

const hintSaid = ({ hint }) => `${say("hint")} ${say(`hints.${hint.name}`)}`;

/** The card of a file. `calls` has `saveValid(entry, button)`, which saves its valid features, and `complete(entry, items)`, which adds what
 *  the reading left out; where there are no such calls, the card is for paper. */
export function cardOf(entry, calls = null) {
  const { name, verdict, milliseconds } = entry;
  const took = verdict ? make("span", "note", tookText(verdict.read, milliseconds / 1000)) : null;
  const card = make("article", `card ${groupOf(entry)}`, make("div", "head", make("h3", "", name), took), make("p", "verdict", sentenceOf(entry)));
  if (verdict && groupOf(entry) !== "valid") card.append(...foundIn(entry, calls));
  card.dataset.milliseconds = milliseconds ?? "";
  return card;
}

/** How much was read, and how long that took where it is worth saying. */
const tookText = (read, seconds) => (seconds < 0.1 ? size(read) : say("took", { size: size(read), time: time(seconds) }));

/** All that was found: of the file as a whole, and in its features. */
function foundIn(entry, calls) {
  const { verdict, items, counts } = entry;
  if (!items?.length || !counts) return tableOf(entry);
  const listing = calls ? [listingOf(entry, detailsOf, calls)] : tableOfAll(entry);
  // The first fault is in the list already, unless it is one of the text's object itself.
  const isListed = verdict.verdict !== "valid" && items.hasFaultAt(verdict.offset);
  return isListed ? listing : [...tableOf(entry), ...listing];
}

/** The table of the findings, and what is said below it. */
function tableOf(entry) {
  const { verdict, items } = entry;
  const findings = findingsOf(verdict);
  const body = make("tbody");
  const head = ["rule", "what", "where", "inside"].map((it) => make("th", "", say(`table.${it}`)));
  head.forEach((it) => (it.scope = "col"));
  if (findings.every((it) => insideOf(it) === "")) head[3] = make("td");
  const table = make("table", "findings", make("thead", "", make("tr", "", ...head)), body);
  const draw = () => {
    const from = body.querySelectorAll(".finding").length;
    // Where one thing alone is reported, its details are open.
    for (const it of findings.slice(from, from + STEP)) body.append(...tableRowsOf(entry, it, findings.length === 1));
    const left = findings.length - from - STEP;
    more.hidden = left <= 0;
    more.textContent = say("more", { count: Math.min(left, STEP) });
  };
  const more = button("", draw);
  draw();
  const below = [];
  if (verdict.verdict === "broken" && !items?.length) below.push(make("p", "note", say("firstOnly")));
  return [table, more, ...below];
}

/** The row of a finding, and that of its details, which the button in the first opens. */
function tableRowsOf(entry, finding, isOpen) {
  const toggle = button(finding.rule, () => open(second.hidden), "toggle");
  toggle.setAttribute("aria-label", `${finding.rule}: ${say("details")}`);
  const cells = [toggle, whatOf(finding.rule), whereOf(finding), insideOf(finding)].map((it) => make("td", "", it));
  const detail = make("td", "detail");
  detail.colSpan = 4;
  const second = make("tr", "details", detail);
  const open = (isNow) => {
    if (isNow && !detail.childNodes.length) detail.append(...detailsOf(entry, finding));
    second.hidden = !isNow;
    toggle.setAttribute("aria-expanded", isNow);
  };
  open(isOpen);
  return [make("tr", "finding", ...cells), second];
}

export function whereOf(finding) {
  const { line, column, offset, excerpt, count } = finding;
  const name = line === null ? "whereByte" : excerpt?.isAtEnd ? "whereEnd" : "where";
  const place = say(name, { line, column, offset });
  return count > 1 ? `${place} (${say("times", { count })})` : place;
}

/** The feature that a finding lies in, by its number from 1 and its name or id. What is no JSON has none. */
export function insideOf({ feature, path, rule }) {
  if (rule.startsWith("J")) return "";
  if (path === null) return say("noPath");
  const called = calledOf(feature?.value);
  if (!feature || feature.index === null) return called ?? say("wholeText");
  const values = { number: feature.index + 1, name: called };
  return called === null ? say("feature", values) : say("featureCalled", values);
}

/** The excerpt, how to mend it, the hint, the drawing and the chapter on the rule. */
function detailsOf(entry, finding) {
  // Of a file of another kind there is no line worth showing, and nothing to mend at the place.
  if (entry.hint?.isOtherKind) return [chapterOf(finding.rule)].filter(Boolean);
  const list = make("dl", "", make("dt", "", say("mend")), make("dd", "", mendOf(finding.rule)));
  if (finding.path) list.append(make("dt", "", say("path")), make("dd", "", make("code", "", finding.path)));
  const hint = entry.hint?.offset === finding.offset ? make("p", "hint", hintSaid(entry)) : null;
  return [excerptOf(finding), hint, list, figureOf(finding), chapterOf(finding.rule)].filter(Boolean);
}

/** Some lines around the place with their numbers, and the character there marked. */
function excerptOf({ excerpt, line }) {
  if (!excerpt) return null;
  const { before, after, isCutBefore, isCutAfter, isAtEnd, linesBefore, linesAfter } = excerpt;
  const [first = "", ...rest] = [...after];
  const gap = (isThere) => (isThere ? make("span", "gap", "…") : "");
  const mark = make("mark", "", first || `⟨${say(isAtEnd ? "endOfText" : "endOfLine")}⟩`);
  const faulty = [gap(isCutBefore), before, mark, rest.join(""), gap(isCutAfter)];
  const rows = [...linesBefore.map((it) => [it]), faulty, ...linesAfter.map((it) => [it])];
  const box = make("pre", "excerpt");
  rows.forEach((parts, i) => {
    const number = line === null ? "" : make("span", "number", `${line - linesBefore.length + i}`);
    box.append(make("span", parts === faulty ? "row-of-place" : "row-beside", number, ...parts), "\n");
  });
  box.tabIndex = 0;
  box.setAttribute("role", "region");
  box.setAttribute("aria-label", say("excerptLabel"));
  return box;
}

function figureOf(finding) {
  const picture = pictureOf(finding);
  if (!picture) return null;
  const { west, south, east, north } = picture.box;
  const degrees = (it) => number(it, 7);
  const corners = { west: degrees(west), south: degrees(south), east: degrees(east), north: degrees(north) };
  const caption = `${say("drawing")} ${say("drawingFrom", corners)}`;
  return make("figure", "", drawingOf(picture, say("drawing")), make("figcaption", "", caption));
}

/** The chapter of docs/rules.md on a rule, which the page holds once. */
function chapterOf(rule) {
  const chapter = document.getElementById(rule);
  if (!chapter) return null;
  const copy = chapter.cloneNode(true);
  for (const it of [copy, ...copy.querySelectorAll("[id]")]) it.removeAttribute("id");
  copy.querySelector("h3")?.remove();
  const text = make("div", "doc", copy);
  text.lang = "en";
  const details = make("details", "", make("summary", "", say("docs", { rule })), text);
  return details;
}
