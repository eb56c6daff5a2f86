// All that was found in the features of a file, or in its texts: a list to scroll, the rules to choose from, and what is chosen.

import { say, whatOf, number } from "./language.js";
import { make, button } from "./dom.js";
import { Rows } from "./rows.js";
import { eachOf } from "./report.js";
import { excerptAt } from "./lines.js";
import { valueOf } from "./names.js";

/** The value of a feature is read where it is no longer than this. */
const FEATURE_REACH = 1 << 20;

const isWarning = (it) => it.rule.startsWith("W");

/** Feature 3: its name. */
export function titleOf({ index, number, name = null }) {
  const values = { number: index === undefined ? number : index + 1, name };
  const kind = index === undefined ? "record" : "feature";
  return name === null ? say(kind, values) : say(`${kind}Called`, values);
}

const spotOf = ({ line, column, offset }) => say(line === null ? "whereByte" : "where", { line, column, offset });

/** How many are broken, and how many are listed. */
export function summaryOf({ counts, items, verdict }) {
  const kind = verdict.record === null && verdict.records === null ? "features" : "records";
  const parts = [];
  if (counts.faults) parts.push(say(`${kind}Broken`, { count: counts.faults, all: counts.all }));
  if (counts.warned) parts.push(say(`${kind}Warned`, { count: counts.warned, all: counts.all }));
  const left = counts.faults + counts.warned - items.length;
  if (left > 0) parts.push(say("listCut", { count: items.length }));
  return parts.join(" ");
}

/** Whether the name, the id and the paths of an item are still to be read. */
export const isBrief = (item) => item.idAt !== undefined;

/** A row of a list: each warning has its own. `at` is the number of the finding in its item. */
class Row {
  constructor(items, index, at, rule) {
    this.items = items;
    this.index = index;
    this.at = at;
    this.rule = rule;
  }

  get item() {
    return this.items.at(this.index);
  }
}

function rowsOf(items) {
  const rows = [];
  for (let i = 0; i < items.length; i++) items.rulesOf(i).forEach((rule, at) => rows.push(new Row(items, i, at, rule)));
  return rows;
}
const findingOf = ({ item, at }) => eachOf([item])[at];

/** The choices of what is listed: all faults, each rule, all warnings, each kind; as [text, those]. */
function choicesOf(all) {
  const groups = groupedByRule(all);
  const choices = [];
  for (const [name, isOf] of [["allFaults", (it) => !isWarning(it)], ["allWarnings", isWarning]]) {
    const those = all.filter(isOf);
    if (those.length) choices.push([`${say(name)} (${number(those.length)})`, those]);
    for (const [code, some] of groups) {
      if (isOf(some[0])) choices.push([`${code}: ${whatOf(code)} (${number(some.length)})`, some]);
    }
  }
  return choices;
}

/** Those of each rule, by the letters and numbers of the rules. */
function groupedByRule(all) {
  const groups = new Map();
  for (const it of all) {
    if (!groups.has(it.rule)) groups.set(it.rule, []);
    groups.get(it.rule).push(it);
  }
  const orderOf = ([code]) => `${code[0]}${code.slice(1).padStart(2, "0")}`;
  return [...groups].sort((a, b) => (orderOf(a) < orderOf(b) ? -1 : 1));
}

/** The list of an entry. `detailsOf(entry, finding)` makes the details of one; `calls` are those of its card. */
export function listingOf(entry, detailsOf, calls) {
  const choices = choicesOf(rowsOf(entry.items));
  const detail = make("div", "detail chosen");
  detail.tabIndex = -1;
  detail.setAttribute("role", "region");
  const choose = async (row) => {
    const unread = ({ told, message }) => [make("p", "", told ?? say("unreadable", { reason: message }))];
    const details = await loaded(entry, row, calls).then((it) => detailsOf(entry, it), unread);
    if (rows.current !== row) return;
    rows.redraw();
    const it = findingOf(row);
    detail.setAttribute("aria-label", titleOf(it));
    detail.replaceChildren(make("h4", "", `${titleOf(it)} · ${it.rule}`), make("p", "", `${whatOf(it.rule)} ${spotOf(it)}.`), ...details);
  };
  const rows = new Rows(say("listLabel", { name: entry.name }), { cells: cellsOf, choose, enter: () => detail.focus(), see: reader(entry, calls, () => rows.redraw()) });
  detail.onkeydown = (event) => event.key === "Escape" && rows.box.focus();
  const select = make("select", "", ...choices.map(([text], i) => new Option(text, i)));
  select.onchange = () => {
    rows.show(choices[select.value][1]);
    rows.choose(0);
  };
  const label = make("label", "which", make("span", "", say("listWhich")), select);
  const tools = make("div", "row list-tools", choices.length > 2 ? label : null, saveButton(entry, calls));
  const head = make("div", "item titles", ...["number", "name", "what", "where"].map((it) => make("span", "", say(`list.${it}`))));
  head.setAttribute("aria-hidden", "true");
  const box = make("section", "listing", make("p", "summary", summaryOf(entry)), tools, head, rows.box, detail);
  rows.show(choices[0][1]);
  // The first is chosen once the list is on the page, and its height is known.
  requestAnimationFrame(() => rows.choose(0));
  return box;
}

/** Reads the rest of the rows that are seen, and has them drawn again. Only those that were seen last are asked for. */
function reader(entry, { complete }, redraw) {
  let [wanted, isAtWork, isGone] = [[], false, false];
  return async (seen) => {
    wanted = [...new Set(seen.map(({ item }) => item).filter(isBrief))];
    if (isAtWork || isGone) return;
    isAtWork = true;
    try {
      while (wanted.length) {
        await complete(entry, wanted);
        redraw();
      }
    } catch {
      // Of a file that is gone the places alone are shown.
      isGone = true;
    }
    isAtWork = false;
  };
}

/** Where there is anything to save, and anything to leave out. */
function saveButton(entry, { saveValid }) {
  const { faults, all } = entry.counts;
  if (faults === 0 || faults === all) return null;
  const isText = entry.verdict.record === null;
  const text = say(isText ? "saveValid" : "saveValidRecords");
  return button(text, (event) => saveValid(entry, event.currentTarget), "save-valid");
}

function cellsOf(row) {
  const { index, number, name, rule, line, column, offset } = findingOf(row);
  const cell = (kind, text) => make("span", kind, text);
  const spot = line === null ? say("byte", { offset }) : `${line}:${column}`;
  const code = make("span", isWarning(row) ? "code warns" : "code", rule);
  return [cell("nr", `${index === undefined ? number : index + 1}`), cell("called", name ?? ""), make("span", "what", code, ` ${whatOf(rule)}`), cell("spot", spot)];
}

/** What a row shows as a finding of a text: with its excerpt, and with the feature that it lies in. */
async function loaded(entry, row, { complete }) {
  const { file } = entry;
  const read = async (from, to) => new Uint8Array(await file.slice(from, Math.min(to, file.size)).arrayBuffer());
  await complete(entry, [row.item]);
  const finding = findingOf(row);
  const { place, end, offset, index = null, path } = finding;
  const whole = end !== null && end - place <= FEATURE_REACH ? valueOf(await read(place, end)) : null;
  // In a record that is a collection, the path leads to the feature.
  const inner = index === null ? path?.match(/^\$\.features\[(\d+)\]/) : null;
  const feature = inner ? { index: Number(inner[1]), value: whole?.features?.[inner[1]] ?? null } : { index, value: whole };
  return { ...finding, feature, excerpt: await excerptAt(offset, read) };
}

/** The list as a table that is whole, for paper. */
export function tableOfAll(entry) {
  const row = (kind, cells) => make("tr", "", ...cells.map((it) => make(kind, "", it)));
  const head = row("th", ["number", "name", "rule", "what", "where", "path"].map((it) => say(`list.${it}`)));
  const body = eachOf([...entry.items]).map((it) => row("td", [`${it.index === undefined ? it.number : it.index + 1}`, it.name, it.rule, whatOf(it.rule), spotOf(it), it.path]));
  return [make("p", "summary", summaryOf(entry)), make("table", "all", make("thead", "", head), make("tbody", "", ...body))];
}
