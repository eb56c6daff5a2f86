// The report as a file: JSON lines and SARIF in the forms of geolint-files, and a page to print.

import { jsonOf, jsonOfFindings, jsonOfUnread, sarifOf } from "./report.js";
import { language, say } from "./language.js";
import { make } from "./dom.js";
import { cardOf, demanded } from "./view.js";

/** What is listed of a file, once the list is whole, and how many more there are. */
const listedOf = ({ items, counts }) => (counts ? { items: [...items], more: counts.faults + counts.warned - items.length } : { items: [], more: 0 });
const judged = (entries) => entries.filter((it) => it.verdict).map((it) => ({ ...it, ...listedOf(it) }));
const unread = (entries) => entries.filter((it) => it.reason).map(({ name, reason }) => ({ name, reason }));

export function saveLines(entries) {
  const lines = entries.flatMap((entry) => {
    const { name, verdict, reason } = entry;
    const { items, more } = listedOf(entry);
    return verdict ? [jsonOf(name, verdict, demanded().passes), ...jsonOfFindings(name, items, more)] : [jsonOfUnread(name, reason)];
  });
  download(lines.join("\n") + "\n", "application/jsonl", "geolint-report.jsonl");
}

export function saveSarif(entries, { texts, version }) {
  download(sarifOf(judged(entries), texts, version, unread(entries)), "application/sarif+json", "geolint-report.sarif");
}

export function savePage(entries, counts) {
  download(printablePage(entries, counts), "text/html", "geolint-report.html");
}

/** The cards of all files with their details open, as a page of its own. */
function printablePage(entries, counts) {
  const cards = entries.map((entry) => {
    const card = cardOf(entry);
    for (const it of card.querySelectorAll('.toggle[aria-expanded="false"]')) it.click();
    // What can only be pressed on a screen is text on paper, and a chapter is too long for it.
    for (const it of card.querySelectorAll(".toggle")) it.replaceWith(it.textContent);
    for (const it of card.querySelectorAll("details, button")) it.remove();
    return card;
  });
  const title = `geolint: ${say("results")}, ${new Date().toLocaleString(language())}`;
  const main = make("main", "", make("h1", "", title), make("p", "counts", counts), ...cards);
  // The policy of this page, which knows its style, holds for that one too.
  const own = [...document.querySelectorAll("meta:not([name]), style")].map((it) => it.cloneNode(true));
  const head = make("head", "", ...own, make("title", "", title));
  return `<!doctype html>\n<html lang="${language()}">${head.innerHTML}<body>${main.outerHTML}</body></html>\n`;
}

/** The valid features of a file, under its name with the ending of text sequences. */
export function saveSequence(blob, name) {
  download(blob, blob.type, `${name.replace(/^.*\//, "").replace(/\.[^.]*$/, "")}.valid.geojsons`);
}

function download(text, type, name) {
  const link = make("a");
  link.href = URL.createObjectURL(new Blob([text], { type }));
  link.download = name;
  document.body.append(link);
  link.click();
  link.remove();
  setTimeout(() => URL.revokeObjectURL(link.href), 60_000);
}
