// The page: files in, verdicts out. The work is done in a worker. Nothing leaves this machine: the page's policy lets it reach no
// address at all.

import { say, speak, preferred, languages, size, time, whatOf, kindsOfWarning } from "./language.js";
import { framingOf } from "./endings.js";
import { droppedFiles, chosenFiles, ENDINGS } from "./files.js";
import { STRIDE } from "./lines.js";
import { Packed } from "./packed.js";
import { make } from "./dom.js";
import { cardOf, groupOf, sentenceOf, denied, STEP } from "./view.js";
import { summaryOf, isBrief } from "./listing.js";
import { saveLines, saveSarif, savePage, saveSequence } from "./save.js";

const $ = (id) => document.getElementById(id);

/** All files in their order: { name, file }, and when it is checked `verdict`, `hint`, `milliseconds`, or else `reason`; `items` are what is
 *  found in its features, as `Packed`, and `counts` how many there are. */
const entries = [];
let worker = null;
/** The worker that reads large files for `worker`. */
let reading = null;
let isReady = false;
let current = null;
let about = null;
/** How many items are completed at once. */
const BATCH = 1000;
/** How many cards are drawn. */
let shown = STEP;

// ---- the checker

/** The module: as the page has it packed, and once a worker has unpacked it, its bytes. */
let module = null;
/** The script of both workers. */
let script = null;

function madeWorker() {
  script ??= URL.createObjectURL(new Blob([$("worker").textContent], { type: "text/javascript" }));
  return new Worker(script);
}

function start() {
  if (typeof WebAssembly === "undefined") return warn(() => say("noWasm"));
  const { textContent, dataset } = $("module");
  module ??= { packed: textContent.trim(), size: Number(dataset.size), sum: Number(dataset.sum) };
  const it = madeWorker();
  worker = it;
  // What one that was stopped had still to report counts no more.
  worker.onmessage = ({ data }) => it === worker && heard[data.kind](data);
  worker.onerror = (event) => heard.failed({ step: isReady ? "check" : "start", isTrap: true, reason: event.message });
  worker.postMessage({ kind: "start", ...module });
}

const heard = {
  ready({ bytes, ...data }) {
    module = { bytes };
    about = data;
    isReady = true;
    for (const id of ["choose", "choose-folder", "show-paste"]) $(id).disabled = false;
    $("version").textContent = say("version", { version: data.version });
    // What a worker was making that is gone is asked for again.
    for (const { message } of asked.values()) worker.postMessage(message);
    if (current) askToCheck();
    else next();
  },
  progress(told) {
    showProgress(told);
  },
  items({ part }) {
    current.items.add(part);
  },
  verdict({ kind, ...found }) {
    settle(found.counts ? found : { ...found, items: new Packed() });
  },
  step({ key, read, size: all }) {
    asked.get(key).step(read / all);
  },
  answer({ key, answer }) {
    const { done } = asked.get(key);
    asked.delete(key);
    done(answer);
  },
  failed({ step, key, isTrap, reason }) {
    if (step === "start") return warn(() => (reason === "damaged" ? say("damaged") : say("noStart", { reason })));
    const told = isTrap ? say("trapped") : say("unreadable", { reason });
    const { failed } = asked.get(key) ?? {};
    asked.delete(key);
    // After a trap the module answers no more, so the next file gets a new worker.
    restart();
    if (failed) failed(Object.assign(new Error(reason), { told }));
    else settle({ items: new Packed(), reason: told });
  },
};

/** What the worker is asked for beside the files, by a number: { message, done, failed, step }. */
const asked = new Map();
let lastKey = 0;

/** Asks the worker, and again where it had to be started anew. `step` is called with the part that is done. */
function ask(message, step = () => {}) {
  const key = ++lastKey;
  return new Promise((done, failed) => {
    asked.set(key, { message: { ...message, key }, done, failed, step });
    if (isReady) worker.postMessage(asked.get(key).message);
  });
}

/** Adds to items of an entry's list what the reading left out: name, id and paths. */
async function complete({ file }, items) {
  const brief = items.filter(isBrief);
  if (!brief.length) return;
  const full = await ask({ kind: "complete", file, items: brief });
  brief.forEach((it, i) => Object.assign(it, { idAt: undefined }, full[i]));
}

/** Does what a button is for, which takes its time: `work(step)` may answer what is said at its end, or fails with it. */
async function atWork(button, work) {
  const text = button.textContent;
  const hasFocus = document.activeElement === button;
  button.disabled = true;
  try {
    const told = await work((part) => (button.textContent = say("saving", { percent: Math.floor(part * 100) })));
    if (told) announce(told);
  } catch ({ told, message }) {
    announce(told ?? message);
    notice(told ?? message);
  }
  button.disabled = false;
  button.textContent = text;
  // A button that is disabled loses the focus.
  if (hasFocus && document.activeElement === document.body) button.focus();
}

/** Saves the valid features of a file, which the worker reads once more. */
function saveValid(entry, button) {
  return atWork(button, async (step) => {
    const { name, file } = entry;
    const { blob, count } = await ask({ kind: "split", file, framing: framingOf(name) }, step);
    saveSequence(blob, name);
    return say("savedValid", { count, name });
  });
}

/** Saves a report by `save(entries)`, once each list is complete. */
function saveReport(button, save) {
  return atWork(button, async (step) => {
    const entries = entriesDone();
    const parts = entries.flatMap((entry) => batchesOf(entry.items ?? new Packed()).map((items) => ({ entry, items })));
    for (const [i, { entry, items }] of parts.entries()) {
      step(i / parts.length);
      await complete(entry, items);
    }
    save(entries);
  });
}

/** Items in the parts that are asked for at once. */
const batchesOf = (items) => Array.from({ length: Math.ceil(items.length / BATCH) }, (_, i) => items.slice(i * BATCH, (i + 1) * BATCH));

/** The port to the worker that reads, for the first large file. */
function portFor(file) {
  if (reading || file.size <= STRIDE) return [];
  const { port1, port2 } = new MessageChannel();
  const it = madeWorker();
  reading = it;
  it.onerror = (event) => it === reading && heard.failed({ step: "check", reason: event.message });
  it.postMessage({ kind: "serve", port: port1 }, [port1]);
  return [port2];
}

function restart() {
  worker?.terminate();
  reading?.terminate();
  reading = null;
  isReady = false;
  start();
}

function warn(text) {
  $("alert").hidden = false;
  $("alert").textContent = text();
  $("alert").dataset.said = "yes";
  document.body.classList.add("stopped");
}

// ---- the files

function add({ files, others }) {
  for (const it of files) entries.push({ ...it });
  const endings = ENDINGS.join(", ");
  if (!files.length) notice(say("nothingFound", { endings }));
  else notice(others ? say("passedOver", { count: others, endings }) : "");
  next();
}

function notice(text) {
  $("notice").textContent = text;
  $("notice").hidden = text === "";
}

const isOpen = (entry) => !entry.verdict && !entry.reason;
const entriesDone = () => entries.filter((it) => !isOpen(it));

function next() {
  if (current || !isReady) return;
  current = entries.find(isOpen) ?? null;
  $("run").hidden = !current;
  if (!current) return void (document.title = `geolint: ${say("title")}`);
  $("run-name").textContent = say("reading", { name: current.name });
  $("stop-all").hidden = entries.filter(isOpen).length < 2;
  $("bar").value = 0;
  askToCheck();
}

function askToCheck() {
  const framing = framingOf(current.name);
  Object.assign(current, { items: new Packed(about.texts, !framing), counts: null, isDoomed: false });
  showProgress({ read: 0 });
  const ports = portFor(current.file);
  worker.postMessage({ kind: "check", file: current.file, framing, port: ports[0] }, ports);
}

function showProgress({ read, isDoomed = false, faults = 0, milliseconds = 0 }) {
  const all = current.file.size;
  const waiting = entries.filter((it) => it !== current && isOpen(it)).length;
  const speed = milliseconds > 0 ? (read / milliseconds) * 1000 : 0;
  const left = speed > 0 ? (all - read) / speed : 0;
  $("bar").value = all ? read / all : 0;
  const parts = [say("readOf", { done: size(read), size: size(all) })];
  if (milliseconds > 500) parts.push(say("speed", { speed: size(speed) }));
  if (milliseconds > 500 && left >= 1) parts.push(say("left", { time: time(Math.ceil(left)) }));
  if (waiting > 0) parts.push(say("waiting", { count: waiting }));
  if (faults > 0) parts.push(say("foundSoFar", { count: faults }));
  $("run-note").textContent = parts.join(" · ");
  const percent = Math.floor((all ? read / all : 0) * 100);
  showKnown(isDoomed);
  if (milliseconds > 500) document.title = `${percent} % · geolint`;
  // Announced at each quarter, and not each time.
  const quarter = Math.floor(percent / 25);
  if (quarter > (current.quarter ?? 0)) announce(`${current.name}: ${quarter * 25} %`);
  current.quarter = quarter;
}

/** That the file is not valid, which may be known long before its end. */
function showKnown(isDoomed) {
  $("run-known").hidden = !isDoomed;
  $("run-known").textContent = isDoomed ? say("doomed") : "";
  if (isDoomed && !current.isDoomed) announce(`${current.name}: ${say("doomed")}`);
  current.isDoomed = isDoomed;
}

/** What is known of a file is whole. */
function settle(found) {
  if (!current) return;
  const entry = current;
  current = null;
  Object.assign(entry, found);
  const isListed = entry.counts && entry.items.length;
  announce([`${entry.name}: ${sentenceOf(entry)}`, ...(isListed ? [summaryOf(entry)] : [])].join(" "));
  draw();
  next();
}

function announce(text) {
  $("status").textContent = text;
}

function stop() {
  if (!current) return;
  restart();
  settle({ items: new Packed(), reason: say("stopped") });
}

function stopAll() {
  for (const it of entries) if (it !== current && isOpen(it)) it.reason = say("stopped");
  stop();
}

function clear() {
  entries.splice(0, entries.length, ...entries.filter((it) => it === current || isOpen(it)));
  shown = STEP;
  notice("");
  draw();
  $("choose").focus();
}

// ---- what is shown

function countsText() {
  const done = entriesDone();
  const parts = ["valid", "warned", "denied", "bad", "none"]
    .map((group) => [group, done.filter((it) => groupOf(it) === group).length])
    .filter(([, count]) => count > 0)
    .map(([group, count]) => say(`counts.${group}`, { count }));
  return `${say("files", { count: done.length })}: ${parts.join(", ")}`;
}

/** Draws the cards that are not drawn yet, or all of them anew. */
function draw(isAnew = false) {
  const list = $("list");
  const done = entriesDone();
  $("results").hidden = done.length === 0;
  if (isAnew || list.childElementCount > done.length) list.replaceChildren();
  if (done.length) $("counts").textContent = countsText();
  for (const it of done.slice(list.childElementCount, shown)) list.append(cardOf(it, { saveValid, complete }));
  $("more").hidden = done.length <= shown;
  $("more").textContent = done.length > shown ? say("more", { count: done.length - shown }) : "";
}

/** The choice of the kinds of warning that do not pass: all, and each. */
function drawKinds() {
  const kinds = kindsOfWarning();
  const choices = [[say("allWarnings"), kinds], ...kinds.map((it) => [`${it}: ${whatOf(it)}`, [it]])].map(([text, those]) => {
    const box = make("input");
    box.type = "checkbox";
    box.onchange = () => {
      for (const it of those) box.checked ? denied.add(it) : denied.delete(it);
      show();
      draw(true);
      if (entriesDone().length) announce(countsText());
    };
    return { box, those, label: make("label", "", box, ` ${text}`) };
  });
  const show = () => choices.forEach(({ box, those }) => (box.checked = those.every((it) => denied.has(it))));
  show();
  $("kinds").replaceChildren(...choices.map((it) => it.label));
}

/** What the address denies, as `?deny=W5,W9` and `?strict` do. */
function denyByAddress() {
  const words = new URLSearchParams(location.search);
  const named = words.getAll("deny").join().toUpperCase().split(",");
  for (const it of kindsOfWarning()) if (words.has("strict") || named.includes(it)) denied.add(it);
  $("demands").open = denied.size > 0;
}

function speakIn(code) {
  speak(code);
  drawKinds();
  $("language").value = document.documentElement.lang;
  if (about) $("version").textContent = say("version", { version: about.version });
  draw(true);
}

// ---- what the reader does

function listen() {
  const drop = $("drop");
  $("choose").onclick = () => $("files").click();
  $("choose-folder").onclick = () => $("folder").click();
  for (const id of ["files", "folder"]) {
    $(id).onchange = () => {
      add(chosenFiles($(id).files, id === "folder"));
      $(id).value = "";
    };
  }
  addEventListener("dragover", (event) => {
    event.preventDefault();
    drop.classList.add("over");
  });
  addEventListener("dragleave", (event) => event.relatedTarget || drop.classList.remove("over"));
  addEventListener("drop", async (event) => {
    event.preventDefault();
    drop.classList.remove("over");
    if (!event.dataTransfer.types.includes("Files")) return;
    try {
      add(await droppedFiles(event.dataTransfer));
    } catch (error) {
      notice(say("noFolder", { reason: error.message }));
    }
  });
  $("show-paste").onclick = () => {
    $("paste").hidden = !$("paste").hidden;
    $("show-paste").setAttribute("aria-expanded", !$("paste").hidden);
    if (!$("paste").hidden) $("text").focus();
  };
  $("paste").onsubmit = (event) => {
    event.preventDefault();
    add({ files: [{ name: say("pasteName"), file: new Blob([$("text").value]) }], others: 0 });
  };
  $("stop").onclick = stop;
  $("stop-all").onclick = stopAll;
  $("clear").onclick = clear;
  $("more").onclick = () => {
    shown += STEP;
    draw();
  };
  const saving = { "save-lines": saveLines, "save-sarif": (it) => saveSarif(it, about), "save-page": (it) => savePage(it, countsText()) };
  for (const [id, save] of Object.entries(saving)) $(id).onclick = () => saveReport($(id), save);
  $("language").onchange = () => speakIn($("language").value);
  // A link to a rule leads into the list, which may be closed.
  addEventListener("hashchange", openTarget);
}

function openTarget() {
  const target = document.getElementById(location.hash.slice(1));
  target?.closest("details")?.setAttribute("open", "");
  target?.scrollIntoView();
}

for (const [code, name] of languages()) {
  const option = make("option", "", name);
  option.value = code;
  option.lang = code;
  $("language").append(option);
}
denyByAddress();
speakIn(preferred());
listen();
start();
