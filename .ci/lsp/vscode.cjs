// Runs the extension for VS Code as the editor does in a browser: node vscode.cjs FOLDER LANGUAGE
//
// FOLDER is the extension as it is installed. The script sees what a worker of a browser has, and stands for the editor where it is asked.

const assert = require("node:assert");
const fs = require("node:fs");
const vm = require("node:vm");

const [folder, language = "en"] = process.argv.slice(2);
const held = { diagnostics: new Map(), heard: {}, providers: {} };
const listen = (name) => (listener) => ((held.heard[name] = listener), { dispose() {} });

class Range {
  constructor(...numbers) {
    [this.start, this.end] = [0, 2].map((at) => ({ line: numbers[at], character: numbers[at + 1] }));
  }
}
class Uri {
  constructor(text) {
    this.text = text;
  }
  static parse = (text) => new Uri(text);
  static joinPath = (uri, name) => new Uri(`${uri.text}/${name}`);
  get path() {
    return this.text.replace(/^[a-z]+:\/*/, "/");
  }
  toString() {
    return this.text;
  }
}
class Diagnostic {
  constructor(range, message, severity) {
    Object.assign(this, { range, message, severity });
  }
}
class CodeAction {
  constructor(title, kind) {
    Object.assign(this, { title, kind });
  }
}
class WorkspaceEdit {
  edits = [];
  replace(...edit) {
    this.edits.push(edit);
  }
}
const item = { hide: () => (item.isShown = false), show: () => (item.isShown = true) };
const documentOf = (name, text, languageId = "json") => ({ uri: new Uri(`memory:///${name}`), languageId, version: 1, text, getText: () => text });
const first = documentOf("first.geojson", '{"type":"point",\r\n"name":"🚲","coordinates":[1,2]}');
// As VS Code compares the patterns here: by the ending.
const matches = (selector, { languageId, uri }) => selector.some((it) => it.language === languageId || it.pattern?.match(/\{(.*)\}/)[1].split(",").includes(uri.path.split(".").pop()));
const vscode = {
  Range, Uri, Diagnostic, CodeAction, WorkspaceEdit,
  CodeActionKind: { QuickFix: "quickfix" },
  StatusBarAlignment: { Left: 1, Right: 2 },
  Hover: class { constructor(...told) { this.told = told; } },
  MarkdownString: class { constructor(value) { this.value = value; } },
  env: { language },
  languages: {
    match: (selector, document) => (matches(selector, document) ? 10 : 0),
    createDiagnosticCollection: () => ({ set: (uri, list) => held.diagnostics.set(String(uri), list), dispose() {} }),
    registerHoverProvider: (_, provider) => Object.assign(held.providers, provider),
    registerCodeActionsProvider: (_, provider) => Object.assign(held.providers, provider),
  },
  window: {
    createStatusBarItem: () => item,
    onDidChangeTextEditorSelection: listen("selected"),
    onDidChangeActiveTextEditor: listen("chosen"),
    activeTextEditor: { document: first, selection: { active: { line: 1, character: 27 } } },
  },
  workspace: {
    fs: { readFile: async (uri) => new Uint8Array(fs.readFileSync(uri.text)) },
    onDidOpenTextDocument: listen("opened"),
    onDidChangeTextDocument: listen("changed"),
    onDidCloseTextDocument: listen("closed"),
    textDocuments: [first, documentOf("other.json", "{}")],
  },
};

const pause = (milliseconds) => new Promise((done) => setTimeout(done, milliseconds));
const foundIn = ({ uri }) => held.diagnostics.get(String(uri));
const spotsOf = (list) => list?.map(({ code, severity, range: { start, end } }) => [code, severity, start.line, start.character, end.line, end.character]);

async function main() {
  const inBrowser = { TextEncoder, TextDecoder, WebAssembly, setTimeout, clearTimeout, AbortController, URL, Blob, Intl, exports: {} };
  inBrowser.require = (name) => (assert.equal(name, "vscode"), vscode);
  vm.runInNewContext(fs.readFileSync(`${folder}/extension.js`, "utf8"), inBrowser);
  const context = { extensionUri: new Uri(folder), subscriptions: [] };
  await inBrowser.exports.activate(context);
  await pause(400);
  const isGerman = language.startsWith("de");
  assert.deepEqual([...held.diagnostics.keys()], ["memory:///first.geojson"]);
  assert.deepEqual(spotsOf(foundIn(first)), [["G3", 0, 0, 8, 0, 15]]);
  assert.match(foundIn(first)[0].message, isGerman ? /Dieser Typ|Diese/ : /^This type is not allowed here\./);
  assert.deepEqual([item.isShown, item.text, item.tooltip], [true, "$.coordinates[0]", isGerman ? "Pfad" : "Path"]);

  for (const [character, path] of [[0, "$"], [8, "$.*"], [11, "$"], [13, "$"], [26, "$.coordinates"], [28, "$.coordinates[0]"], [30, "$.coordinates[1]"], [31, "$"]]) {
    vscode.window.activeTextEditor.selection.active = { line: 1, character };
    held.heard.selected();
    await pause(200);
    assert.equal(item.text, path);
  }

  const hover = await held.providers.provideHover(first, { line: 0, character: 9 });
  assert.match(hover.told[0].value, /### G3: type not allowed here\n\nThe value of `type`[^]*`\$\.type`/);
  assert.equal(await held.providers.provideHover(first, { line: 1, character: 0 }), null);
  const [fix, ...others] = await held.providers.provideCodeActions(first, new Range(0, 8, 0, 8));
  assert.deepEqual([fix.title, others], [isGerman ? "„Point“ schreiben" : "Write “Point”", []]);
  const [[uri, range, text]] = fix.edit.edits;
  assert.deepEqual([String(uri), range, text, spotsOf(fix.diagnostics)], ["memory:///first.geojson", new Range(0, 9, 0, 14), "Point", [["G3", 0, 0, 8, 0, 15]]]);
  held.heard.changed({ document: { ...first, version: 2 }, contentChanges: [{ range, text }] });
  await pause(100);
  assert.deepEqual(spotsOf(foundIn(first)), []);

  const lines = documentOf("lines.txt", '{"type":"Point","coordinates":[1,2]}\n{"type":"Point","coordinates":[1,2], "crs":0}\n3', "geojson");
  lines.uri = new Uri("memory:///lines.geojsonl");
  held.heard.opened(lines);
  held.heard.opened(documentOf("other.txt", "{}", "plaintext"));
  await pause(100);
  assert.deepEqual(spotsOf(foundIn(lines)), [["W9", 1, 1, 37, 1, 42], ["G1", 0, 2, 0, 2, 1]]);
  vscode.window.activeTextEditor = { document: lines, selection: { active: { line: 1, character: 34 } } };
  held.heard.selected();
  await pause(250);
  assert.equal(item.text, "$.coordinates[1]");
  vscode.window.activeTextEditor = undefined;
  held.heard.chosen();
  await pause(250);
  assert.equal(item.isShown, false);
  held.heard.closed(lines);
  assert.deepEqual(foundIn(lines), []);
  assert.equal(held.diagnostics.has("memory:///other.txt"), false);
  assert.ok(context.subscriptions.length >= 8);
}
main().catch((error) => {
  console.log(error);
  process.exit(1);
});
