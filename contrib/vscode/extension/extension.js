// The extension for VS Code, on the desktop and in the browser: what the language server does, in the editor's own process, and the path
// under the cursor. `make vscode` joins this file with the modules that it needs.

import { Geolint } from "./check.js";
import { choose, say } from "./language.js";
import { Session } from "./session.js";

const vscode = require("vscode");

const SELECTOR = [{ language: "geojson" }, { pattern: "**/*.{geojson,geojsons,geojsonseq,geojsonl,ndgeojson}" }];
/** The path is sought so many milliseconds after the cursor's last move. */
const REST = 100;

const isOurs = (document) => vscode.languages.match(SELECTOR, document) > 0;
const keyOf = (document) => document.uri.toString();
const shownRange = ({ start, end }) => new vscode.Range(start.line, start.character, end.line, end.character);

function shownDiagnostic({ range, message, severity, code, source }) {
  // The protocol counts severities from 1, and VS Code from 0.
  const shown = new vscode.Diagnostic(shownRange(range), message, severity - 1);
  return Object.assign(shown, { code, source });
}

function shownFix(document, { title, diagnostic, edit }) {
  const shown = new vscode.CodeAction(title, vscode.CodeActionKind.QuickFix);
  shown.diagnostics = [shownDiagnostic(diagnostic)];
  shown.edit = new vscode.WorkspaceEdit();
  shown.edit.replace(document.uri, shownRange(edit.range), edit.newText);
  return shown;
}

async function begunSession(extension, list) {
  const read = (name) => vscode.workspace.fs.readFile(vscode.Uri.joinPath(extension, name));
  const [module, manual] = await Promise.all(["geolint.wasm", "rules.md"].map(read));
  const geolint = new Geolint(await WebAssembly.compile(module));
  return new Session(geolint, new TextDecoder().decode(manual), ({ uri, diagnostics }) => list.set(vscode.Uri.parse(uri), diagnostics.map(shownDiagnostic)));
}

/** Shows the path under the cursor of the editor that is used. */
function pathItem(session) {
  const item = vscode.window.createStatusBarItem(vscode.StatusBarAlignment.Right);
  item.tooltip = say("path");
  let timer;
  async function show() {
    const editor = vscode.window.activeTextEditor;
    if (!editor || !isOurs(editor.document)) return item.hide();
    item.text = (await session.path(keyOf(editor.document), editor.selection.active)) ?? "";
    item.show();
  }
  const showSoon = () => {
    clearTimeout(timer);
    timer = setTimeout(show, REST);
  };
  showSoon();
  return [item, vscode.window.onDidChangeTextEditorSelection(showSoon), vscode.window.onDidChangeActiveTextEditor(showSoon)];
}

export async function activate({ extensionUri, subscriptions }) {
  choose(vscode.env.language.slice(0, 2));
  const list = vscode.languages.createDiagnosticCollection("geolint");
  const session = await begunSession(extensionUri, list);
  const open = (document) => isOurs(document) && session.open({ uri: keyOf(document), version: document.version, text: document.getText() });
  const change = ({ document, contentChanges }) => session.change({ uri: keyOf(document), version: document.version }, contentChanges);
  const provideHover = async (document, position) => {
    const found = await session.hover(keyOf(document), position);
    return found && new vscode.Hover(new vscode.MarkdownString(found.value), shownRange(found.range));
  };
  const provideCodeActions = async (document, range) => (await session.fixes(keyOf(document), range)).map((it) => shownFix(document, it));
  subscriptions.push(
    list,
    vscode.workspace.onDidOpenTextDocument(open),
    vscode.workspace.onDidChangeTextDocument(change),
    vscode.workspace.onDidCloseTextDocument((document) => session.close(keyOf(document))),
    vscode.languages.registerHoverProvider(SELECTOR, { provideHover }),
    vscode.languages.registerCodeActionsProvider(SELECTOR, { provideCodeActions }, { providedCodeActionKinds: [vscode.CodeActionKind.QuickFix] }),
    ...pathItem(session),
  );
  vscode.workspace.textDocuments.forEach(open);
}
