#!/usr/bin/env node
// A language server for GeoJSON, over standard input and output (LSP 3.17): diagnostics, hover and quick fixes. The verdicts are the
// module's, and what stands here is tested.
//
//     geolint-language-server --stdio

import { readFileSync } from "node:fs";
import { load } from "./geolint.js";
import { choose } from "./language.js";
import { Session } from "./session.js";

const [PARSE_ERROR, NO_METHOD, NOT_BEGUN, ENDED, FAILED] = [-32700, -32601, -32002, -32600, -32803];

class Refused extends Error {
  constructor(code, message) {
    super(message);
    this.code = code;
  }
}

function send(message) {
  const body = Buffer.from(JSON.stringify({ jsonrpc: "2.0", ...message }));
  process.stdout.write(Buffer.concat([Buffer.from(`Content-Length: ${body.length}\r\n\r\n`), body]));
}

const geolint = await load();
const version = await geolint.version();
const manual = readFileSync(new URL("./rules.md", import.meta.url), "utf8");
const session = new Session(geolint, manual, (params) => send({ method: "textDocument/publishDiagnostics", params }));
let [isBegun, isEnded] = [false, false];
let markup = "markdown";

const METHODS = {
  initialize({ locale, capabilities }) {
    choose(locale?.slice(0, 2));
    if (capabilities?.textDocument?.hover?.contentFormat?.includes("markdown") === false) markup = "plaintext";
    isBegun = true;
    const textDocumentSync = { openClose: true, change: 2 };
    const provided = { hoverProvider: true, codeActionProvider: { codeActionKinds: ["quickfix"] } };
    return { capabilities: { positionEncoding: "utf-16", textDocumentSync, ...provided }, serverInfo: { name: "geolint", version } };
  },
  initialized() {},
  shutdown() {
    isEnded = true;
    return null;
  },
  exit: () => process.exit(isEnded ? 0 : 1),
  "textDocument/didOpen": ({ textDocument }) => session.open(textDocument),
  "textDocument/didChange": ({ textDocument, contentChanges }) => session.change(textDocument, contentChanges),
  "textDocument/didClose": ({ textDocument }) => session.close(textDocument.uri),
  async "textDocument/hover"({ textDocument, position }) {
    const found = await session.hover(textDocument.uri, position);
    return found && { contents: { kind: markup, value: found.value }, range: found.range };
  },
  async "textDocument/codeAction"({ textDocument: { uri }, range, context }) {
    if (context?.only?.includes("quickfix") === false) return [];
    const fixes = await session.fixes(uri, range);
    return fixes.map(({ title, diagnostic, edit }) => ({ title, kind: "quickfix", diagnostics: [diagnostic], edit: { changes: { [uri]: [edit] } } }));
  },
};

async function answerTo({ method, params }) {
  if (!isBegun && method !== "initialize") throw new Refused(NOT_BEGUN, "initialize comes first");
  if (isEnded) throw new Refused(ENDED, "shutdown was the last request");
  if (!Object.hasOwn(METHODS, method)) throw new Refused(NO_METHOD, `there is no method ${method}`);
  return METHODS[method](params ?? {});
}

/** Requests have an id and are answered; what else fails is said on standard error. */
async function take(message) {
  const { id, method } = message ?? {};
  if (method === "exit") METHODS.exit();
  try {
    const result = await answerTo(message ?? {});
    if (id !== undefined) send({ id, result: result ?? null });
  } catch (error) {
    const isRefused = error instanceof Refused;
    if (id !== undefined) send({ id, error: { code: isRefused ? error.code : FAILED, message: error.message } });
    else if (!isRefused) process.stderr.write(`geolint-language-server: ${method}: ${error.stack}\n`);
  }
}

function takeBody(body) {
  let message;
  try {
    message = JSON.parse(body);
  } catch {
    return send({ id: null, error: { code: PARSE_ERROR, message: "the message is no JSON" } });
  }
  void take(message);
}

/** The bytes that have come and are no whole message yet; `due` is how many are needed before another look. */
let [pieces, held, due] = [[], 0, 0];
process.stdin.on("data", (piece) => {
  pieces.push(piece);
  held += piece.length;
  if (held >= due) takeMessages(Buffer.concat(pieces));
});
process.stdin.on("end", () => process.exit(1));

function takeMessages(bytes) {
  let at = 0;
  for (due = 0; due === 0; ) {
    const end = bytes.indexOf("\r\n\r\n", at);
    const length = end < 0 ? 0 : Number(/^content-length: *(\d+) *$/im.exec(bytes.toString("latin1", at, end))?.[1]);
    if (Number.isNaN(length)) return void process.stderr.write("geolint-language-server: a message has no Content-Length\n", () => process.exit(1));
    const next = end + 4 + length;
    if (end < 0 || next > bytes.length) {
      due = end < 0 ? bytes.length - at + 1 : next - at;
    } else {
      takeBody(bytes.toString("utf8", end + 4, next));
      at = next;
    }
  }
  pieces = [bytes.subarray(at)];
  held = bytes.length - at;
}
