// A client of the protocol, and what it needs to know of positions by itself.

import { spawn } from "node:child_process";

const PATIENCE = 20_000;

/** The position of an index in a text, and the other way round, as the protocol has them: lines end with LF, CR LF or CR. */
export function positionOf(text, index) {
  const lines = text.slice(0, index - (text.slice(index - 1, index + 1) === "\r\n")).split(/\r\n|\r|\n/);
  return { line: lines.length - 1, character: lines.at(-1).length };
}

export function indexOf(text, { line, character }) {
  const ends = [...text.matchAll(/\r\n|\r|\n/g)].map((it) => ({ at: it.index, next: it.index + it[0].length }));
  if (line > ends.length) return text.length;
  const start = line === 0 ? 0 : ends[line - 1].next;
  return Math.min(start + character, ends[line]?.at ?? text.length);
}

export const positionOfByte = (text, offset) => positionOf(text, Buffer.from(text).subarray(0, offset).toString().length);

/** A text after an edit. */
export function edited(text, { range, text: written }) {
  if (!range) return written;
  const [from, to] = [range.start, range.end].map((it) => indexOf(text, it)).sort((a, b) => a - b);
  return text.slice(0, from) + written + text.slice(to);
}

export class Client {
  #process;
  #held = Buffer.alloc(0);
  #answers = new Map();
  #waiting = [];
  #last = 0;
  /** All that was published, in turn; what stood on standard error. */
  published = [];
  errors = "";

  constructor(server) {
    this.#process = spawn(process.execPath, ["--no-warnings", server, "--stdio"], { stdio: ["pipe", "pipe", "pipe"] });
    this.#process.stdout.on("data", (piece) => this.#take(piece));
    this.#process.stderr.on("data", (piece) => (this.errors += piece));
    this.#process.stdin.on("error", () => {});
    this.ended = new Promise((done) => this.#process.on("exit", done));
  }

  static async begun(server, params = {}) {
    const client = new Client(server);
    client.initialized = await client.request("initialize", { capabilities: {}, ...params });
    client.notify("initialized", {});
    return client;
  }

  #take(piece) {
    this.#held = Buffer.concat([this.#held, piece]);
    for (;;) {
      const end = this.#held.indexOf("\r\n\r\n");
      const length = Number(/^Content-Length: (\d+)$/.exec(this.#held.toString("latin1", 0, Math.max(end, 0)))?.[1]);
      if (end < 0 || this.#held.length < end + 4 + length) return;
      const message = JSON.parse(this.#held.subarray(end + 4, end + 4 + length));
      this.#held = this.#held.subarray(end + 4 + length);
      if (message.method) this.#publish(message.params);
      else this.#answers.get(message.id)?.(message);
    }
  }

  #publish(params) {
    this.published.push({ ...params, at: performance.now() });
    this.#waiting = this.#waiting.filter((look) => !look());
  }

  write(bytes) {
    this.#process.stdin.write(bytes);
  }

  send(message) {
    const body = Buffer.from(JSON.stringify({ jsonrpc: "2.0", ...message }));
    this.write(Buffer.concat([Buffer.from(`Content-Length: ${body.length}\r\n\r\n`), body]));
  }

  notify(method, params) {
    this.send({ method, params });
  }

  /** The answer to a request; `answer` has it with what is wrong. */
  async answer(method, params, id = ++this.#last) {
    const answered = new Promise((done) => this.#answers.set(id, done));
    this.send({ id, method, params });
    return this.#inTime(answered, method);
  }

  answerWithId(id) {
    return this.#inTime(new Promise((done) => this.#answers.set(id, done)), `the answer ${id}`);
  }

  async request(method, params) {
    const { error, result } = await this.answer(method, params);
    if (error) throw new Error(`${method}: ${error.message}`);
    return result;
  }

  open(uri, text, version = 1) {
    this.notify("textDocument/didOpen", { textDocument: { uri, languageId: "geojson", version, text } });
  }

  change(uri, version, ...contentChanges) {
    this.notify("textDocument/didChange", { textDocument: { uri, version }, contentChanges });
  }

  close(uri) {
    this.notify("textDocument/didClose", { textDocument: { uri } });
  }

  /** What is published first of a version of a text. */
  found(uri, version = 1) {
    const look = () => this.published.find((it) => it.uri === uri && it.version === version);
    const found = new Promise((done) => {
      const isThere = () => look() && (done(look()), true);
      if (!isThere()) this.#waiting.push(isThere);
    });
    return this.#inTime(found, `${uri}, version ${version}`);
  }

  async opened(uri, text) {
    this.open(uri, text);
    return (await this.found(uri)).diagnostics;
  }

  async #inTime(promise, what) {
    let timer;
    const late = new Promise((_, failed) => {
      timer = setTimeout(() => failed(new Error(`nothing came in ${PATIENCE} ms: ${what}; ${this.errors}`)), PATIENCE);
    });
    const ended = this.ended.then((status) => {
      throw new Error(`the server ended with status ${status}: ${what}; ${this.errors}`);
    });
    ended.catch(() => {});
    return Promise.race([promise, late, ended]).finally(() => clearTimeout(timer));
  }

  /** The end, as the protocol has it: its status. */
  async end() {
    await this.request("shutdown");
    this.notify("exit");
    return this.ended;
  }

  kill() {
    this.#process.kill();
  }
}
