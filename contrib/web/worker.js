// Checks files in a worker, so that the page answers meanwhile. A file is read in pieces and never held whole.

import { Geolint } from "./check.js";
import { guessFor } from "./guesses.js";
import { Reader, ReadAhead } from "./ahead.js";
import { unpacked, checksumOf } from "./unpack.js";
import { Packer } from "./packed.js";

/** How far the reading is, is reported to the page no more often than this, in milliseconds. */
const PAUSE = 80;
/** How many faults of a file are listed at most, and how many features with warnings; the others are counted. */
const MOST = 65_536;

let geolint;
const files = new ReadAhead();

/** Reports how far a reading is, with what else is known of it. */
function meter(kind, more = {}) {
  const begun = performance.now();
  let told = begun;
  return (progress) => {
    const now = performance.now();
    if (now - told < PAUSE) return;
    told = now;
    postMessage({ kind, ...more, ...progress, milliseconds: now - begun });
  };
}

/** Tells the page what is found, as it comes. */
async function list(findings) {
  const packer = new Packer();
  const post = (part) => postMessage({ kind: "items", part }, [part.buffer]);
  for await (const it of findings) {
    packer.add(it);
    if (packer.isFull) post(packer.part());
  }
  post(packer.part());
  return findings;
}

const answers = {
  /** The module comes packed, or as the bytes that another worker has unpacked. */
  async start({ bytes, packed, size, sum }) {
    bytes ??= unpacked(Uint8Array.from(atob(packed), (it) => it.charCodeAt(0)), size);
    if (packed && checksumOf(bytes) !== sum) throw new Error("damaged");
    geolint = new Geolint(await WebAssembly.compile(bytes));
    return { kind: "ready", bytes, version: await geolint.version(), texts: await geolint.texts() };
  },

  /** A file is read once, for its verdict and for all that is listed. With the first large one comes the port to the worker that reads. */
  async check({ file, framing, port }) {
    const begun = performance.now();
    if (port) files.through(port);
    const options = { framing, most: MOST, isBrief: true, onProgress: meter("progress") };
    const input = files.of(file);
    const { verdict, counts } = await list(framing ? geolint.records(input, options) : geolint.features(input, options));
    const milliseconds = performance.now() - begun;
    const isListed = framing || verdict.verdict !== "not JSON";
    return { kind: "verdict", verdict, counts: isListed ? counts : null, hint: guessFor(verdict), milliseconds };
  },

  /** What is shown or saved of the items of a list, in full. */
  async complete({ key, file, items }) {
    return { kind: "answer", key, answer: await geolint.completed(file, items) };
  },

  async split({ key, file, framing }) {
    const { blob, count } = await geolint.split(file, { framing, onProgress: meter("step", { key }) });
    return { kind: "answer", key, answer: { blob, count } };
  },
};

onmessage = async ({ data }) => {
  // This worker reads for another one.
  if (data.kind === "serve") return void new Reader(data.port);
  try {
    postMessage(await answers[data.kind](data));
  } catch (error) {
    const isTrap = error instanceof WebAssembly.RuntimeError;
    postMessage({ kind: "failed", step: data.kind, key: data.key, isTrap, reason: String(error?.message ?? error) });
  }
};
