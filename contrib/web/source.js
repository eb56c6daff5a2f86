// What an input is read by: bytes, a Blob, what can be read from any place, or what comes once.

import { HEAD } from "./hints.js";
import { STRIDE } from "./lines.js";

/** How many bytes of a stream are kept, for what is near the end of what was read. */
const KEPT = 16 << 20;
/** How many bytes of a Blob one stream reads. */
const STREAM = 1 << 30;

/** What an input is read by: `pieces()` in order, of at most STRIDE bytes each, and `read(from, to)`, which is null for bytes that are gone. */
export function sourceOf(input) {
  if (typeof input === "string") {
    throw new TypeError("it takes no string: new TextEncoder().encode(text) makes bytes of a text, and fs.openAsBlob(path) a Blob of a file");
  }
  if (input instanceof ArrayBuffer) return new SlicedSource(byBytes(new Uint8Array(input)));
  if (ArrayBuffer.isView(input)) return new SlicedSource(byBytes(new Uint8Array(input.buffer, input.byteOffset, input.byteLength)));
  if (typeof Blob !== "undefined" && input instanceof Blob) return new SlicedSource(byBlob(input));
  if (typeof input?.read === "function" && typeof input?.size === "number") return new SlicedSource(input);
  if (typeof input?.getReader === "function") return new FlowingSource(piecesOfStream(input));
  if (input?.[Symbol.asyncIterator] || input?.[Symbol.iterator]) return new FlowingSource(input);
  throw new TypeError("it takes bytes, a Blob, a ReadableStream, an iterable of bytes, or an object with size and read(from, to)");
}

const byBytes = (bytes) => ({ size: bytes.length, read: async (from, to) => bytes.subarray(from, to) });
const byBlob = (blob) => ({
  size: blob.size,
  read: async (from, to) => new Uint8Array(await blob.slice(from, to).arrayBuffer()),
  pieces: () => piecesOfBlob(blob, inTurns(roomsFor(blob.size, 2))),
});

/** An input that can be read from any place: it has its `size`, `read(from, to)`, and may have `pieces()`, of which each is good until the
 *  next but one is asked for. */
class SlicedSource {
  #input;
  /** The last two pieces, as { start, bytes }. */
  #last = [];

  constructor(input) {
    this.#input = input;
    this.size = input.size;
  }

  async *pieces() {
    this.#last = [];
    let start = 0;
    for await (const bytes of this.#input.pieces?.() ?? this.#sliced()) {
      this.#last = [...this.#last.slice(-1), { start, bytes }];
      yield bytes;
      start += bytes.length;
    }
  }

  /** The next piece is read while this one is checked. */
  async *#sliced() {
    let next = this.#input.read(0, Math.min(STRIDE, this.size));
    for (let at = 0; ; ) {
      const bytes = await next;
      if (bytes.length === 0) return;
      at += bytes.length;
      next = at < this.size ? this.#input.read(at, Math.min(at + STRIDE, this.size)) : Promise.resolve(new Uint8Array(0));
      // A piece that nobody asks for any more may fail.
      next.catch(() => {});
      yield bytes;
    }
  }

  async read(from, to) {
    const end = Math.min(to, this.size);
    return from >= end ? new Uint8Array(0) : (this.#near(from, end) ?? this.#input.read(from, end));
  }

  /** Bytes that lie in the last two pieces; null for others. */
  #near(from, to) {
    const inside = this.#last.find(({ start, bytes }) => from >= start && to <= start + bytes.length);
    if (inside) return inside.bytes.subarray(from - inside.start, to - inside.start);
    const [first, second] = this.#last;
    // The buffer of a piece may have gone.
    if (!second || first.start + first.bytes.length !== second.start) return null;
    if (from < first.start || to > second.start + second.bytes.length) return null;
    const joined = new Uint8Array(to - from);
    joined.set(first.bytes.subarray(from - first.start));
    joined.set(second.bytes.subarray(0, to - second.start), second.start - from);
    return joined;
  }
}

/** An input that comes once. Its first and its last bytes are kept, and all of it where it is short. */
class FlowingSource {
  #input;
  #head = new Uint8Array(0);
  #kept = [];
  #start = 0;
  #end = 0;

  constructor(input) {
    this.#input = input;
    this.size = null;
  }

  async *pieces() {
    for await (const piece of this.#input) {
      if (!ArrayBuffer.isView(piece) && !(piece instanceof ArrayBuffer)) throw new TypeError("each piece must be bytes, as a Uint8Array");
      const bytes = piece instanceof ArrayBuffer ? new Uint8Array(piece) : new Uint8Array(piece.buffer, piece.byteOffset, piece.byteLength);
      // What gives the pieces may fill them anew.
      this.#keep(bytes.slice());
      for (let at = 0; at < bytes.length; at += STRIDE) yield bytes.subarray(at, at + STRIDE);
    }
  }

  #keep(bytes) {
    if (this.#head.length < HEAD) this.#head = Uint8Array.of(...this.#head, ...bytes.subarray(0, HEAD - this.#head.length));
    this.#kept.push(bytes);
    this.#end += bytes.length;
    while (this.#kept.length > 1 && this.#end - this.#start - this.#kept[0].length >= KEPT) this.#start += this.#kept.shift().length;
  }

  async read(from, to) {
    if (from < this.#start) return to <= this.#head.length ? this.#head.slice(from, to) : null;
    const bytes = new Uint8Array(Math.max(0, Math.min(to, this.#end) - from));
    let at = this.#start;
    for (const piece of this.#kept) {
      const first = Math.max(from, at);
      const last = Math.min(at + piece.length, from + bytes.length);
      if (first < last) bytes.set(piece.subarray(first - at, last - at), first - from);
      at += piece.length;
    }
    return bytes;
  }
}

/** As many buffers as the pieces of an input of `size` bytes need. */
export const roomsFor = (size, count) => Array.from({ length: count }, () => new ArrayBuffer(Math.min(STRIDE, size + 1)));

/** Buffers that are used by turns. */
const inTurns = (rooms) => ({ take: async () => rooms.shift(), give: (buffer) => rooms.push(buffer) });

/** The pieces of a Blob. `rooms.take()` is a buffer for the next one, or null where no more is wanted, and `rooms.give(buffer)` takes it back. A
 *  browser reads a Blob by streams several times as fast as by slices. Chromium's stream of 4.4 GB stands still after 4.2 GB. */
export async function* piecesOfBlob(blob, rooms) {
  for (let at = 0; at < blob.size; at += STREAM) yield* piecesOfBytes(blob.slice(at, at + STREAM).stream(), rooms);
}

async function* piecesOfBytes(stream, rooms) {
  let reader;
  try {
    reader = stream.getReader({ mode: "byob" });
  } catch (error) {
    if (!(error instanceof TypeError)) throw error;
    return void (yield* inStrides(piecesOfStream(stream, rooms)));
  }
  try {
    for (;;) {
      const room = await rooms.take();
      if (!room) return;
      const { done, value } = await reader.read(new Uint8Array(room), { min: room.byteLength });
      // At the end there may be fewer.
      if (value?.length) yield value;
      if (value) rooms.give(value.buffer);
      if (done) return;
    }
  } finally {
    // If the reading ends early, the stream is cancelled.
    reader.cancel().catch(() => {});
  }
}

async function* inStrides(pieces) {
  for await (const it of pieces) {
    for (let at = 0; at < it.length; at += STRIDE) yield it.length <= STRIDE ? it : it.slice(at, at + STRIDE);
  }
}

/** The pieces of any stream, as they come. A buffer that is taken and not given back is but a sign that a piece is wanted. */
async function* piecesOfStream(stream, rooms = null) {
  const reader = stream.getReader();
  try {
    for (;;) {
      const room = await rooms?.take();
      if (room === null) return;
      const { done, value } = await reader.read();
      if (done) return;
      yield value;
      if (room) rooms.give(room);
    }
  } finally {
    // If the reading ends early, the stream is cancelled.
    reader.cancel().catch(() => {});
  }
}
