// Reads a file in a worker of its own, while another one checks what was read. Each piece goes over with its buffer, and the buffer
// comes back, so that nothing is copied.

import { STRIDE } from "./lines.js";
import { piecesOfBlob, roomsFor } from "./source.js";

/** The number of buffers: one is checked, the one before it may be read again, and the others are filled ahead. */
const ROOMS = 5;

/** In the worker that reads, for the one at the other end of a port. A reading has a number, and ends where the next begins. */
export class Reader {
  #port;
  #turn = 0;
  #rooms = [];
  #wake = () => {};

  constructor(port) {
    this.#port = port;
    port.onmessage = ({ data }) => this[data.kind](data);
  }

  /** A buffer has come back. */
  room({ turn, buffer }) {
    if (turn === this.#turn) this.#rooms.push(buffer);
    this.#wake();
  }

  async read({ turn, file, rooms }) {
    this.#turn = turn;
    this.#rooms = rooms;
    this.#wake();
    try {
      for await (const bytes of piecesOfBlob(file, this.#roomsOf(turn))) this.#port.postMessage({ turn, bytes }, [bytes.buffer]);
      this.#port.postMessage({ turn });
    } catch (error) {
      this.#port.postMessage({ turn, reason: String(error?.message ?? error) });
    }
  }

  #roomsOf(turn) {
    const take = async () => {
      while (turn === this.#turn && !this.#rooms.length) await new Promise((done) => (this.#wake = done));
      return turn === this.#turn ? this.#rooms.pop() : null;
    };
    // A buffer that went over with its piece has no bytes here.
    return { take, give: (buffer) => buffer.byteLength && this.#rooms.push(buffer) };
  }
}

/** In the worker that checks: files as inputs that another worker of the same script reads. The page makes both workers: Firefox may hang
 *  where a worker makes a worker. */
export class ReadAhead {
  #port = null;
  #turn = 0;

  /** The worker that reads is at the other end of this port. */
  through(port) {
    this.#port = port;
  }

  /** A short file is read by the worker that checks, and so is each file where there is no other worker. */
  of(file) {
    if (file.size <= STRIDE || !this.#port) return file;
    const read = async (from, to) => new Uint8Array(await file.slice(from, to).arrayBuffer());
    return { size: file.size, read, pieces: () => this.#pieces(file) };
  }

  async *#pieces(file) {
    const turn = ++this.#turn;
    const port = this.#port;
    const come = [];
    let wake = () => {};
    port.onmessage = ({ data }) => {
      if (data.turn !== turn) return;
      come.push(data);
      wake();
    };
    const rooms = roomsFor(file.size, ROOMS);
    port.postMessage({ kind: "read", turn, file, rooms }, rooms);
    for (let last = null; ; ) {
      while (!come.length) await new Promise((done) => (wake = done));
      const { bytes, reason } = come.shift();
      if (reason !== undefined) throw new Error(reason);
      if (!bytes) return;
      yield bytes;
      if (last) port.postMessage({ kind: "room", turn, buffer: last.buffer }, [last.buffer]);
      last = bytes;
    }
  }
}
