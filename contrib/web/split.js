// The valid features of a file, or its valid texts, as a text sequence (RFC 8142): each by its own bytes between RS and LF.

import { LF } from "./lines.js";

const RS = 0x1e;
const isWhite = (byte) => byte === LF || byte === 0x0d || byte === 0x20 || byte === 0x09;
/** Features that are shorter are copied, and stand in Blobs of this size. Of others the file's slices are taken. */
const SHORT = 4096;
const ROOM = 4 << 20;

/** Gathers features from a Blob, which is never held whole. */
export class Sequence {
  #file;
  #parts = [];
  #room = new Uint8Array(ROOM);
  #used = 0;

  constructor(file) {
    this.#file = file;
    this.count = 0;
  }

  /** Adds the bytes from `place` up to `end`; `piece` is what was read last, and `start` its place. */
  add(place, end, piece, start) {
    // The text of a record ends before the white space after it.
    let last = end;
    while (last > Math.max(place, start) && isWhite(piece[last - 1 - start])) last--;
    this.#room[this.#used++] = RS;
    if (place >= start && last - place < SHORT) {
      this.#room.set(piece.subarray(place - start, last - start), this.#used);
      this.#used += last - place;
    } else {
      this.#flush();
      this.#parts.push(this.#file.slice(place, last));
    }
    this.#room[this.#used++] = LF;
    if (this.#used + SHORT + 2 > ROOM) this.#flush();
    this.count++;
  }

  #flush() {
    if (this.#used > 0) this.#parts.push(new Blob([this.#room.subarray(0, this.#used)]));
    this.#used = 0;
  }

  blob() {
    this.#flush();
    return new Blob(this.#parts, { type: "application/geo+json-seq" });
  }
}
