// Unpacks what contrib/web/build packed: LZMA without a head, with three bits of the last byte as the context of a letter (lc=3, lp=0,
// pb=0). It needs nothing of the browser, and packs the module a third smaller than gzip, whose window is too short for it.

const HALF = 1024;
const probabilities = (count) => new Uint16Array(count).fill(HALF);

/** Bits, each by the probability that it is 0, which each bit moves. */
class Bits {
  constructor(bytes) {
    this.bytes = bytes;
    this.at = 5;
    this.range = 0xffffffff;
    this.code = new DataView(bytes.buffer, bytes.byteOffset).getUint32(1);
  }

  normalize() {
    if (this.range >= 0x1000000) return;
    this.range = (this.range << 8) >>> 0;
    this.code = ((this.code << 8) | this.bytes[this.at++]) >>> 0;
  }

  bit(chances, i) {
    const chance = chances[i];
    const bound = (this.range >>> 11) * chance;
    const isOne = this.code >= bound;
    if (isOne) {
      this.range -= bound;
      this.code -= bound;
      chances[i] -= chance >>> 5;
    } else {
      this.range = bound;
      chances[i] += (2048 - chance) >>> 5;
    }
    this.normalize();
    return Number(isOne);
  }

  /** Bits whose chances are a tree, the highest first. */
  tree(chances, count, base = 0) {
    let node = 1;
    for (let i = 0; i < count; i++) node = (node << 1) | this.bit(chances, base + node);
    return node - (1 << count);
  }

  /** The same, the lowest first. */
  reversed(chances, count, base = 0) {
    let [node, value] = [1, 0];
    for (let i = 0; i < count; i++) {
      const bit = this.bit(chances, base + node);
      node = (node << 1) | bit;
      value |= bit << i;
    }
    return value;
  }

  /** Bits of even chance. */
  even(count) {
    let value = 0;
    for (let i = 0; i < count; i++) {
      this.range >>>= 1;
      const isOne = this.code >= this.range;
      if (isOne) this.code -= this.range;
      value = (value << 1) | Number(isOne);
      this.normalize();
    }
    return value;
  }
}

/** The length of a match. */
class Length {
  choice = probabilities(2);
  low = probabilities(8);
  middle = probabilities(8);
  high = probabilities(256);

  read(bits) {
    if (!bits.bit(this.choice, 0)) return 2 + bits.tree(this.low, 3);
    if (!bits.bit(this.choice, 1)) return 10 + bits.tree(this.middle, 3);
    return 18 + bits.tree(this.high, 8);
  }
}

/** How far back a match begins. */
class Distance {
  slots = probabilities(4 * 64);
  special = probabilities(128);
  align = probabilities(16);

  read(bits, length) {
    const slot = bits.tree(this.slots, 6, 64 * Math.min(length - 2, 3));
    if (slot < 4) return slot;
    const count = (slot >> 1) - 1;
    const base = (2 | (slot & 1)) << count;
    if (slot < 14) return base + bits.reversed(this.special, count, base - slot);
    return base + (bits.even(count - 4) << 4) + bits.reversed(this.align, 4);
  }
}

/** A letter, by the one before it, and after a match by the one that the match would have had. */
function letterOf(bits, chances, before, matched) {
  const base = 0x300 * (before >> 5);
  let node = 1;
  if (matched !== null) {
    for (let expected = matched << 1; node < 0x100; expected <<= 1) {
      const wanted = (expected >> 8) & 1;
      const bit = bits.bit(chances, base + ((1 + wanted) << 8) + node);
      node = (node << 1) | bit;
      if (bit !== wanted) break;
    }
  }
  while (node < 0x100) node = (node << 1) | bits.bit(chances, base + node);
  return node & 0xff;
}

/** The bytes, of which there are `size`. */
export function unpacked(packed, size) {
  const out = new Uint8Array(size);
  const bits = new Bits(packed);
  const letters = probabilities(0x300 << 3);
  const [isMatch, isRepeat, isOlder, isOldest, isThird, isLong] = Array.from({ length: 6 }, () => probabilities(12));
  const [length, repeated, distance] = [new Length(), new Length(), new Distance()];
  let back = [0, 0, 0, 0];
  let state = 0;
  for (let at = 0; at < size; ) {
    if (!bits.bit(isMatch, state)) {
      out[at] = letterOf(bits, letters, at > 0 ? out[at - 1] : 0, state >= 7 ? out[at - back[0] - 1] : null);
      at++;
      state = state < 4 ? 0 : state < 10 ? state - 3 : state - 6;
      continue;
    }
    let count;
    if (!bits.bit(isRepeat, state)) {
      count = length.read(bits);
      back = [distance.read(bits, count), back[0], back[1], back[2]];
      state = state < 7 ? 7 : 10;
    } else {
      const which = !bits.bit(isOlder, state) ? 0 : !bits.bit(isOldest, state) ? 1 : 2 + bits.bit(isThird, state);
      const isOne = which === 0 && !bits.bit(isLong, state);
      back = [back[which], ...back.filter((_, i) => i !== which)];
      count = isOne ? 1 : repeated.read(bits);
      state = isOne ? (state < 7 ? 9 : 11) : state < 7 ? 8 : 11;
    }
    for (; count > 0 && at < size; count--, at++) out[at] = out[at - back[0] - 1];
  }
  return out;
}

/** The checksum of gzip and others, which shows that a byte has changed. */
export function checksumOf(bytes) {
  const table = Int32Array.from({ length: 256 }, (_, it) => {
    for (let i = 0; i < 8; i++) it = it & 1 ? (it >>> 1) ^ 0xedb88320 : it >>> 1;
    return it;
  });
  let sum = -1;
  for (const byte of bytes) sum = (sum >>> 8) ^ table[(sum ^ byte) & 255];
  return ~sum >>> 0;
}
