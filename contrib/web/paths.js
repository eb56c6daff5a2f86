// The path of a value in a text that is known to be JSON, and the feature that it lies in. This reads the text up to the place
// once more, and is therefore used for places near its start alone.

const [QUOTE, COMMA, BACKSLASH] = [0x22, 0x2c, 0x5c];
const [OPEN_ARRAY, CLOSE_ARRAY, OPEN_OBJECT, CLOSE_OBJECT] = [0x5b, 0x5d, 0x7b, 0x7d];
/** The names that RFC 7946 gives a meaning, and crs; a path shows each other one as `*`. */
const KNOWN = new Set(["type", "coordinates", "geometries", "geometry", "properties", "features", "bbox", "id", "crs"]);
/** A name of more bytes than this is none of them, however it is escaped: 11 letters of 6 bytes each. */
const LONGEST_NAME = 66;

/** The bytes of numbers and of null, true and false. */
const IS_WORD = Uint8Array.from({ length: 128 }, (_, byte) => +/[-+.0-9A-Za-z]/.test(String.fromCharCode(byte)));
const stepOf = (level) => (level.isArray ? `[${level.index}]` : `.${level.name}`);

/** Reads a JSON text piece by piece, and notes the path of each of some places, which come in their order. */
export class PathFinder {
  constructor(places) {
    this.places = places;
    this.found = new Map();
    this.levels = [];
    this.offset = 0;
    this.isInText = false;
    this.isInWord = false;
    this.isEscaped = false;
    this.isNameDue = false;
    this.isName = false;
    // Each byte as a character: the names that matter are of ASCII.
    this.name = "";
  }

  get isDone() {
    return this.places.length === 0;
  }

  feed(bytes) {
    let i = 0;
    while (i < bytes.length && !this.isDone) {
      if (this.isInText) i = this.isName ? this.#takeName(bytes, i) : this.#passText(bytes, i);
      else if (IS_WORD[bytes[i]]) i = this.#passWord(bytes, i);
      else this.#take(bytes[i], this.offset + i++);
    }
    this.offset += bytes.length;
  }

  /** These take what they can from index `i` on, and answer where they stopped. */
  #passWord(bytes, i) {
    if (!this.isInWord) this.#note(this.offset + i, this.levels);
    while (i < bytes.length && IS_WORD[bytes[i]]) i++;
    // A word may go on in the next piece.
    this.isInWord = i === bytes.length;
    return i;
  }

  #takeName(bytes, i) {
    const start = i;
    for (; i < bytes.length; i++) {
      const byte = bytes[i];
      if (!this.isEscaped && byte === QUOTE) {
        this.#keepName(bytes, start, i);
        this.#endName();
        return i + 1;
      }
      this.isEscaped = !this.isEscaped && byte === BACKSLASH;
    }
    this.#keepName(bytes, start, i);
    return i;
  }

  #keepName(bytes, start, end) {
    for (let i = start; i < end && this.name.length <= LONGEST_NAME; i++) this.name += String.fromCharCode(bytes[i]);
  }

  #endName() {
    this.isInText = this.isName = false;
    const name = this.name.length > LONGEST_NAME ? "*" : this.name.includes("\\") ? JSON.parse(`"${this.name}"`) : this.name;
    this.levels.at(-1).name = KNOWN.has(name) ? name : "*";
    this.name = "";
  }

  #passText(bytes, i) {
    // The byte that a backslash at the end of the last piece escapes.
    let from = i + Number(this.isEscaped);
    this.isEscaped = false;
    for (;;) {
      const quote = bytes.indexOf(QUOTE, from);
      const end = quote < 0 ? bytes.length : quote;
      let slashes = 0;
      while (end - slashes > from && bytes[end - slashes - 1] === BACKSLASH) slashes++;
      const isEscaped = slashes % 2 === 1;
      if (quote >= 0 && !isEscaped) {
        this.isInText = false;
        return quote + 1;
      }
      if (quote < 0) {
        this.isEscaped = isEscaped;
        return bytes.length;
      }
      from = quote + 1;
    }
  }

  #take(byte, at) {
    this.isInWord = false;
    if (byte === COMMA) {
      const top = this.levels.at(-1);
      if (top.isArray) top.index++;
      else this.isNameDue = true;
    } else if (byte === CLOSE_ARRAY || byte === CLOSE_OBJECT) {
      this.isNameDue = false;
      this.levels.pop();
    } else if (byte === QUOTE) {
      this.#openText(at);
    } else if (byte === OPEN_ARRAY || byte === OPEN_OBJECT) {
      this.#note(at, this.levels);
      this.levels.push({ isArray: byte === OPEN_ARRAY, index: 0, name: "*", start: at });
      this.isNameDue = byte === OPEN_OBJECT;
    } else if (byte >= 0x80) {
      // Outside of strings, a byte beyond ASCII is one of the byte order mark.
      this.#note(at, this.levels);
    }
  }

  #openText(at) {
    this.isInText = true;
    this.isName = this.isNameDue;
    // The place of a name is given by the path of its object.
    this.#note(at, this.isName ? this.levels.slice(0, -1) : this.levels);
    this.isNameDue = false;
  }

  #note(at, levels) {
    if (at !== this.places[0]) return;
    this.places = this.places.slice(1);
    const path = "$" + levels.map(stepOf).join("");
    const index = this.levels.length > 1 && this.levels[0].name === "features" && this.levels[1].isArray ? this.levels[1].index : null;
    const start = index === null ? (this.levels[0]?.start ?? at) : (this.levels[2]?.start ?? at);
    this.found.set(at, { path, index, start });
  }
}

/** The byte after a value that begins at `start`, which is an array, an object or a string; null where these bytes do not hold its end. */
export function endOfValue(bytes, start = 0) {
  let depth = 0;
  for (let i = start; i < bytes.length; i++) {
    const byte = bytes[i];
    if (byte === QUOTE) {
      for (i++; i < bytes.length && bytes[i] !== QUOTE; i++) if (bytes[i] === BACKSLASH) i++;
      if (depth === 0 && i < bytes.length) return i + 1;
    } else if (byte === OPEN_ARRAY || byte === OPEN_OBJECT) {
      depth++;
    } else if (byte === CLOSE_ARRAY || byte === CLOSE_OBJECT) {
      depth--;
      if (depth === 0) return i + 1;
    }
  }
  return null;
}
