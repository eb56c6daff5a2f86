/** Where and why: a broken rule, the reason that a text is no JSON, or the first of a kind of warning. */
export interface Place {
  /** The code: as `G15` of a broken text, `J1` of what is no JSON text, `W5` of a warning. */
  rule: string | null;
  /** What the rule says, as `ring not closed`. */
  text: string | null;
  /** The place, as a byte offset from 0. */
  offset: number | null;
  /** From 1; a line ends with LF alone. Null where the place of a stream lies before the bytes that are kept. */
  line: number | null;
  /** From 1, in characters. */
  column: number | null;
  /** The value at the place, as `$.features[3].geometry`. Null where it is not JSON. */
  path: string | null;
}

/** A place in a text. Its path is null also where it lies beyond `PATH_REACH` and outside of every feature. */
export interface Finding extends Place {
  /** The feature around the place: its index in the collection, or null where the text is one feature, and its value. */
  feature: { index: number | null; value: unknown } | null;
  /** The part of the line around the place, of at most 50 characters on each side. */
  excerpt: Excerpt | null;
}

export interface Excerpt {
  before: string;
  after: string;
  isCutBefore: boolean;
  isCutAfter: boolean;
  /** Whether the place is the end of the input. */
  isAtEnd: boolean;
  /** Some lines before and after the one of the place, of at most 110 characters each. */
  linesBefore: string[];
  linesAfter: string[];
}

/** The warnings of one kind: how many there are, and where the first is. */
export interface Kind extends Place {
  rule: string;
  text: string;
  offset: number;
  /** It stays at 4294967295. */
  count: number;
}

export interface Warning extends Kind, Finding {
  rule: string;
  text: string;
  offset: number;
}

/** What a file looks like, by its first bytes and those around a place: a guess, on which no verdict depends. */
export interface Hint {
  /** A word for it, as `gzip`, `extraComma`, `swapped`. */
  name: string;
  /** What geolint-files says, with the command that makes the file right. */
  text: string;
  /** The place that shows it. */
  offset: number;
}

/** What a text is, or an input of many. The members of `Finding` are null where it is valid. */
export interface Verdict extends Finding {
  /** `not valid` is said by a quick look alone, which gives no rule and no place. */
  verdict: "valid" | "broken" | "not JSON" | "not valid";
  /** Of a valid text: each kind of which there is one, in the order of their numbers. */
  warnings: Warning[];
  /** Of what is not valid, or has a position out of range; null where nothing comes to mind. */
  hint: Hint | null;
  /** How many bytes were read. */
  read: number;
  /** Of an input of many texts: the number of the first that is not valid, or null where all are. */
  record: number | null;
  /** How many texts there are, where all are valid. */
  records: number | null;
}

/** What is found in a feature or in a text of many: the least of its faults, or where it has none its warnings. */
export interface Found extends Place {
  verdict: "valid" | "broken" | "not JSON";
  /** The place of its first byte, and that after its last; `end` is null of a feature that is no object and no array. */
  place: number;
  end: number | null;
  /** Its `name` or another property of that kind, otherwise its `id`. Of what is longer than 256 KiB it is not sought. */
  name: string | null;
  warnings: Kind[];
}

export interface FoundFeature extends Found {
  /** How many features stand before it. */
  index: number;
  /** Its `id` as it is written, in the first 40 characters. */
  id: string | null;
}

export interface FoundRecord extends Found {
  /** From 1. Of a text sequence it is 0 where it is what stands before the first text. */
  number: number;
}

/** A finding in brief: without name, id and paths. `idAt` is the place of the value of its id. */
export type Brief<T extends Found> = Omit<T, "name" | "id" | "path" | "warnings"> & { warnings: Omit<Kind, "path">[]; idAt: number | null };

export interface Counts {
  /** How many features or texts there are. */
  all: number;
  faults: number;
  /** Without a fault and with a warning. */
  warned: number;
  /** How many were reported. */
  told: number;
}

/** Findings, as they come in one reading. When they have ended, `verdict` and `counts` are there. */
export interface Findings<T> extends AsyncIterable<T> {
  next(): Promise<IteratorResult<T, void>>;
  return(): Promise<IteratorResult<T, void>>;
  verdict: Verdict | null;
  counts: Counts | null;
}

/** What can be read from any place, as an open file. `read` gives the bytes from `from` up to `to`. */
export interface Readable {
  size: number;
  read(from: number, to: number): Promise<Uint8Array>;
}

export type Input = ArrayBuffer | ArrayBufferView | Blob | Readable | ReadableStream<Uint8Array> | AsyncIterable<Uint8Array> | Iterable<Uint8Array>;

/** How an input holds many texts: as a text sequence (RFC 8142), or one in each line. */
export type Framing = "sequence" | "lines";

export interface Limits {
  /** The most bytes that an input may have, from 1 to 2^60. */
  maxBytes?: number | bigint;
  /** The most arrays and objects inside one another, from 1 to 256. */
  maxDepth?: number;
  signal?: AbortSignal;
}

export interface Options extends Limits {
  /** Asks for a yes or no alone: the input is read no further than that takes. */
  isQuick?: boolean;
  /** Called after each piece. `isDoomed`: the input cannot be valid any more. */
  onProgress?(progress: { read: number; size: number | null; isDoomed: boolean }): void;
}

export interface SearchOptions extends Limits {
  /** What is reported: what has a fault, also what has a warning (the default), or all. */
  which?: "faults" | "findings" | "all";
  /** The most faults that are reported, and the most features or records with warnings alone. `counts` has them all. */
  most?: number;
  /** Findings are reported in brief, which is faster where there are many of them: `completed` adds the rest. */
  isBrief?: boolean;
  /** Whether the verdict has paths and features, for which a part of the text may be read once more. True unless given. */
  hasPaths?: boolean;
  /** Called after each piece. `isDoomed`: the input cannot be valid any more. */
  onProgress?(progress: Counts & { read: number; size: number | null; isDoomed: boolean }): void;
}

export class Geolint {
  /** Checks a text, which is read once. Any number of calls may be under way at once. */
  check(input: Input, options?: Options): Promise<Verdict>;
  /** What is found in each feature of a text: in each element of the array that the first member `features` of its object holds. */
  features(input: Input, options: SearchOptions & { isBrief: true }): Findings<Brief<FoundFeature>>;
  features(input: Input, options?: SearchOptions): Findings<FoundFeature>;
  /** What is found in each text of an input of many. */
  records(input: Input, options: SearchOptions & { framing: Framing; isBrief: true }): Findings<Brief<FoundRecord>>;
  records(input: Input, options: SearchOptions & { framing: Framing }): Findings<FoundRecord>;
  /** Findings that were reported in brief, in full. Where they lie, the input is read again: bytes, a Blob, or what can be read from any place. */
  completed(input: Input, findings: Brief<FoundFeature>[]): Promise<FoundFeature[]>;
  completed(input: Input, findings: Brief<FoundRecord>[]): Promise<FoundRecord[]>;
  /** The valid features of a file, or its valid texts where there is a framing, as a text sequence: each by its own bytes. `count` is
   *  how many these are, and `others` how many are left out. */
  split(
    file: Blob,
    options?: Limits & { framing?: Framing; onProgress?(progress: { read: number; size: number }): void },
  ): Promise<{ blob: Blob; count: number; others: number }>;
  version(): Promise<string>;
  /** All rules, warnings and causes with their texts. */
  texts(): Promise<[rule: string, text: string][]>;
}

/** Compiles the module: `geolint.wasm` beside this file, or the one that is given. */
export function load(module?: BufferSource | WebAssembly.Module): Promise<Geolint>;

/** A kind of warning, as `W5`. */
export type WarningKind = `W${1 | 2 | 3 | 4 | 5 | 6 | 7 | 8 | 9}`;
/** What passes, by the options of `geolint-files`: a valid file, with no warning of the kinds in `deny`, and if it is `strict` with none but those
 *  in `allow`. `fails` says whether warnings of a kind fail a file, and `passes` whether a file passes. */
export function demandsOf(demands?: { strict?: boolean; allow?: readonly WarningKind[]; deny?: readonly WarningKind[] }): {
  fails(rule: string): boolean;
  passes(verdict: Verdict): boolean;
};

/** The report of the program `geolint`. */
export function textOf(verdict: Verdict): string;
/** The forms of the program `geolint-files`: `json` (without an end of line), `lines`, `sarif`. `passes` is that of `demandsOf`. */
export function jsonOf(name: string, verdict: Verdict, passes?: (verdict: Verdict) => boolean): string;
export function jsonOfUnread(name: string, reason: string): string;
export function linesOf(name: string, verdict: Verdict): string;
/** The form `github`; `fails` is that of `demandsOf`. */
export function githubOf(name: string, verdict: Verdict, fails?: (rule: string) => boolean): string;
export function githubOfUnread(name: string, reason: string): string;
export function sarifOf(
  reports: { name: string; verdict: Verdict; items?: Found[]; more?: number }[],
  rules: [rule: string, text: string][],
  version: string,
  unread?: { name: string; reason: string }[],
): string;
/** Findings, with each warning by itself. */
export function eachOf<T extends Found>(items: T[]): T[];
/** The forms of `geolint-files --every`; `more` is how many are not reported. */
export function jsonOfFindings(name: string, items: Found[], more?: number): string[];
export function linesOfFindings(name: string, items: Found[], more?: number): string;
export function githubOfFindings(name: string, items: Found[], more?: number, fails?: (rule: string) => boolean): string;
export function textOfFindings(items: Found[], more?: number): string;

/** How many bytes from the start a place may be to get a path; places inside features always get one. */
export const PATH_REACH: number;
