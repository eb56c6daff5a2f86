// What a person calls a feature: by its name, or by its id.

/** The name of a feature is taken from the first of these properties. */
const NAMES = ["name", "Name", "NAME", "title", "Title", "label", "ref"];
const LONGEST = 60;
/** The most characters of an id as it is written. */
const ID_LONGEST = 40;
/** The most bytes that as many characters take. */
export const ID_REACH = 4 * ID_LONGEST;

const isName = (it) => (typeof it === "string" && it.trim() !== "") || Number.isFinite(it);

/** A name or the id of a feature's value; null where it has neither. */
export function calledOf(value) {
  const named = NAMES.map((it) => value?.properties?.[it]).find(isName) ?? [value?.id].find(isName);
  return named === undefined ? null : String(named).slice(0, LONGEST);
}

/** The id as it is written, in its first characters; `bytes` begin with it. */
export function writtenId(bytes) {
  const text = new TextDecoder("utf-8", { ignoreBOM: true }).decode(bytes);
  let id = "";
  let levels = 0;
  for (const [part] of text.matchAll(/"(?:\\.|[^"\\])*"?|./gs)) {
    if (levels === 0 && /^[ \t\n\r,}\]]$/.test(part)) break;
    levels += /^[[{]$/.test(part) - /^[\]}]$/.test(part);
    id += part;
  }
  return [...id].slice(0, ID_LONGEST).join("");
}

/** The value of a JSON text, or null. */
export function valueOf(bytes) {
  try {
    return JSON.parse(new TextDecoder("utf-8", { fatal: true, ignoreBOM: true }).decode(bytes));
  } catch {
    return null;
  }
}
