// The texts of the page and of editors in the language that is chosen: by the reader, otherwise by the browser or the editor.
import { ENGLISH } from "./texts.en.js";
import { GERMAN } from "./texts.de.js";

const TABLES = { en: ENGLISH, de: GERMAN };
let code = "en";
const formatters = new Map();

/** A formatter of the language. To make one takes longer than to use it. */
function formatter(Kind, options = {}) {
  const key = [Kind.name, code, options.maximumFractionDigits].join();
  if (!formatters.has(key)) formatters.set(key, new Kind(code, options));
  return formatters.get(key);
}

/** The table's text by its name, as `sentence.valid`, with {..} filled in; a text of several forms goes by `values.count`. */
export function say(name, values = {}) {
  let text = name.split(".").reduce((table, step) => table?.[step], TABLES[code]);
  if (typeof text === "object" && text !== null) text = text[formatter(Intl.PluralRules).select(values.count)] ?? text.other;
  if (typeof text !== "string") throw new Error(`there is no text ${name}`);
  return text.replace(/\{(\w+)\}/g, (_, it) => (typeof values[it] === "number" ? number(values[it]) : values[it]));
}

/** What is wrong by a rule, and how to mend it. */
export const whatOf = (rule) => TABLES[code].rules[rule][0];
export const mendOf = (rule) => TABLES[code].rules[rule][1];

/** The kinds of warning. */
export const kindsOfWarning = () => Object.keys(TABLES[code].rules).filter((it) => it.startsWith("W"));

export const number = (value, digits = 0) => formatter(Intl.NumberFormat, { maximumFractionDigits: digits }).format(value);

/** A count of bytes, as 812 bytes, 14.2 kB, 50 MB. */
export function size(bytes) {
  const units = ["byte", "kilobyte", "megabyte", "gigabyte", "terabyte"];
  const step = Math.min(units.length - 1, Math.max(0, Math.floor(Math.log10(Math.max(1, bytes)) / 3)));
  const form = { style: "unit", unit: units[step], unitDisplay: step ? "short" : "long", maximumFractionDigits: step ? 1 : 0 };
  return (bytes / 1000 ** step).toLocaleString(code, form);
}

/** A time in seconds, as 0.4 s, 17 s, 2 min 5 s. */
export function time(seconds) {
  if (seconds < 60) return say("seconds", { count: number(seconds, seconds < 10 ? 1 : 0) });
  return say("minutes", { minutes: Math.floor(seconds / 60), seconds: Math.floor(seconds % 60) });
}

export const languages = () => Object.entries(TABLES).map(([it, { language }]) => [it, language]);
export const language = () => code;

/** Chooses a language by its code; English where there is no table of it. */
export const choose = (wanted) => void (code = Object.hasOwn(TABLES, wanted) ? wanted : "en");

/** The same for the page: every element with `data-text` gets its text. */
export function speak(wanted) {
  choose(wanted);
  document.documentElement.lang = code;
  for (const it of document.querySelectorAll("[data-text]")) it.textContent = say(it.dataset.text);
  document.title = `geolint: ${say("title")}`;
}

/** The first of the browser's languages that there is a table of. */
export const preferred = () => navigator.languages.map((it) => it.slice(0, 2)).find((it) => TABLES[it]) ?? "en";
