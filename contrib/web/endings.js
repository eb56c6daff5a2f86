// How a file holds many texts, by its name: the endings of geolint-files.

/** The endings of files that hold many texts, by how these are set apart. */
const FRAMED = { sequence: [".geojsons", ".geojsonseq"], lines: [".ndjson", ".ndgeojson", ".geojsonl", ".jsonl"] };

/** Whether a name ends so, in capitals or not. */
export const endsIn = (name, endings) => endings.some((it) => name.toLowerCase().endsWith(it));

/** How a file of this name holds many texts, "sequence" or "lines"; null where it is one. */
export const framingOf = (name) => Object.keys(FRAMED).find((it) => endsIn(name, FRAMED[it])) ?? null;

/** The endings of the files in a folder that are checked. */
export const FOLDER_ENDINGS = [".geojson", ...Object.values(FRAMED).flat()];
