// What the page says of a verdict: the hint of the native program, or that the file is empty.

/** The names of hints that say what the file is, and not what is wrong at a place. */
const OTHER_KINDS = ["gzip", "zip", "shapefile", "sqlite", "flatgeobuf", "parquet", "pdf", "image", "kml", "gml", "html", "gpx", "waypoints", "xml", "csv", "psql", "script", "plainText", "utf16", "sequence"];

/** { name, offset, isOtherKind }, or null. */
export function guessFor({ hint, rule, offset, read }) {
  if (hint) return { name: hint.name, offset: hint.offset, isOtherKind: OTHER_KINDS.includes(hint.name) };
  return rule === "J2" && read === 0 ? { name: "empty", offset, isOtherKind: false } : null;
}
