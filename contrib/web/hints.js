// What a file looks like that is not valid: what the module says, as geolint-files does. It is a guess, and no verdict depends on it.

/** How many of the first bytes count, and how many before a place and from it on. */
export const HEAD = 512;
const AROUND = 256;

/** What it says (`crates/gj_hints/src/kind.rt`), by a word for each, as the page names it in its languages. */
const TEXTS = {
  gzip: "the file is compressed by gzip: gzip -dc < IN > OUT.geojson",
  zip: "the file is a zip archive: unzip IN, and see what is in it",
  shapefile: "the file is a shapefile: ogr2ogr -f GeoJSON -lco RFC7946=YES OUT.geojson IN, if its name ends with .shp",
  sqlite: "the file is an SQLite database, such as a GeoPackage: ogr2ogr -f GeoJSON -lco RFC7946=YES OUT.geojson IN, with the name of a layer after it where there are several",
  flatgeobuf: "the file is a FlatGeobuf: ogr2ogr -f GeoJSON -lco RFC7946=YES OUT.geojson IN",
  parquet: "the file is a Parquet file: ogr2ogr -f GeoJSON -lco RFC7946=YES OUT.geojson IN",
  pdf: "the file is a PDF document: ask for the data; ogr2ogr -f GeoJSON -lco RFC7946=YES OUT.geojson IN reads a PDF with map layers",
  kml: "the file is KML: ogr2ogr -f GeoJSON -lco RFC7946=YES OUT.geojson IN",
  gml: "the file is GML: ogr2ogr -f GeoJSON -lco RFC7946=YES OUT.geojson IN",
  html: "the file is a web page, mostly one that shows an error or asks to log in: curl -fL -o OUT.geojson URL",
  xml: "the file is XML: ogr2ogr -f GeoJSON -lco RFC7946=YES OUT.geojson IN, if it is a map format",
  utf16: "the file is in UTF-16: iconv -f UTF-16 -t UTF-8 IN > OUT.geojson",
  latin1: "these letters are not in UTF-8: iconv -f WINDOWS-1252 -t UTF-8 IN > OUT.geojson",
  notANumber: "JSON has no NaN: json5 -o OUT.geojson IN writes null, which is right in properties and wrong in coordinates",
  infinity: "JSON has no Infinity: json5 -o OUT.geojson IN writes null, which is right in properties and wrong in coordinates",
  singleQuotes: "JSON has no single quotes: json5 -o OUT.geojson IN, or json.dumps if Python wrote it",
  comment: "JSON has no comments: json5 -o OUT.geojson IN removes those that begin with // or /*",
  extraComma: "there is a comma too many: json5 -o OUT.geojson IN removes one before a closing bracket",
  secondText: "a second text follows the first: geolint-files --ndjson IN, if each line is a text, or else jq -c . IN > OUT.ndjson",
  sequence: "the file is a text sequence (RFC 8142): geolint-files --seq IN",
  topojson: "the file is TopoJSON: ogr2ogr -f GeoJSON -lco RFC7946=YES OUT.geojson IN",
  esri: "the file is Esri JSON: ask the server with f=geojson, or ogr2ogr -f GeoJSON -lco RFC7946=YES OUT.geojson IN",
  textInString: "an object is inside a string: leave out its quotation marks and their backslashes; if it is the whole file: jq fromjson IN > OUT.geojson",
  swapped: "latitude and longitude look swapped; the longitude comes first: ogr2ogr -ct '+proj=axisswap +order=2,1' -lco RFC7946=YES OUT.geojson IN",
  metres: "the coordinates look like metres, not degrees: ogr2ogr -t_srs EPSG:4326 -lco RFC7946=YES OUT.geojson IN, with -s_srs where the file names no reference system",
  manyDigits: "the number has more than 30 digits; 17 are enough for any double, and 7 decimal places are a centimetre",
  largeNumber: "the number is too large, above 10 to the power of 400",
  smallNumber: "the number is nearly zero, below 10 to the power of -400: write 0",
  image: "the file is an image: ask for the data that it shows",
  gpx: "the file is GPX: ogr2ogr -f GeoJSON -lco RFC7946=YES OUT.geojson IN tracks, or with routes at the end if it has those",
  waypoints: "the file is GPX: ogr2ogr -f GeoJSON -lco RFC7946=YES OUT.geojson IN waypoints, or with tracks or routes at the end if it has those too",
  csv: "the file is a table, such as a CSV: ogr2ogr -f GeoJSON -lco RFC7946=YES OUT.geojson CSV:/vsistdin/ -oo 'X_POSSIBLE_NAMES=lon*,lng,x' -oo 'Y_POSSIBLE_NAMES=lat*,y' < IN",
  psql: "the file is a table as psql prints it: psql -At prints the text alone; of one column and row: sed -n 3p IN > OUT.geojson",
  doubledQuotes: "the text is in quotation marks, and its own are doubled, as in a CSV: python3 -c 'import sys; print(sys.stdin.read().strip()[1:-1].replace(2 * chr(34), chr(34)))' < IN > OUT.geojson",
  script: "the file is a script: perl -0777 -pe 's/^[^{]*//; s/[^}]*$//' IN > OUT.geojson leaves out what stands before the first { and after the last }",
  plainText: "the file begins with a word and is no JSON; look at what it says: head IN",
  noSeparator: "each text of a text sequence comes after a byte RS, and here is none: geolint-files --ndjson IN, if each line is a text",
  conflict: "a merge left both sides of a conflict: keep one of them, without the lines of <<<<<<<, ======= and >>>>>>>",
  zeros: "there are bytes of zero: the file was not written or copied to its end; fetch or write it again",
  python: "JSON has true, false and null for Python's True, False and None: sed 's/: *True/: true/g; s/: *False/: false/g; s/: *None/: null/g' IN > OUT.geojson",
  pythonText: "the text is as Python prints it: python3 -c 'import ast, json, sys; print(json.dumps(ast.literal_eval(sys.stdin.read())))' < IN > OUT.geojson",
  word: "JSON has no words but true, false and null: a text needs quotation marks, and what is not known is null",
  unquoted: "a name needs quotation marks: json5 -o OUT.geojson IN",
  control: "a line break or a tab in a string is written as a backslash with n or t: python3 -c 'import json, sys; json.dump(json.load(sys.stdin, strict=False), sys.stdout)' < IN > OUT.geojson",
  backslash: "a backslash in a string is written twice, as in the path of a file",
  innerQuote: "a quotation mark in a string needs a backslash before it",
  typographicQuotes: "JSON has no typographic quotation marks: python3 -c 'import sys; print(sys.stdin.read().translate({8220: 34, 8221: 34, 8222: 34}))' < IN > OUT.geojson makes all of them straight",
  number: "JSON writes 0.5 for .5, 5.0 for 5. and 5 for +5 or 05: json5 -o OUT.geojson IN, where no 0 comes before a digit",
  decimalComma: "a number has a point and no comma: write 41.5 for 41,5",
  missingComma: "a comma is missing before this",
  missingBrace: "the object before this one is closed, and that around it is not: write } where it ends",
  commaBetween: "a comma comes after a whole text: sed 's/,[[:space:]]*$//' IN > OUT.ndjson, if each line is a text",
  nullGeometry: "a geometry that is not known is null as a whole, without a type and coordinates",
};

/** The place that a hint goes by, of a valid text that of its first position out of range; null where nothing is wrong. */
function placeOf({ verdict, offset, warnings, records = null }) {
  if (verdict !== "valid") return offset;
  const first = records === null && warnings.find((it) => it.rule === "W5");
  return first ? first.offset : null;
}

/** That place, and as `clues` the first bytes of the input, those before the place and those from it on; null where there is no place, or they
 *  are gone. */
async function cluesOf(found, read) {
  const offset = placeOf(found);
  const clues = offset === null ? [null] : await Promise.all([read(0, HEAD), read(Math.max(0, offset - AROUND), offset), read(offset, offset + AROUND)]);
  return { offset, clues: clues.every(Boolean) ? clues : null };
}

/** The hint for the verdict that `linter` gave last, as { name, text, offset }, or null. Where it depends on how many arrays and objects are
 *  open before the place, `levelsAt(place)` says that. */
export async function hintFor(found, linter, levelsAt, read) {
  const { offset, clues } = await cluesOf(found, read);
  if (!clues) return null;
  const [outside, inside] = [0, 1].map((levels) => linter.hint(levels, clues));
  const text = outside !== inside && (await levelsAt(offset)) === 0 ? outside : inside;
  return text ? { name: Object.keys(TEXTS).find((it) => TEXTS[it] === text), text, offset } : null;
}
