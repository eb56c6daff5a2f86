// The forms of a report as JSON and SARIF, in the words of geolint-files. A report is a list of { name, verdict }, where `verdict`
// is what `check` gives; `passes` says of a verdict whether the file passes.

const isTold = (it) => it !== null && it !== undefined;

/** What is found in a feature or a record, each warning by itself. */
export const eachOf = (items) => items.flatMap((it) => (it.verdict === "valid" ? it.warnings.map((one) => ({ ...it, ...one, warnings: [one] })) : [it]));
/** A path as a JSON pointer (RFC 6901): none where it has a name that the standard does not know. */
const pointerOf = (path) => (isTold(path) && !path.includes("*") ? path.slice(1).replace(/[.[]/g, "/").replaceAll("]", "") : null);
const calledIn = (it) => (it.index === undefined ? `record ${it.number}` : `feature ${it.index}`);

/** What passes by the options of the program: a valid file, with no warning of the kinds in `deny`, and if it is `strict` with none but those
 *  in `allow`. `fails` says it of a kind, and `passes` of a verdict. */
export function demandsOf({ strict = false, allow = [], deny = [] } = {}) {
  const unknown = [...allow, ...deny].find((it) => !/^W[1-9]$/.test(it));
  if (unknown !== undefined) throw new RangeError(`${unknown} is no kind of warning: these are W1 to W9`);
  const fails = (rule) => deny.includes(rule) || (strict && !allow.includes(rule));
  return { fails, passes: ({ verdict, warnings }) => verdict === "valid" && !warnings.some((it) => fails(it.rule)) };
}

/** The form `json`: one object in one line. */
export function jsonOf(name, verdict, passes = demandsOf().passes) {
  const { rule, text, offset, line, column, path, hint, warnings, record = null, records = null } = verdict;
  const of = (it) => ({ rule: it.rule, text: it.text, offset: it.offset, line: it.line, column: it.column, json_path: it.path, pointer: pointerOf(it.path) });
  const told = { rule, text, offset, line, column, json_path: path, pointer: pointerOf(path) };
  return JSON.stringify({
    path: name,
    verdict: verdict.verdict,
    passes: passes(verdict),
    record,
    records,
    ...told,
    hint: hint ? hintText(name, hint) : null,
    warnings: warnings.map((it) => ({ count: it.count, ...of(it) })),
  });
}

/** The object of a file that could not be read; `text` is the reason. */
export function jsonOfUnread(name, text) {
  const nothing = { record: null, records: null, rule: null };
  return JSON.stringify({ path: name, verdict: "not read", passes: false, ...nothing, text, offset: null, line: null, column: null, json_path: null, pointer: null, hint: null, warnings: [] });
}

/** Of what is found in a feature or a record, as geolint-files has it under `--every`. `more`: how many are not reported. */
export function jsonOfFindings(name, items, more = 0) {
  const lines = eachOf(items).map(({ index, number, id, rule, text, offset, line, column, path }) => {
    const called = index === undefined ? { record: number } : { feature: index, id };
    return JSON.stringify({ path: name, ...called, rule, text, offset, line, column, json_path: path, pointer: pointerOf(path) });
  });
  if (more > 0) lines.push(JSON.stringify({ path: name, more }));
  return lines;
}

const levelOf = (rule) => (rule.startsWith("W") ? "warning" : "error");

/** A log in SARIF 2.1.0. A report is { name, verdict }, and where features are reported `items` and `more`. `rules` are pairs of a rule and its text; `unread` are { name, reason } of what could not be read. */
export function sarifOf(reports, rules, version, unread = []) {
  const isQuick = reports.some(({ verdict }) => verdict.verdict === "not valid");
  const described = [...rules, ...(isQuick ? [["not-valid", "not valid"]] : [])].map(([id, text]) => ({
    id,
    shortDescription: { text },
    help: { text: `docs/rules.md, ${id}: ${text}` },
    defaultConfiguration: { level: levelOf(id) },
  }));
  const results = reports.flatMap(({ name, verdict, items = [], more = 0 }) => [
    ...(verdict.verdict === "valid" ? verdict.warnings : verdict.verdict === "not valid" ? [] : [verdict]).map((it) => resultOf(name, it, verdict.hint)),
    ...(verdict.verdict === "not valid" ? [resultOfQuick(name)] : []),
    ...eachOf(items).map((it) => resultOfFinding(name, it)),
    ...(more > 0 ? [{ level: "note", message: { text: `and ${more} more` }, locations: [{ physicalLocation: { artifactLocation: { uri: encodeURI(name) } } }] }] : []),
  ]);
  const notifications = unread.map(({ name, reason }) => ({ level: "error", message: { text: `${name}: ${reason}` } }));
  const log = {
    $schema: "https://json.schemastore.org/sarif-2.1.0.json",
    version: "2.1.0",
    runs: [
      {
        columnKind: "unicodeCodePoints",
        tool: { driver: { name: "geolint", version, rules: described } },
        results,
        invocations: [{ executionSuccessful: unread.length === 0, toolExecutionNotifications: notifications }],
      },
    ],
  };
  return JSON.stringify(log, null, 1) + "\n";
}

/** Of a quick look, which has no rule and no place. */
const resultOfQuick = (name) => ({ ruleId: "not-valid", level: "error", message: { text: "not valid" }, locations: [{ physicalLocation: { artifactLocation: { uri: encodeURI(name) } } }] });

/** The hint in a message: on the fault or, where there is none, on the positions out of range. */
export const hintOn = (name, rule, hint) => (hint && (!rule.startsWith("W") || rule === "W5") ? `; hint: ${hintText(name, hint)}` : "");

/** The text of a hint, with the name of the file in its commands. */
export const hintText = (name, hint) => hint.text.replace(/ IN/g, () => ` ${wordOf(name)}`);

/** A name as a word of a shell: not where it would be an option, or is not shown as it is. */
const wordOf = (name) => {
  if (/^[-#: ]|\\x[0-9a-f]{2}|[\u0000-\u001f\u007f-\u009f\u061c\u200b-\u200f\u2028-\u202e\u2060-\u2069\ufeff]/.test(name)) return "IN";
  return /^[\w/.-]*$/.test(name) ? name : `'${name.replaceAll("'", "'\\''")}'`;
};

function resultOf(name, it, hint = null) {
  const start = it.line === null ? {} : { startLine: it.line, startColumn: it.column };
  const location = { physicalLocation: { artifactLocation: { uri: encodeURI(name) }, region: { ...start, byteOffset: it.offset, byteLength: 0 } } };
  if (it.path) location.logicalLocations = [{ fullyQualifiedName: it.path }];
  const times = (it.count > 1 ? `, ${it.count} times` : "") + (isTold(it.record) ? `, record ${it.record}` : "");
  return { ruleId: it.rule, level: levelOf(it.rule), message: { text: it.text + times + hintOn(name, it.rule, hint) }, locations: [location] };
}

function resultOfFinding(name, it) {
  const { index, number, id } = it;
  const told = resultOf(name, { ...it, count: 1 });
  const properties = index === undefined ? { record: number } : { feature: index, id };
  return { ...told, message: { text: `${it.text}, ${calledIn(it)}` }, properties };
}
