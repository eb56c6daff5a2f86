// What the package's types allow and refuse; .ci/web compiles it and does not run it.
import { load, textOf, jsonOfFindings, demandsOf, Verdict, Finding, FoundFeature } from "geolint";

const geolint = await load();
const verdict: Verdict = await geolint.check(new Uint8Array(1), { maxBytes: 10n, onProgress: ({ read }) => console.log(read + 1) });
const findings: Finding[] = verdict.verdict === "valid" ? verdict.warnings : [verdict];
console.log(textOf(verdict), findings.map((it) => it.line), verdict.warnings.map((it) => it.count + 1));
await geolint.check(new Blob([]).stream());
const features = geolint.features(new Blob([]), { which: "faults", most: 10 });
const items: FoundFeature[] = [];
for await (const it of features) items.push(it);
console.log(features.verdict?.rule, features.counts?.faults, jsonOfFindings("a", items), items[0]?.index);
const brief = geolint.features(new Blob([]), { isBrief: true });
for await (const it of brief) items.push(...(await geolint.completed(new Blob([]), [it])));
// @ts-expect-error: a finding in brief has no path
for await (const it of brief) console.log(it.path);
for await (const it of geolint.records(new Uint8Array(1), { framing: "lines" })) console.log(it.number + 1, it.end);
console.log((await geolint.split(new Blob([]), { framing: "sequence" })).blob.size);
const { fails, passes } = demandsOf({ strict: true, allow: ["W4"], deny: ["W5"] });
console.log(fails("W5"), passes(verdict));
// @ts-expect-error: there is no such kind
demandsOf({ deny: ["W10"] });
// @ts-expect-error: a string is no input
await geolint.check("text");
// @ts-expect-error: how the texts stand in it must be said
geolint.records(new Uint8Array(1));
