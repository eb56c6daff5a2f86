// What the forms for programs that gather issues have in common: { level, rule, text, offset, line, column } of each issue.

import { shownName } from "./lines.js";
import { eachOf, hintOn } from "./report.js";

const isThere = (it) => it !== null && it !== undefined;
const levelIn = (rule, fails) => (rule.startsWith("W") && !fails(rule) ? "warning" : "error");
const issueWithoutPlace = (level, rule, text) => ({ level, rule, text, offset: 0, line: null });

/** The fault of a file, or each kind of warning in turn. */
export function issuesOf(name, verdict, fails) {
  if (verdict.verdict === "not valid") return [issueWithoutPlace("error", "not-valid", "not valid")];
  const mark = verdict.verdict === "not JSON" ? "not JSON: " : "";
  return (verdict.verdict === "valid" ? verdict.warnings : [verdict]).map((it) => {
    const details = [isThere(it.record) && `record ${it.record}`, it.count > 1 && `${it.count} times`, `at byte ${it.offset}`, it.path].filter(Boolean);
    return { ...it, level: levelIn(it.rule, fails), text: `${mark}${[it.text, ...details].join(", ")}${hintOn(name, it.rule, verdict.hint)}` };
  });
}

/** That of a file which could not be read. */
export const issueOfUnread = (reason) => issueWithoutPlace("error", "not-read", reason);

/** Those of features or records, and that `more` are not reported. */
export function issuesOfFindings(items, more, fails) {
  const issues = eachOf(items).map((it) => {
    const called = it.index === undefined ? `record ${it.number}` : `feature ${it.index}`;
    const details = [called, isThere(it.id) && `id ${shownName(it.id)}`, `at byte ${it.offset}`, it.path].filter(Boolean);
    return { ...it, level: levelIn(it.rule, fails), text: [it.text, ...details].join(", ") };
  });
  return more > 0 ? [...issues, issueWithoutPlace("notice", "more", `and ${more} more`)] : issues;
}
