//! What an input looks like that is not valid.

use crate::{Verdict, c, text};

/// The verdict as the library's report has it.
fn report_of(verdict: &Verdict) -> c::Report {
    let none = c::Warned { count: 0, first: 0 };
    let mut report = c::Report { status: c::DONE, verdict: c::VALID, rule: 0, cause: 0, place: 0, warned: 0, warnings: [none; 9] };
    match verdict {
        Verdict::Valid(warnings) => {
            for (kind, kept) in (1..).zip(&mut report.warnings) {
                if let Some(w) = warnings.iter().find(|w| w.kind == kind) {
                    report.warned = 1;
                    *kept = c::Warned { count: w.count, first: w.first };
                }
            }
        }
        Verdict::Broken { rule, place } => {
            report = c::Report { verdict: c::BROKEN, rule: *rule, place: *place, ..report };
        }
        Verdict::NotJson { cause, place } => {
            report = c::Report { verdict: c::NOT_JSON, cause: *cause, place: *place, ..report };
        }
    }
    report
}

fn some(hint: &'static str) -> Option<&'static str> {
    if hint.is_empty() { None } else { Some(hint) }
}

/// What a text in memory looks like, by its verdict, and a command that makes it right: the hint of geolint-files. It is a guess, and no
/// verdict depends on it.
///
/// ```
/// let text = b"{\"type\":\"Point\",\"coordinates\":[NaN,1]}";
/// let verdict = geolint::check(text, geolint::Limits::default())?;
/// assert!(geolint::hint(&verdict, text).unwrap().starts_with("JSON has no NaN"));
/// # Ok::<(), geolint::Refusal>(())
/// ```
pub fn hint(verdict: &Verdict, bytes: &[u8]) -> Option<&'static str> {
    let report = report_of(verdict);
    some(text(|text| unsafe { c::geolint_hint_text(&report, bytes.as_ptr(), bytes.len(), text) }))
}

/// The hint for an input that came in pieces: by its first 512 bytes, the last 256 before the place and 256 from it on, or as many as there
/// are; more are passed over. The place is the verdict's, and of a valid text that of the first W5. `levels` is what
/// [`Linter::levels`](crate::Linter::levels) returned before the end; of a record pass 1.
pub fn hint_around(verdict: &Verdict, levels: u32, head: &[u8], before: &[u8], after: &[u8]) -> Option<&'static str> {
    let report = report_of(verdict);
    some(text(|text| unsafe {
        c::geolint_hint_around(
            &report,
            levels,
            head.as_ptr(),
            head.len(),
            before.as_ptr(),
            before.len(),
            after.as_ptr(),
            after.len(),
            text,
        )
    }))
}
