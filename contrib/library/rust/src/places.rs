//! The line, the column and the path of a place.

use crate::{Limits, Linter, Progress, Refusal, Room, Verdict, begun, c};
use std::fmt;

/// Finds the path to a place: it is fed the bytes before the place, and the one that stands there.
pub struct Locator {
    room: Room,
}

impl Locator {
    /// Before the first byte of a text.
    ///
    /// # Errors
    ///
    /// [`Refusal::Limits`] where the limits are not allowed, [`Refusal::Memory`] where there is no memory.
    pub fn new(limits: Limits) -> Result<Locator, Refusal> {
        let room = Room::new(unsafe { c::geolint_locator_size() })?;
        begun(unsafe { c::geolint_locator_begin(room.at(), limits.max_depth, limits.max_bytes) })?;
        Ok(Locator { room })
    }

    /// Takes the next bytes.
    pub fn feed(&mut self, piece: &[u8]) -> Progress {
        match unsafe { c::geolint_locator_feed(self.room.at(), piece.as_ptr(), piece.len()) } {
            c::REFUSED => Progress::Refused,
            _ => Progress::Open,
        }
    }

    /// The path to the value that the bytes lead to, as `$.features[3].geometry`.
    pub fn path(&mut self) -> String {
        let mut path = String::from("$");
        for i in 0.. {
            let step = unsafe { c::geolint_locator_step(self.room.at(), i) };
            if step.size == 0 {
                break;
            }
            path.push_str(&String::from_utf8_lossy(&step.bytes[..step.size as usize]));
        }
        path
    }
}

/// Counts the line and the column of the place after the bytes that it is fed, each from 1.
#[derive(Clone, Copy)]
pub struct Lines {
    lines: c::Lines,
}

impl Lines {
    /// Before the first byte.
    pub fn new() -> Lines {
        Lines { lines: unsafe { c::geolint_lines_begin() } }
    }

    /// After these bytes more.
    pub fn feed(&mut self, piece: &[u8]) {
        self.lines = unsafe { c::geolint_lines_feed(self.lines, piece.as_ptr(), piece.len()) };
    }

    /// How many LF were fed, and 1.
    pub fn line(&self) -> u64 {
        self.lines.line
    }

    /// How many characters stand after the last LF, and 1.
    pub fn column(&self) -> u64 {
        self.lines.column
    }
}

impl Default for Lines {
    fn default() -> Lines {
        Lines::new()
    }
}

/// A verdict, and where its place stands.
#[derive(Clone, Debug, PartialEq, Eq)]
pub struct Report {
    /// What the text is.
    pub verdict: Verdict,
    /// The line and the column of the place, each from 1; None of a valid text.
    pub spot: Option<(u64, u64)>,
    /// The path of the value that breaks a rule.
    pub path: Option<String>,
    /// What the text looks like that is not valid, and of a valid text whose latitude and longitude look swapped.
    pub hint: Option<&'static str>,
}

/// As geolint-files has it in its lines.
impl fmt::Display for Report {
    fn fmt(&self, f: &mut fmt::Formatter<'_>) -> fmt::Result {
        if let Some((line, column)) = self.spot {
            write!(f, "{}:{}: ", line, column)?;
        }
        match &self.verdict {
            Verdict::Broken { rule, .. } => write!(f, "broken G{}: {}", rule, crate::rule_text(*rule))?,
            Verdict::NotJson { cause, .. } => write!(f, "not JSON: {}", crate::cause_text(*cause))?,
            valid => write!(f, "{}", valid)?,
        }
        match &self.path {
            Some(path) => write!(f, " ({})", path),
            None => Ok(()),
        }
    }
}

/// The verdict of a text in memory, with the line, the column and the path of its place, and the hint.
///
/// ```
/// let ring = b"{\"type\":\"Polygon\",\n\"coordinates\":[[[0,0],[1,0],[1,1],[0,0,0]]]}";
/// let report = geolint::report(ring, geolint::Limits::default())?;
/// assert_eq!(report.to_string(), "2:16: broken G15: ring not closed ($.coordinates[0])");
/// # Ok::<(), geolint::Refusal>(())
/// ```
///
/// # Errors
///
/// [`Refusal::Limits`] where the limits are not allowed, [`Refusal::Memory`] where there is no memory.
pub fn report(text: &[u8], limits: Limits) -> Result<Report, Refusal> {
    let mut linter = Linter::new(limits)?;
    linter.feed(text);
    let verdict = linter.finish();
    let hint = crate::hint(&verdict, text);
    let (place, is_broken) = match verdict {
        Verdict::Broken { place, .. } => (place as usize, true),
        Verdict::NotJson { place, .. } => (place as usize, false),
        Verdict::Valid(_) => return Ok(Report { verdict, spot: None, path: None, hint }),
    };
    let mut lines = Lines::new();
    lines.feed(&text[..place]);
    let mut locator = Locator::new(limits)?;
    locator.feed(&text[..(place + 1).min(text.len())]);
    let path = if is_broken { Some(locator.path()) } else { None };
    Ok(Report { verdict, spot: Some((lines.line(), lines.column())), path, hint })
}
