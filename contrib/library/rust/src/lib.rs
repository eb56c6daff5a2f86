//! Is a text GeoJSON (RFC 7946), and otherwise where and why not: geolint for Rust, over the library for C.
//!
//! [`check`] checks a text in memory. A [`Linter`] checks one that comes in pieces, also as an [`io::Write`], so that a download
//! can be checked while it is stored ([`Judging`]). [`features`] and [`records`] report what is found in each of them, [`report`]
//! gives the line, the column and the path, and [`hint`] says what a text that is not valid looks like.
//!
//! ```
//! use geolint::{check, Limits, Verdict};
//!
//! let verdict = check(br#"{"type":"Point","coordinates":[17.1,48.1]}"#, Limits::default())?;
//! assert_eq!(verdict, Verdict::Valid(vec![]));
//! let ring = br#"{"type":"Polygon","coordinates":[[[0,0],[1,0],[1,1],[0,0,0]]]}"#;
//! assert_eq!(check(ring, Limits::default())?.to_string(), "broken G15 at 33: ring not closed");
//! # Ok::<(), geolint::Refusal>(())
//! ```
//!
//! `build.rs` finds the library: in the folder that the variable `GEOLINT_LIB_DIR` names, otherwise by pkg-config. Places are byte
//! offsets from 0. It needs Rust 1.63; a crate of any edition may use it.
#![deny(missing_docs)]

use std::alloc::{Layout, alloc, dealloc};
use std::error::Error;
use std::ffi::{CStr, c_void};
use std::fmt;
use std::io;
use std::os::raw::c_char;
use std::ptr::NonNull;

mod findings;
mod hints;
mod places;

pub use findings::{Features, Finding, Framing, Records, features, records};
pub use hints::{hint, hint_around};
pub use places::{Lines, Locator, Report, report};

/// The header `geolint.h` in Rust's words.
mod c {
    use super::*;

    pub const DONE: u32 = 0;
    pub const REFUSED: u32 = 1;
    pub const VALID: u32 = 1;
    pub const BROKEN: u32 = 2;
    pub const NOT_JSON: u32 = 3;

    #[repr(C)]
    #[derive(Clone, Copy)]
    pub struct Warned {
        pub count: u64,
        pub first: u64,
    }

    #[repr(C)]
    #[derive(Clone, Copy)]
    pub struct Report {
        pub status: u32,
        pub verdict: u32,
        pub rule: u32,
        pub cause: u32,
        pub place: u64,
        pub warned: u64,
        pub warnings: [Warned; 9],
    }

    #[repr(C)]
    pub struct Progress {
        pub taken: u64,
        pub status: u32,
        pub ready: u32,
    }

    #[repr(C)]
    pub struct Finding {
        pub number: u64,
        pub place: u64,
        pub end: u64,
        pub id: u64,
        pub report: Report,
    }

    #[repr(C)]
    pub struct Whole {
        pub report: Report,
        pub number: u64,
    }

    #[repr(C)]
    pub struct Step {
        pub size: u64,
        pub bytes: [u8; 24],
    }

    #[repr(C)]
    #[derive(Clone, Copy)]
    pub struct Lines {
        pub line: u64,
        pub column: u64,
    }

    #[repr(C)]
    pub struct Text {
        pub bytes: *const c_char,
        pub size: usize,
    }

    /// Declares the calls, after the words for foreign code.
    macro_rules! declare {
        ($($words:tt)*) => {
            $($words)* {
                pub fn geolint_check(bytes: *const u8, length: usize, max_depth: u32, max_bytes: u64) -> Report;
                pub fn geolint_size() -> usize;
                pub fn geolint_alignment() -> usize;
                pub fn geolint_begin(linter: *mut c_void, max_depth: u32, max_bytes: u64) -> u32;
                pub fn geolint_begin_again(linter: *mut c_void, max_depth: u32, max_bytes: u64) -> u32;
                pub fn geolint_feed(linter: *mut c_void, bytes: *const u8, length: usize) -> u32;
                pub fn geolint_doomed(linter: *mut c_void) -> u32;
                pub fn geolint_offset(linter: *mut c_void) -> u64;
                pub fn geolint_levels(linter: *mut c_void) -> u32;
                pub fn geolint_finish(linter: *mut c_void) -> Report;
                pub fn geolint_features_size() -> usize;
                pub fn geolint_features_begin(features: *mut c_void, max_depth: u32, max_bytes: u64) -> u32;
                pub fn geolint_features_feed(features: *mut c_void, bytes: *const u8, length: usize) -> Progress;
                pub fn geolint_features_next(features: *mut c_void) -> Finding;
                pub fn geolint_features_finish(features: *mut c_void) -> Report;
                pub fn geolint_records_size() -> usize;
                pub fn geolint_records_begin(records: *mut c_void, framing: u32, max_depth: u32, max_bytes: u64) -> u32;
                pub fn geolint_records_feed(records: *mut c_void, bytes: *const u8, length: usize) -> Progress;
                pub fn geolint_records_next(records: *mut c_void) -> Finding;
                pub fn geolint_records_finish(records: *mut c_void) -> Whole;
                pub fn geolint_locator_size() -> usize;
                pub fn geolint_locator_begin(locator: *mut c_void, max_depth: u32, max_bytes: u64) -> u32;
                pub fn geolint_locator_feed(locator: *mut c_void, bytes: *const u8, length: usize) -> u32;
                pub fn geolint_locator_step(locator: *mut c_void, step: u32) -> Step;
                pub fn geolint_lines_begin() -> Lines;
                pub fn geolint_lines_feed(lines: Lines, bytes: *const u8, length: usize) -> Lines;
                pub fn geolint_rule_text(rule: u32, text: *mut Text);
                pub fn geolint_cause_text(cause: u32, text: *mut Text);
                pub fn geolint_warning_text(kind: u32, text: *mut Text);
                pub fn geolint_version_text(text: *mut Text);
                pub fn geolint_hint_text(report: *const Report, bytes: *const u8, length: usize, text: *mut Text);
                pub fn geolint_hint_around(
                    report: *const Report,
                    levels: u32,
                    head: *const u8,
                    head_size: usize,
                    before: *const u8,
                    before_size: usize,
                    after: *const u8,
                    after_size: usize,
                    text: *mut Text,
                );
            }
        };
    }
    #[cfg(not(geolint_before_rust_1_82))]
    declare!(unsafe extern "C");
    #[cfg(geolint_before_rust_1_82)]
    declare!(extern "C");
}

/// How deep a text may nest, and how many bytes it may have; 0 stands for the most that can be.
#[derive(Clone, Copy, Debug, Default, PartialEq, Eq)]
pub struct Limits {
    /// How many arrays and objects may be open inside each other, from 1 to 256.
    pub max_depth: u32,
    /// How many bytes a text may have, from 1 to 2^60.
    pub max_bytes: u64,
}

/// Why there is no linter, or no verdict.
#[derive(Clone, Copy, Debug, PartialEq, Eq)]
pub enum Refusal {
    /// The depth may be from 1 to 256 and the number of bytes from 1 to 2^60.
    Limits,
    /// There is no memory for a linter.
    Memory,
}

impl fmt::Display for Refusal {
    fn fmt(&self, f: &mut fmt::Formatter<'_>) -> fmt::Result {
        f.write_str(match self {
            Refusal::Limits => "a depth is from 1 to 256, and a number of bytes from 1 to 2^60",
            Refusal::Memory => "no memory for a linter",
        })
    }
}

impl Error for Refusal {}

impl From<Refusal> for io::Error {
    fn from(refusal: Refusal) -> io::Error {
        let kind = match refusal {
            Refusal::Limits => io::ErrorKind::InvalidInput,
            Refusal::Memory => io::ErrorKind::OutOfMemory,
        };
        io::Error::new(kind, refusal)
    }
}

/// The warnings of one kind.
#[derive(Clone, Copy, Debug, PartialEq, Eq)]
pub struct Warning {
    /// The number in the kind's name, 1 to 9.
    pub kind: u32,
    /// How many there are; it stays at 4294967295.
    pub count: u64,
    /// The place of the first, as a byte offset.
    pub first: u64,
}

/// What a text is. Places are byte offsets.
#[derive(Clone, Debug, PartialEq, Eq)]
pub enum Verdict {
    /// A GeoJSON text, and of each kind of warning that there is how many.
    Valid(Vec<Warning>),
    /// A JSON text that breaks the rule of this number, 1 to 21.
    Broken {
        /// The number in the rule's name.
        rule: u32,
        /// The byte offset of what breaks it.
        place: u64,
    },
    /// No JSON text within the limits, by the cause of this number, 1 to 4.
    NotJson {
        /// 1 syntax, 2 truncated, 3 too deep, 4 too long.
        cause: u32,
        /// The byte offset at which no text goes on.
        place: u64,
    },
}

impl Verdict {
    /// Whether it is a GeoJSON text, perhaps with warnings.
    pub fn is_valid(&self) -> bool {
        matches!(self, Verdict::Valid(_))
    }

    /// The warnings of a valid text, and any other verdict as an error.
    ///
    /// ```
    /// use geolint::{check, Limits};
    /// use std::error::Error;
    ///
    /// fn warnings(text: &[u8]) -> Result<usize, Box<dyn Error>> {
    ///     Ok(check(text, Limits::default())?.into_result()?.len())
    /// }
    /// assert_eq!(warnings(b"{\"type\":\"Point\",\"coordinates\":[1,2]}").unwrap(), 0);
    /// assert_eq!(warnings(b"[1,]").unwrap_err().to_string(), "not JSON at 3: syntax");
    /// ```
    ///
    /// # Errors
    ///
    /// [`Invalid`] where the text is not valid.
    pub fn into_result(self) -> Result<Vec<Warning>, Invalid> {
        match self {
            Verdict::Valid(warnings) => Ok(warnings),
            verdict => Err(Invalid(verdict)),
        }
    }
}

/// A text that is not valid, as an error: its verdict.
#[derive(Clone, Debug, PartialEq, Eq)]
pub struct Invalid(Verdict);

impl Invalid {
    /// Which rule is broken, or why it is no JSON text, and where.
    pub fn verdict(&self) -> &Verdict {
        &self.0
    }
}

impl fmt::Display for Invalid {
    fn fmt(&self, f: &mut fmt::Formatter<'_>) -> fmt::Result {
        self.0.fmt(f)
    }
}

impl Error for Invalid {}

impl From<Invalid> for io::Error {
    fn from(invalid: Invalid) -> io::Error {
        io::Error::new(io::ErrorKind::InvalidData, invalid)
    }
}

/// The lines of the program's report.
impl fmt::Display for Verdict {
    fn fmt(&self, f: &mut fmt::Formatter<'_>) -> fmt::Result {
        match self {
            Verdict::Valid(warnings) => {
                f.write_str("valid")?;
                for w in warnings {
                    write!(f, "\nwarning W{} count {} first {}: {}", w.kind, w.count, w.first, warning_text(w.kind))?;
                }
                Ok(())
            }
            Verdict::Broken { rule, place } => write!(f, "broken G{} at {}: {}", rule, place, rule_text(*rule)),
            Verdict::NotJson { cause, place } => write!(f, "not JSON at {}: {}", place, cause_text(*cause)),
        }
    }
}

/// What a piece of an input shows.
#[derive(Clone, Copy, Debug, PartialEq, Eq)]
pub enum Progress {
    /// The bytes so far begin a JSON text within the depth, and are no more than allowed.
    Open,
    /// It is refused, and so is every input that begins so.
    Refused,
}

fn verdict_of(report: &c::Report) -> Option<Verdict> {
    match report.verdict {
        c::VALID => {
            let all = (1..).zip(&report.warnings);
            let noted = all.filter(|(_, warned)| warned.count > 0);
            let warnings = noted.map(|(kind, warned)| Warning { kind, count: warned.count, first: warned.first });
            Some(Verdict::Valid(warnings.collect()))
        }
        c::BROKEN => Some(Verdict::Broken { rule: report.rule, place: report.place }),
        c::NOT_JSON => Some(Verdict::NotJson { cause: report.cause, place: report.place }),
        _ => None,
    }
}

/// Checks a text in memory. As measured it needs 208 KiB of stack; on a smaller one, and for many deep texts, take a [`Linter`].
///
/// # Errors
///
/// [`Refusal::Limits`] where the limits are not allowed.
pub fn check(text: &[u8], limits: Limits) -> Result<Verdict, Refusal> {
    // A slice's pointer is never null.
    let report = unsafe { c::geolint_check(text.as_ptr(), text.len(), limits.max_depth, limits.max_bytes) };
    verdict_of(&report).ok_or(Refusal::Limits)
}

/// Checks a text that comes in pieces.
///
/// ```
/// use geolint::{Limits, Linter, Progress};
///
/// let mut linter = Linter::new(Limits::default())?;
/// assert_eq!(linter.feed(br#"{"type":"Point","#), Progress::Open);
/// assert_eq!(linter.feed(br#""coordinates":[1,2]}"#), Progress::Open);
/// assert!(linter.finish().is_valid());
/// # Ok::<(), geolint::Refusal>(())
/// ```
///
/// As a writer it takes what `io::copy` reads:
///
/// ```
/// # fn main() -> std::io::Result<()> {
/// let mut linter = geolint::Linter::new(geolint::Limits::default())?;
/// std::io::copy(&mut &b"[1 2]"[..], &mut linter)?;
/// assert_eq!(linter.finish().to_string(), "not JSON at 3: syntax");
/// # Ok(())
/// # }
/// ```
pub struct Linter {
    room: Room,
}

/// The memory of a linter or another handle, in which the library's calls find it.
struct Room {
    memory: NonNull<u8>,
    layout: Layout,
}

// It owns its memory, the library keeps nothing else, and each call takes it by `&mut`. What lies in that memory is of a type
// that is `Send` in the library's own language, which the check of `may_move` there sees.
unsafe impl Send for Room {}

impl Room {
    fn new(size: usize) -> Result<Room, Refusal> {
        let layout = Layout::from_size_align(size, unsafe { c::geolint_alignment() }).map_err(|_| Refusal::Memory)?;
        let memory = NonNull::new(unsafe { alloc(layout) }).ok_or(Refusal::Memory)?;
        Ok(Room { memory, layout })
    }

    fn at(&self) -> *mut c_void {
        self.memory.as_ptr().cast()
    }
}

impl Drop for Room {
    fn drop(&mut self) {
        unsafe { dealloc(self.memory.as_ptr(), self.layout) }
    }
}

/// What a call that begins something answers.
fn begun(status: u32) -> Result<(), Refusal> {
    if status == c::DONE { Ok(()) } else { Err(Refusal::Limits) }
}

impl Linter {
    /// Takes the memory of a linter, once, and begins it before the first byte of a text.
    ///
    /// # Errors
    ///
    /// [`Refusal::Limits`] where the limits are not allowed, [`Refusal::Memory`] where there is no memory.
    pub fn new(limits: Limits) -> Result<Linter, Refusal> {
        let room = Room::new(unsafe { c::geolint_size() })?;
        begun(unsafe { c::geolint_begin(room.at(), limits.max_depth, limits.max_bytes) })?;
        Ok(Linter { room })
    }

    fn at(&self) -> *mut c_void {
        self.room.at()
    }

    /// The verdict of all that was fed. Then the linter begins again in the same memory, which costs less than another one.
    ///
    /// # Errors
    ///
    /// [`Refusal::Limits`] where the limits are not allowed; then nothing changes.
    pub fn finish_and_begin(&mut self, limits: Limits) -> Result<Verdict, Refusal> {
        if limits.max_depth > 256 || limits.max_bytes > 1 << 60 {
            return Err(Refusal::Limits);
        }
        let report = unsafe { c::geolint_finish(self.at()) };
        unsafe { c::geolint_begin_again(self.at(), limits.max_depth, limits.max_bytes) };
        Ok(verdict_of(&report).expect("a linter is finished once"))
    }

    /// Takes the next bytes. Once it says that they are refused, the verdict is settled, and a host may stop reading.
    pub fn feed(&mut self, piece: &[u8]) -> Progress {
        match unsafe { c::geolint_feed(self.at(), piece.as_ptr(), piece.len()) } {
            c::REFUSED => Progress::Refused,
            _ => Progress::Open,
        }
    }

    /// No text that begins with the bytes fed is valid, as far as that is seen early.
    pub fn doomed(&mut self) -> bool {
        unsafe { c::geolint_doomed(self.at()) != 0 }
    }

    /// How many bytes were taken: the place of the refusal, once there was one.
    pub fn offset(&mut self) -> u64 {
        unsafe { c::geolint_offset(self.at()) }
    }

    /// How many arrays and objects are open after the bytes taken: what [`hint_around`] asks for, before the end.
    pub fn levels(&mut self) -> u32 {
        unsafe { c::geolint_levels(self.at()) }
    }

    /// The verdict of all that was fed.
    pub fn finish(self) -> Verdict {
        let report = unsafe { c::geolint_finish(self.at()) };
        verdict_of(&report).expect("a linter is finished once")
    }
}

/// A write never fails and takes all bytes, also of a text that is refused: the verdict says it at the end.
impl io::Write for Linter {
    fn write(&mut self, piece: &[u8]) -> io::Result<usize> {
        self.feed(piece);
        Ok(piece.len())
    }

    fn flush(&mut self) -> io::Result<()> {
        Ok(())
    }
}

/// Stores what is written, and checks what was stored.
///
/// ```
/// use geolint::{Judging, Limits, Linter};
///
/// # fn main() -> std::io::Result<()> {
/// let mut judging = Judging { linter: Linter::new(Limits::default())?, store: Vec::new() };
/// std::io::copy(&mut &br#"{"type":"Point","coordinates":[1,2]}"#[..], &mut judging)?;
/// assert!(judging.linter.finish().is_valid());
/// assert_eq!(judging.store.len(), 36);
/// # Ok(())
/// # }
/// ```
pub struct Judging<W> {
    /// Checks what was stored.
    pub linter: Linter,
    /// Where it is stored.
    pub store: W,
}

impl<W: io::Write> io::Write for Judging<W> {
    fn write(&mut self, piece: &[u8]) -> io::Result<usize> {
        let stored = self.store.write(piece)?;
        self.linter.feed(&piece[..stored]);
        Ok(stored)
    }

    fn flush(&mut self) -> io::Result<()> {
        self.store.flush()
    }
}

fn text(write: impl FnOnce(&mut c::Text)) -> &'static str {
    let mut text = c::Text { bytes: b"\0".as_ptr().cast(), size: 1 };
    write(&mut text);
    // The library's texts lie there for good, end with a byte 0, and are ASCII.
    unsafe { CStr::from_ptr(text.bytes) }.to_str().unwrap_or("")
}

/// What the rule of this number says; empty where there is none.
pub fn rule_text(rule: u32) -> &'static str {
    text(|text| unsafe { c::geolint_rule_text(rule, text) })
}

/// What the cause of this number says; empty where there is none.
pub fn cause_text(cause: u32) -> &'static str {
    text(|text| unsafe { c::geolint_cause_text(cause, text) })
}

/// What the kind of warning of this number says; empty where there is none.
pub fn warning_text(kind: u32) -> &'static str {
    text(|text| unsafe { c::geolint_warning_text(kind, text) })
}

/// The version of the library.
pub fn version() -> &'static str {
    text(|text| unsafe { c::geolint_version_text(text) })
}
