//! What is found in the features of a text, and in the records of an input.

use crate::{Limits, Refusal, Room, Verdict, begun, c, verdict_of};
use std::ffi::c_void;
use std::io::{self, ErrorKind, Read};

/// How much is read at a time.
const PIECE: usize = 65536;

/// What is found in a feature or in a record. Places are byte offsets from the start of the input.
#[derive(Clone, Debug, PartialEq, Eq)]
pub struct Finding {
    /// Of a feature: how many stand before it. A record is counted from 1; 0 is what stands before the first RS of a sequence.
    pub number: u64,
    /// The place of its first byte.
    pub place: u64,
    /// The place after its last byte; None of a feature that is no object and no array.
    pub end: Option<u64>,
    /// The place of the value of the feature's first member `id`, where it has one.
    pub id: Option<u64>,
    /// What it is.
    pub verdict: Verdict,
}

fn finding_of(told: &c::Finding) -> Option<Finding> {
    let some = |place: u64| Some(place).filter(|place| *place > 0);
    let verdict = verdict_of(&told.report)?;
    Some(Finding { number: told.number, place: told.place, end: some(told.end), id: some(told.id), verdict })
}

/// The calls on a handle that reports findings.
struct Calls {
    feed: unsafe fn(*mut c_void, *const u8, usize) -> c::Progress,
    next: unsafe fn(*mut c_void) -> c::Finding,
}

/// Reads a source and pulls findings.
struct Pull<R> {
    room: Room,
    calls: Calls,
    source: R,
    piece: Vec<u8>,
    from: usize,
    to: usize,
    /// No more is read.
    ended: bool,
}

impl<R: Read> Pull<R> {
    fn new(source: R, room: Room, calls: Calls) -> Pull<R> {
        Pull { room, calls, source, piece: vec![0; PIECE], from: 0, to: 0, ended: false }
    }

    fn ready(&mut self) -> Option<Finding> {
        finding_of(&unsafe { (self.calls.next)(self.room.at()) })
    }

    /// The next finding; None once all bytes were read that matter.
    fn next(&mut self) -> io::Result<Option<Finding>> {
        loop {
            if let Some(found) = self.ready() {
                return Ok(Some(found));
            }
            if self.ended {
                return Ok(None);
            }
            if self.from == self.to {
                let count = match self.source.read(&mut self.piece) {
                    Err(error) if error.kind() == ErrorKind::Interrupted => continue,
                    count => count?,
                };
                (self.from, self.to) = (0, count);
                self.ended = count == 0;
            }
            let rest = &self.piece[self.from..self.to];
            let told = unsafe { (self.calls.feed)(self.room.at(), rest.as_ptr(), rest.len()) };
            self.from += told.taken as usize;
            self.ended |= told.status == c::REFUSED;
        }
    }
}

/// An iterator over the findings of the features of a text, by [`features`].
pub struct Features<R> {
    pull: Pull<R>,
    verdict: Option<Verdict>,
}

/// What is found in each feature of a text, as soon as the feature has ended. A feature is an element of the array that the first member
/// `features` of the text's object holds. The text is read as the findings are asked for, and no further once it is refused.
///
/// ```
/// use geolint::{features, Limits};
///
/// # fn main() -> std::io::Result<()> {
/// let text = br#"{"type":"FeatureCollection","features":[{"type":"Feature","geometry":null,"properties":null},{"type":"Feature"}]}"#;
/// let mut found = features(&text[..], Limits::default())?;
/// let broken: Vec<u64> = found.by_ref().filter_map(|it| it.ok()).filter(|it| !it.verdict.is_valid()).map(|it| it.number).collect();
/// assert_eq!(broken, [1]);
/// assert_eq!(found.verdict().unwrap().to_string(), "broken G6 at 93: geometry missing");
/// # Ok(())
/// # }
/// ```
///
/// # Errors
///
/// [`Refusal::Limits`] where the limits are not allowed, [`Refusal::Memory`] where there is no memory.
pub fn features<R: Read>(source: R, limits: Limits) -> Result<Features<R>, Refusal> {
    let room = Room::new(unsafe { c::geolint_features_size() })?;
    begun(unsafe { c::geolint_features_begin(room.at(), limits.max_depth, limits.max_bytes) })?;
    let calls = Calls { feed: |at, bytes, length| unsafe { c::geolint_features_feed(at, bytes, length) }, next: |at| unsafe { c::geolint_features_next(at) } };
    Ok(Features { pull: Pull::new(source, room, calls), verdict: None })
}

impl<R> Features<R> {
    /// The verdict of the whole text, once the findings have ended.
    pub fn verdict(&self) -> Option<&Verdict> {
        self.verdict.as_ref()
    }
}

impl<R: Read> Iterator for Features<R> {
    type Item = io::Result<Finding>;

    fn next(&mut self) -> Option<io::Result<Finding>> {
        if let Some(found) = self.pull.next().transpose() {
            return Some(found);
        }
        if self.verdict.is_none() {
            self.verdict = verdict_of(&unsafe { c::geolint_features_finish(self.pull.room.at()) });
        }
        None
    }
}

/// How the texts of an input are set apart.
#[derive(Clone, Copy, Debug, PartialEq, Eq)]
pub enum Framing {
    /// RS stands before each text and LF at its end: a text sequence (RFC 8142).
    Sequence,
    /// Each line is a text; a line of white space alone is none.
    Newlines,
}

/// An iterator over the findings of the records of an input, by [`records`].
pub struct Records<R> {
    pull: Pull<R>,
    whole: Option<(Verdict, u64)>,
}

/// What is found in each record of an input, as soon as the record has ended. One that is not valid does not end the reading.
///
/// ```
/// use geolint::{records, Framing, Limits};
///
/// # fn main() -> std::io::Result<()> {
/// let text = b"{\"type\":\"Point\",\"coordinates\":[1,2]}\n[1,]\n";
/// let mut found = records(&text[..], Framing::Newlines, Limits::default())?;
/// let told: Vec<String> = found.by_ref().map(|it| it.map(|it| format!("{}: {}", it.number, it.verdict))).collect::<Result<_, _>>()?;
/// assert_eq!(told, ["1: valid", "2: not JSON at 40: syntax"]);
/// assert_eq!(found.whole().unwrap().1, 2);
/// # Ok(())
/// # }
/// ```
///
/// # Errors
///
/// As [`features`].
pub fn records<R: Read>(source: R, framing: Framing, limits: Limits) -> Result<Records<R>, Refusal> {
    let room = Room::new(unsafe { c::geolint_records_size() })?;
    begun(unsafe { c::geolint_records_begin(room.at(), framing as u32, limits.max_depth, limits.max_bytes) })?;
    let calls = Calls { feed: |at, bytes, length| unsafe { c::geolint_records_feed(at, bytes, length) }, next: |at| unsafe { c::geolint_records_next(at) } };
    Ok(Records { pull: Pull::new(source, room, calls), whole: None })
}

impl<R> Records<R> {
    /// What the input is as a whole, once the findings have ended, and how many records there are or which is the first that is not valid.
    pub fn whole(&self) -> Option<&(Verdict, u64)> {
        self.whole.as_ref()
    }
}

impl<R: Read> Iterator for Records<R> {
    type Item = io::Result<Finding>;

    fn next(&mut self) -> Option<io::Result<Finding>> {
        if let Some(found) = self.pull.next().transpose() {
            return Some(found);
        }
        if self.whole.is_none() {
            let whole = unsafe { c::geolint_records_finish(self.pull.room.at()) };
            self.whole = verdict_of(&whole.report).map(|verdict| (verdict, whole.number));
        }
        self.pull.ready().map(Ok)
    }
}
