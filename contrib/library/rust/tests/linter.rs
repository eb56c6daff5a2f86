//! What the crate offers beyond the examples in its documents.
use geolint::{Judging, Limits, Linter, Progress, Refusal, Verdict, Warning};
use std::error::Error;
use std::io::{self, Write};
use std::thread;

const POINT: &[u8] = br#"{"type":"Point","coordinates":[1,2]}"#;
const RING: &[u8] = br#"{"type":"Polygon","coordinates":[[[0,0],[1,0],[1,1],[0,0,0]]]}"#;
const OPEN_RING: Verdict = Verdict::Broken { rule: 15, place: 33 };

fn most(max_depth: u32, max_bytes: u64) -> Limits {
    Limits { max_depth, max_bytes }
}

fn goes_to_another_thread<T: Send + 'static>(_: &T) {}

#[test]
fn one_call() -> Result<(), Box<dyn Error>> {
    assert_eq!(geolint::check(POINT, Limits::default())?, Verdict::Valid(vec![]));
    assert_eq!(geolint::check(RING, Limits::default())?, OPEN_RING);
    assert_eq!(geolint::check(b"", Limits::default())?, Verdict::NotJson { cause: 2, place: 0 });
    assert_eq!(geolint::check(POINT, most(0, 10))?, Verdict::NotJson { cause: 4, place: 10 });
    assert_eq!(geolint::check(POINT, most(257, 0)), Err(Refusal::Limits));
    let marked = [b"\xEF\xBB\xBF", POINT].concat();
    let verdict = geolint::check(&marked, Limits::default())?;
    assert_eq!(verdict, Verdict::Valid(vec![Warning { kind: 1, count: 1, first: 0 }]));
    assert_eq!(verdict.to_string(), "valid\nwarning W1 count 1 first 0: byte order mark");
    assert!(verdict.is_valid() && !OPEN_RING.is_valid());
    assert_eq!(OPEN_RING.to_string(), "broken G15 at 33: ring not closed");
    assert_eq!(io::Error::from(Refusal::Limits).kind(), io::ErrorKind::InvalidInput);
    assert_eq!((geolint::rule_text(u32::MAX), geolint::cause_text(0), geolint::warning_text(u32::MAX)), ("", "", ""));
    let invalid = OPEN_RING.into_result().unwrap_err();
    assert_eq!((invalid.verdict(), invalid.to_string()), (&OPEN_RING, OPEN_RING.to_string()));
    assert_eq!(io::Error::from(invalid).kind(), io::ErrorKind::InvalidData);
    assert_eq!(verdict.into_result(), Ok(vec![Warning { kind: 1, count: 1, first: 0 }]));
    assert_eq!(geolint::version().split('.').count(), 3);
    Ok(())
}

#[test]
fn pieces() -> Result<(), Box<dyn Error>> {
    assert!(matches!(Linter::new(most(0, u64::MAX)), Err(Refusal::Limits)));
    let mut linter = Linter::new(Limits::default())?;
    goes_to_another_thread(&linter);
    assert_eq!(linter.feed(b""), Progress::Open);
    assert_eq!((linter.feed(b"[7 8"), linter.offset(), linter.doomed()), (Progress::Refused, 3, true));
    assert_eq!(linter.feed(b""), Progress::Refused);
    assert_eq!(linter.finish_and_begin(most(257, 0)), Err(Refusal::Limits));
    assert_eq!(linter.offset(), 3);
    assert_eq!(linter.finish_and_begin(most(2, 0))?, Verdict::NotJson { cause: 1, place: 3 });
    assert_eq!((linter.offset(), linter.doomed()), (0, false));
    linter.write_all(POINT)?;
    assert_eq!(linter.finish_and_begin(most(1, 0))?, Verdict::Valid(vec![]));
    linter.write_all(POINT)?;
    assert_eq!(linter.finish(), Verdict::NotJson { cause: 3, place: 30 });
    Ok(())
}

/// A store that takes three bytes at a time, and has room for some.
struct Small {
    room: usize,
    stored: Vec<u8>,
}

impl Write for Small {
    fn write(&mut self, piece: &[u8]) -> io::Result<usize> {
        let size = piece.len().min(3).min(self.room - self.stored.len());
        if size == 0 {
            return Err(io::ErrorKind::Other.into());
        }
        self.stored.extend(&piece[..size]);
        Ok(size)
    }

    fn flush(&mut self) -> io::Result<()> {
        Ok(())
    }
}

/// What is checked is what was stored, also where the store takes a part or fails.
#[test]
fn stored() -> Result<(), Box<dyn Error>> {
    let judging = |room| -> Result<_, Refusal> {
        let store = Small { room, stored: vec![] };
        Ok(Judging { linter: Linter::new(Limits::default())?, store })
    };
    let mut whole = judging(RING.len())?;
    io::copy(&mut &RING[..], &mut whole)?;
    assert_eq!((whole.store.stored.as_slice(), whole.linter.finish()), (RING, OPEN_RING));
    let mut full = judging(10)?;
    assert!(full.write_all(POINT).is_err());
    assert_eq!(full.linter.offset(), 10);
    assert_eq!(full.linter.finish(), Verdict::NotJson { cause: 2, place: 10 });
    Ok(())
}

/// Linters that were begun here, fed there and finished here.
#[test]
fn threads() -> Result<(), Box<dyn Error>> {
    let feed = |text: &'static [u8]| -> Result<_, Refusal> {
        let mut linter = Linter::new(Limits::default())?;
        Ok(thread::spawn(move || {
            for piece in text.chunks(7) {
                linter.feed(piece);
            }
            linter
        }))
    };
    let (point, ring) = (feed(POINT)?, feed(RING)?);
    assert_eq!(point.join().map_err(|_| "a thread")?.finish(), Verdict::Valid(vec![]));
    assert_eq!(ring.join().map_err(|_| "a thread")?.finish(), OPEN_RING);
    Ok(())
}
