//! Findings of features and records, and where a place stands, however a source is read.
use geolint::{Finding, Framing, Limits, Lines, Linter, Locator, Progress, Refusal, Verdict, features, hint, hint_around, records, report};
use std::error::Error;
use std::io::{self, Read};

const POINT: &str = r#"{"type":"Point","coordinates":[1,2]}"#;
const BOTH: &str = r#"{"type":"FeatureCollection","features":[7,{"type":"Feature","id":3,"geometry":null,"properties":null}]}"#;

/// Gives this many bytes at a time, and fails in the end where it is told to.
struct Slow<'a> {
    text: &'a [u8],
    size: usize,
    fails: bool,
}

impl Read for Slow<'_> {
    fn read(&mut self, room: &mut [u8]) -> io::Result<usize> {
        if self.text.is_empty() && self.fails {
            return Err(io::Error::new(io::ErrorKind::Other, "cut off"));
        }
        let count = self.size.min(room.len()).min(self.text.len());
        room[..count].copy_from_slice(&self.text[..count]);
        self.text = &self.text[count..];
        Ok(count)
    }
}

fn slow(text: &str, size: usize) -> Slow<'_> {
    Slow { text: text.as_bytes(), size, fails: false }
}

#[test]
fn features_in_pieces() -> Result<(), Box<dyn Error>> {
    let number = Finding { number: 0, place: 40, end: None, id: None, verdict: Verdict::Broken { rule: 1, place: 40 } };
    let feature = Finding { number: 1, place: 42, end: Some(101), id: Some(65), verdict: Verdict::Valid(vec![]) };
    for size in 1..200 {
        let mut found = features(slow(BOTH, size), Limits::default())?;
        let all: Vec<Finding> = found.by_ref().collect::<io::Result<_>>()?;
        assert_eq!(all, [number.clone(), feature.clone()]);
        assert_eq!(found.verdict(), Some(&Verdict::Broken { rule: 1, place: 40 }));
        assert!(found.next().is_none());
    }
    let mut refused = features(slow("[1,] ", 2), Limits::default())?;
    assert!(refused.next().is_none());
    assert_eq!(refused.verdict(), Some(&Verdict::NotJson { cause: 1, place: 3 }));
    let mut cut = features(Slow { text: &BOTH.as_bytes()[..50], size: 7, fails: true }, Limits::default())?;
    assert_eq!(cut.next().transpose()?, Some(number));
    assert!(matches!(cut.next(), Some(Err(_))) && cut.verdict().is_none());
    assert_eq!(features(slow("", 1), Limits { max_depth: 257, max_bytes: 0 }).err(), Some(Refusal::Limits));
    Ok(())
}

#[test]
fn records_in_pieces() -> Result<(), Box<dyn Error>> {
    let lines = format!("[1]\n\n{POINT}\n[");
    for size in 1..60 {
        let mut found = records(slow(&lines, size), Framing::Newlines, Limits::default())?;
        let all: Vec<(u64, u64, Option<u64>, bool)> =
            found.by_ref().map(|it| it.map(|it| (it.number, it.place, it.end, it.verdict.is_valid()))).collect::<io::Result<_>>()?;
        assert_eq!(all, [(1, 0, Some(3), false), (2, 5, Some(41), true), (3, 42, Some(43), false)]);
        assert_eq!(found.whole(), Some(&(Verdict::Broken { rule: 1, place: 0 }, 1)));
    }
    let sequence = format!("\x1e{POINT}\n\x1e{POINT}\n");
    let mut found = records(sequence.as_bytes(), Framing::Sequence, Limits::default())?;
    assert_eq!(found.by_ref().count(), 2);
    assert_eq!(found.whole(), Some(&(Verdict::Valid(vec![]), 2)));
    Ok(())
}

#[test]
fn places() -> Result<(), Box<dyn Error>> {
    let mut locator = Locator::new(Limits::default())?;
    assert_eq!(locator.feed(&BOTH.as_bytes()[..66]), Progress::Open);
    assert_eq!(locator.path(), "$.features[1].id");
    let mut lines = Lines::default();
    lines.feed("a\n\u{e9}".as_bytes());
    assert_eq!((lines.line(), lines.column()), (2, 2));
    let told = report(b"{\n\"type\":1}", Limits::default())?;
    assert_eq!((told.spot, told.path.as_deref()), (Some((2, 8)), Some("$.type")));
    assert_eq!(report(b"[1,\n]", Limits::default())?.to_string(), "2:1: not JSON: syntax");
    assert_eq!(report(POINT.as_bytes(), Limits::default())?.to_string(), "valid");
    Ok(())
}

#[test]
fn hints() -> Result<(), Box<dyn Error>> {
    let nan = br#"{"type":"Point","coordinates":[NaN,1]}"#;
    let told = report(nan, Limits::default())?;
    assert!(told.hint.map_or(false, |it| it.starts_with("JSON has no NaN")));
    assert_eq!(told.hint, hint(&told.verdict, nan));
    assert_eq!((report(POINT.as_bytes(), Limits::default())?.hint, report(b"", Limits::default())?.hint), (None, None));
    let swapped = br#"{"type":"Point","coordinates":[52.5,113.4]}"#;
    let told = report(swapped, Limits::default())?;
    assert!(told.verdict.is_valid() && told.hint.map_or(false, |it| it.starts_with("latitude and longitude")));
    let mut linter = Linter::new(Limits::default())?;
    assert_eq!((linter.feed(b"[[1"), linter.levels()), (Progress::Open, 2));
    assert_eq!((linter.feed(b"]] {"), linter.levels()), (Progress::Refused, 0));
    let verdict = linter.finish();
    assert!(hint_around(&verdict, 0, b"[[1]] {", b"[[1]] ", b"{").map_or(false, |it| it.starts_with("a second text")));
    assert_eq!(hint_around(&verdict, 1, b"[[1]] {", b"[[1]] ", b"{"), None);
    let beyond = Verdict::NotJson { cause: 1, place: u64::MAX };
    assert_eq!(hint(&beyond, b"[1,]"), None);
    Ok(())
}
