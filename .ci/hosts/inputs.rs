//! Says of each input of a file that inputs.py has written what the crate finds in it, piece by piece.
//!
//!     inputs FILE
use geolint::{Finding, Framing, Limits, Lines, Linter, Locator, Verdict, check, features, hint, hint_around, records, report};
use std::collections::BTreeMap;
use std::error::Error;
use std::io::{self, BufReader, BufWriter, Read, Write};
use std::{env, fs::File};

type Done = Result<(), Box<dyn Error>>;

/// An input: its bytes, and the lengths of its pieces.
struct Input {
    text: Vec<u8>,
    cuts: Vec<usize>,
}

/// Gives a piece at a time. An empty one would be taken for the end, and is passed over.
struct Pieces<'a> {
    text: &'a [u8],
    cuts: &'a [usize],
}

impl Read for Pieces<'_> {
    fn read(&mut self, room: &mut [u8]) -> io::Result<usize> {
        while let Some((0, rest)) = self.cuts.split_first() {
            self.cuts = rest;
        }
        let Some((count, rest)) = self.cuts.split_first() else { return Ok(0) };
        room[..*count].copy_from_slice(&self.text[..*count]);
        self.text = &self.text[*count..];
        self.cuts = rest;
        Ok(*count)
    }
}

impl Input {
    fn pieces(&self) -> Pieces<'_> {
        Pieces { text: &self.text, cuts: &self.cuts }
    }

    /// The place, its line and its column, and its path in the text that begins at `start`.
    fn spot(&self, start: u64, place: u64, is_json: bool) -> Result<String, Box<dyn Error>> {
        let mut lines = Lines::new();
        lines.feed(&self.text[..place as usize]);
        let mut path = String::from("-");
        if is_json {
            let mut locator = Locator::new(Limits::default())?;
            locator.feed(&self.text[start as usize..(place as usize + 1).min(self.text.len())]);
            path = locator.path();
        }
        Ok(format!("{} {}:{} {}", place, lines.line(), lines.column(), path))
    }

    /// What it is, with a number for records, and where its places stand.
    fn tell(&self, out: &mut dyn Write, word: &str, verdict: &Verdict, number: &str, starts: &BTreeMap<u32, u64>) -> Done {
        let start = |kind: u32| starts.get(&kind).copied().unwrap_or(0);
        match verdict {
            Verdict::Broken { rule, place } => writeln!(out, "{} G{}{} {}", word, rule, number, self.spot(start(0), *place, true)?)?,
            Verdict::NotJson { cause, place } => writeln!(out, "{} J{}{} {}", word, cause, number, self.spot(start(0), *place, false)?)?,
            Verdict::Valid(warnings) => {
                writeln!(out, "{} valid{}", word, number)?;
                for w in warnings {
                    writeln!(out, "W{} {} {}", w.kind, w.count, self.spot(start(w.kind), w.first, true)?)?;
                }
            }
        }
        Ok(())
    }

    fn tell_feature(&self, out: &mut dyn Write, it: &Finding) -> Done {
        match &it.verdict {
            Verdict::Broken { rule, place } => writeln!(out, "feature {} G{} {}", it.number, rule, self.spot(0, *place, true)?)?,
            Verdict::NotJson { .. } => writeln!(out, "feature {} is no JSON", it.number)?,
            Verdict::Valid(warnings) => {
                for w in warnings {
                    writeln!(out, "feature {} W{} {}", it.number, w.kind, self.spot(0, w.first, true)?)?;
                }
            }
        }
        Ok(())
    }

    /// The hint, by the bytes around the place.
    fn tell_hint(&self, out: &mut dyn Write, verdict: &Verdict, levels: u32) -> Result<Option<&'static str>, Box<dyn Error>> {
        let place = match verdict {
            Verdict::Broken { place, .. } | Verdict::NotJson { place, .. } => *place as usize,
            Verdict::Valid(warnings) => warnings.iter().find(|w| w.kind == 5).map_or(0, |w| w.first as usize),
        };
        let (before, after) = self.text.split_at(place);
        let found = hint_around(verdict, levels, &self.text[..self.text.len().min(512)], before, after);
        if let Some(text) = found {
            writeln!(out, "hint {}", text)?;
        }
        Ok(found)
    }

    fn tell_features(&self, out: &mut dyn Write) -> Done {
        let mut found = features(self.pieces(), Limits::default())?;
        let all: Vec<Finding> = found.by_ref().collect::<io::Result<_>>()?;
        let verdict = found.verdict().ok_or("no verdict")?;
        self.tell(out, "text", verdict, "", &BTreeMap::new())?;
        let mut linter = Linter::new(Limits::default())?;
        let mut rest = &self.text[..];
        for cut in &self.cuts {
            linter.feed(&rest[..*cut]);
            rest = &rest[*cut..];
        }
        let found_hint = self.tell_hint(out, verdict, linter.levels())?;
        if found_hint != hint(verdict, &self.text) || found_hint != report(&self.text, Limits::default())?.hint {
            writeln!(out, "another hint")?;
        }
        let limits = Limits::default();
        if linter.finish() != *verdict || check(&self.text, limits)? != *verdict || report(&self.text, limits)?.verdict != *verdict {
            writeln!(out, "another verdict")?;
        }
        if !matches!(verdict, Verdict::NotJson { .. }) {
            for finding in &all {
                self.tell_feature(out, finding)?;
            }
        }
        Ok(())
    }

    fn tell_records(&self, out: &mut dyn Write, word: &str, framing: Framing) -> Done {
        let mut starts = BTreeMap::new();
        let mut found = records(self.pieces(), framing, Limits::default())?;
        for it in found.by_ref() {
            let it = it?;
            match &it.verdict {
                Verdict::Valid(warnings) => warnings.iter().for_each(|w| {
                    starts.entry(w.kind).or_insert(it.place);
                }),
                _ => {
                    starts.entry(0).or_insert(it.place);
                }
            }
        }
        let (verdict, number) = found.whole().ok_or("no verdict")?;
        self.tell(out, word, verdict, &format!(" {}", number), &starts)?;
        if !verdict.is_valid() {
            self.tell_hint(out, verdict, 1)?;
        }
        Ok(())
    }
}

/// The next number; None at the end of the file.
fn number_in(file: &mut impl Read) -> io::Result<Option<usize>> {
    let mut bytes = [0; 4];
    match file.read_exact(&mut bytes) {
        Err(error) if error.kind() == io::ErrorKind::UnexpectedEof => Ok(None),
        read => read.map(|()| Some(u32::from_le_bytes(bytes) as usize)),
    }
}

fn next_input(file: &mut impl Read) -> Result<Option<Input>, Box<dyn Error>> {
    let Some(size) = number_in(file)? else { return Ok(None) };
    let count = number_in(file)?.ok_or("cut off")?;
    let cuts = (0..count).map(|_| number_in(file)?.ok_or_else(|| "cut off".into())).collect::<Result<_, Box<dyn Error>>>()?;
    let mut text = vec![0; size];
    file.read_exact(&mut text)?;
    Ok(Some(Input { text, cuts }))
}

fn main() -> Done {
    let mut file = BufReader::new(File::open(env::args().nth(1).ok_or("a file is due")?)?);
    let mut out = BufWriter::new(io::stdout().lock());
    let mut number = 0;
    while let Some(input) = next_input(&mut file)? {
        writeln!(out, "{}", number)?;
        input.tell_features(&mut out)?;
        input.tell_records(&mut out, "sequence", Framing::Sequence)?;
        input.tell_records(&mut out, "newlines", Framing::Newlines)?;
        number += 1;
    }
    Ok(out.flush()?)
}
