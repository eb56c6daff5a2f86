//! What the plain copy of the libraries finds in texts and how fast, and whether the program finds the same.

use gj_coords::{KINDS, Kind, Warnings};
use gj_json::{Limits, Locator, Path};
use gj_rules::{Feature, FeatureLinter, FeatureSink, Framing, Linter, Record, RecordSink, Records, SeqVerdict, Sequence, Verdict};
use std::collections::BTreeMap;
use std::fmt::Write as _;
use std::io::{BufRead, BufReader, Read, Write};
use std::ops::Range;
use std::process::{Command, Stdio, exit};
use std::time::Instant;

const HELP: &str = "\
judge stdin [--seq]            the report on standard input, as `geolint stdin` writes it
judge time ROUNDS FILE..       MB/s of each file in memory, the best and the median of so many rounds
judge texts FIRST COUNT SEED.. what is found in changed texts, one a line: so many, from this number on
judge text NUMBER SEED..       the changed text of this number
judge fuzz OTHER FIRST COUNT SEED..
                               compares what is found in these texts with what OTHER finds, another build of this program
judge against PROGRAM FIRST COUNT SEED..
                               compares what `PROGRAM stdin` reports of these texts

A SEED is a file. A changed text is one of them with up to four changes, by its number alone.";

/// The most bytes of a read of the program.
const PIECE: usize = 8192;
const RECORD_SEPARATOR: u8 = 0x1E;

fn stop(why: impl std::fmt::Display) -> ! {
    eprintln!("judge: {why}");
    exit(2)
}

fn read(path: &str) -> Vec<u8> {
    std::fs::read(path).unwrap_or_else(|fault| stop(format!("{path}: {fault}")))
}

fn number(word: &str) -> usize {
    word.parse().unwrap_or_else(|_| stop(format!("{word} is no number\n{HELP}")))
}

// The report, as the program writes it.

fn warned(warnings: &Warnings) -> String {
    let line = |kind: Kind| {
        Some(format!(
            "warning W{} count {} first {}: {}\n",
            kind.number(),
            warnings.count(kind),
            warnings.first(kind)?,
            kind.text()
        ))
    };
    KINDS.into_iter().filter_map(line).collect()
}

fn report(verdict: Verdict) -> String {
    match verdict {
        Verdict::Valid(warnings) => format!("valid\n{}", warned(&warnings)),
        Verdict::Broken(fault) => format!("broken G{} at {}: {}\n", fault.rule.number(), fault.place, fault.rule.text()),
        Verdict::NotJson(fault) => format!("not JSON at {}: {}\n", fault.place, fault.cause.text()),
    }
}

fn sequence_report(verdict: SeqVerdict) -> String {
    match verdict {
        SeqVerdict::Valid { records, warnings } => format!("valid\nrecords {records}\n{}", warned(&warnings)),
        SeqVerdict::Record { number, verdict } => format!("record {number}\n{}", report(verdict)),
    }
}

fn path_text(path: Path) -> String {
    (0..path.len()).map(|i| format!("{:?} ", path.step(i))).collect()
}

/// A sink that calls.
struct Told<F>(F);

impl<F: FnMut(&Feature)> FeatureSink for Told<F> {
    fn tell_feature(&mut self, feature: &Feature) {
        (self.0)(feature)
    }
}

impl<F: FnMut(&Record)> RecordSink for Told<F> {
    fn tell_record(&mut self, found: &Record) {
        (self.0)(found)
    }
}

// The ways to check a text that comes in pieces.

type Pieces<'a> = dyn Iterator<Item = &'a [u8]> + 'a;

#[inline(never)]
fn check(pieces: &mut Pieces, limits: Limits) -> String {
    let mut linter = Linter::new(limits);
    pieces.for_each(|piece| drop(linter.feed(piece)));
    report(linter.finish())
}

#[inline(never)]
fn check_sequence(pieces: &mut Pieces, limits: Limits) -> String {
    let mut sequence = Sequence::new(limits);
    pieces.for_each(|piece| drop(sequence.feed(piece)));
    sequence_report(sequence.finish())
}

#[inline(never)]
fn check_features(pieces: &mut Pieces, limits: Limits, told: impl FnMut(&Feature)) -> String {
    let mut linter = FeatureLinter::new(limits, Told(told));
    pieces.for_each(|piece| drop(linter.feed(piece)));
    report(linter.end())
}

#[inline(never)]
fn check_records(pieces: &mut Pieces, framing: Framing, limits: Limits, told: impl FnMut(&Record)) -> String {
    let (mut records, mut sink) = (Records::new(framing, limits), Told(told));
    pieces.for_each(|piece| records.feed(piece, &mut sink));
    sequence_report(records.finish(&mut sink))
}

#[inline(never)]
fn locate(pieces: &mut Pieces, limits: Limits) -> String {
    let mut locator = Locator::new(limits);
    pieces.for_each(|piece| drop(locator.feed(piece)));
    path_text(locator.path())
}

fn judge_input(is_sequence: bool) -> String {
    let mut input = std::fs::File::open("/dev/stdin").unwrap_or_else(|fault| stop(fault));
    let (mut linter, mut sequence) = (Linter::new(Limits::usual()), Sequence::new(Limits::usual()));
    let mut piece = [0; PIECE];
    loop {
        match input.read(&mut piece).unwrap_or_else(|fault| stop(fault)) {
            0 if is_sequence => return sequence_report(sequence.finish()),
            0 => return report(linter.finish()),
            count if is_sequence => drop(sequence.feed(&piece[..count])),
            count => drop(linter.feed(&piece[..count])),
        }
    }
}

fn time(way: &str, rounds: usize, text: &[u8], mut once: impl FnMut(&mut Pieces)) {
    let round = |_| {
        let start = Instant::now();
        once(&mut text.chunks(PIECE));
        text.len() as f64 / start.elapsed().as_nanos() as f64 * 1e3
    };
    let mut rates: Vec<f64> = (0..rounds.max(1)).map(round).collect();
    rates.sort_by(f64::total_cmp);
    print!("; {way}: best {:.0} MB/s, median {:.0}", rates[rates.len() - 1], rates[rates.len() / 2]);
}

fn times(rounds: usize, path: &str) {
    let (text, limits, mut count) = (read(path), Limits::usual(), 0);
    print!("{path}");
    if text.first() == Some(&RECORD_SEPARATOR) {
        time("sequence", rounds, &text, |pieces| drop(check_sequence(pieces, limits)));
        time("records", rounds, &text, |pieces| drop(check_records(pieces, Framing::Sequence, limits, |_| count += 1)));
    } else {
        time("text", rounds, &text, |pieces| drop(check(pieces, limits)));
        time("features", rounds, &text, |pieces| drop(check_features(pieces, limits, |_| count += 1)));
        time("path", rounds, &text, |pieces| drop(locate(pieces, limits)));
    }
    println!("; {} features or records", count / rounds.max(1));
}

// Changed texts.

/// Numbers at the borders of what is told apart: the range, the digits that are kept, and the forms.
const NUMBERS: &str = "180 180.0 -180.0 180.00000001 -180.0000001 181.5 189.99 190.25 90.0 -90.0 90.0000001 -90.5 0.0 -0.0 00.5 \
    01.5 1. .5 -.5 - +1.5 5 -7 1e2 1.5E-3 1.5e 12.1234567 12.12345678 12.12345670 123.1234567890123 \
    12.123456700000000001 1.1234567890123456 0.00000001 1234.5 123456789012345.5 99999999999999999999.5 1.5.5 \
    1-2.5 --1.5";
const BYTES: &[u8] = b"0123456789..--,,[[]]{}eE+ \"\n:\x0B\x1E\x7F\\u\xC3\xA9\xE6\x9D\xF0\x80";

struct Random(u64);

impl Random {
    fn below(&mut self, count: usize) -> usize {
        self.0 ^= self.0 << 13;
        self.0 ^= self.0 >> 7;
        self.0 ^= self.0 << 17;
        ((self.0.wrapping_mul(0x2545_F491_4F6C_DD1D) >> 11) % count.max(1) as u64) as usize
    }
}

/// The first number at or after the index, or nothing at the end.
fn number_from(text: &[u8], at: usize) -> Range<usize> {
    let is_of_number = |byte: &u8| matches!(byte, b'0'..=b'9' | b'-' | b'.' | b'+' | b'e' | b'E');
    let is_first = |i: &usize| matches!(text[*i], b'0'..=b'9' | b'-') && (*i == 0 || !is_of_number(&text[*i - 1]));
    let start = (at..text.len()).find(is_first).unwrap_or(text.len());
    start..start + text[start..].iter().take_while(|byte| is_of_number(byte)).count()
}

/// One of the seeds with up to four changes: bytes put in, taken out, or repeated elsewhere, and numbers for others. In every other
/// text only numbers are changed, so that many stay valid.
fn changed(number: usize, seeds: &[Vec<u8>]) -> (Vec<u8>, Random) {
    let mut random = Random(0x9E37_79B9_7F4A_7C15 ^ (number as u64 + 1).wrapping_mul(0xD1B5_4A32_D192_ED03));
    (0..3).for_each(|_| drop(random.below(1)));
    let mut text = seeds[random.below(seeds.len())].clone();
    let numbers: Vec<&str> = NUMBERS.split(' ').collect();
    let kinds = 2 + 2 * random.below(2);
    for _ in 0..random.below(5) {
        let (at, from) = (random.below(text.len() + 1), random.below(text.len() + 1));
        let old = match random.below(kinds) {
            0 | 1 => number_from(&text, at),
            2 => at..at,
            _ => at..(at + 1 + random.below(20)).min(text.len()),
        };
        let new = match random.below(kinds) {
            0 => numbers[random.below(numbers.len())].as_bytes().to_vec(),
            1 => text[number_from(&text, from)].to_vec(),
            2 => text[from..(from + random.below(40)).min(text.len())].to_vec(),
            _ => vec![*BYTES.get(random.below(BYTES.len() + 9)).unwrap_or(&(random.below(256) as u8))],
        };
        text.splice(old, new);
    }
    (text, random)
}

/// The text in one piece or in pieces of up to 600 bytes.
fn cut<'a>(mut rest: &'a [u8], random: &mut Random) -> Vec<&'a [u8]> {
    let in_one = random.below(2) == 0;
    let mut pieces = Vec::new();
    while !rest.is_empty() {
        let count = if in_one { rest.len() } else { 1 + random.below(rest.len().min(600)) };
        let (piece, after) = rest.split_at(count);
        pieces.push(piece);
        rest = after;
    }
    pieces
}

/// All that is found in the changed text of this number, in one line.
fn found(number: usize, seeds: &[Vec<u8>]) -> String {
    let (text, mut random) = changed(number, seeds);
    let few = Limits::new(1 + random.below(8) as u16, 1 + random.below(text.len() + 9) as u64);
    let limits = few.filter(|_| random.below(8) == 0).unwrap_or(Limits::usual());
    let pieces = cut(&text, &mut random);
    let pieces = || Box::new(pieces.iter().copied()) as Box<Pieces>;
    let mut line = check(&mut pieces(), limits);
    let mut told = String::new();
    let verdict = check_features(&mut pieces(), limits, |it| {
        let _ = write!(told, "{} {} {:?} {:?} {:?} {} ", it.index, it.place, it.close, it.id, it.fault, warned(&it.warnings));
    });
    let _ = write!(line, "{told}{verdict}{}", check_sequence(&mut pieces(), limits));
    for framing in [Framing::Sequence, Framing::Lines] {
        let verdict = check_records(&mut pieces(), framing, limits, |it| {
            let _ = write!(line, "{} {} {} {} ", it.number, it.place, it.end, report(it.verdict));
        });
        line += &verdict;
    }
    line += &locate(&mut cut(&text[..random.below(text.len() + 1)], &mut random).into_iter(), limits);
    line.replace('\n', "; ")
}

/// What the program reports of a text, as a sequence where it begins as one.
fn program_report(program: &str, text: &[u8], is_sequence: bool) -> String {
    let mut command = Command::new(program);
    command.arg("stdin").args(is_sequence.then_some("--seq")).stdin(Stdio::piped()).stdout(Stdio::piped()).stderr(Stdio::null());
    let mut child = command.spawn().unwrap_or_else(|fault| stop(format!("{program}: {fault}")));
    // It may stop reading at a refusal.
    let _ = child.stdin.take().unwrap().write_all(text);
    let ended = child.wait_with_output().unwrap_or_else(|fault| stop(fault));
    String::from_utf8_lossy(&ended.stdout).into_owned()
}

/// Compares what is said of the changed texts of these numbers, and ends with status 1 where anything differs.
fn compare(numbers: Range<usize>, mut own: impl FnMut(usize) -> String, mut theirs: impl FnMut(usize) -> String) -> ! {
    let (mut kinds, mut differ) = (BTreeMap::new(), 0);
    for number in numbers.clone() {
        let (own, theirs) = (own(number), theirs(number));
        if own != theirs {
            differ += 1;
            let same = own.bytes().zip(theirs.bytes()).take_while(|(one, other)| one == other).count();
            let rest = |said: &str| String::from_utf8_lossy(&said.as_bytes()[same..said.len().min(same + 200)]).into_owned();
            println!(
                "text {number}, after {:?}: the copy says {:?}, the other {:?}",
                &own[..same.min(200)],
                rest(&own),
                rest(&theirs)
            );
        }
        *kinds.entry(own.split([' ', '\n', ';']).next().unwrap().to_string()).or_insert(0) += 1;
    }
    println!("texts {numbers:?}, by how what is said begins: {kinds:?}; {differ} differ");
    exit((differ > 0) as i32)
}

fn against(program: &str, numbers: Range<usize>, seeds: &[Vec<u8>]) -> ! {
    let is_sequence = |text: &[u8]| text.first() == Some(&RECORD_SEPARATOR);
    let own = |number| {
        let (text, mut random) = changed(number, seeds);
        let pieces = &mut cut(&text, &mut random).into_iter();
        if is_sequence(&text) { check_sequence(pieces, Limits::usual()) } else { check(pieces, Limits::usual()) }
    };
    let theirs = |number| {
        let text = changed(number, seeds).0;
        program_report(program, &text, is_sequence(&text))
    };
    compare(numbers, own, theirs)
}

/// Beside another build of this program, which prints what it finds.
fn fuzz(other: &str, numbers: Range<usize>, paths: &[&str], seeds: &[Vec<u8>]) -> ! {
    let mut command = Command::new(other);
    command.arg("texts").args([numbers.start, numbers.len()].map(|it| it.to_string())).args(paths).stdout(Stdio::piped());
    let mut child = command.spawn().unwrap_or_else(|fault| stop(format!("{other}: {fault}")));
    let mut lines = BufReader::new(child.stdout.take().unwrap()).lines();
    compare(numbers, |number| found(number, seeds), |_| lines.next().and_then(Result::ok).unwrap_or_default())
}

fn main() {
    let words: Vec<String> = std::env::args().skip(1).collect();
    let words: Vec<&str> = words.iter().map(String::as_str).collect();
    let seeds = |paths: &[&str]| paths.iter().map(|path| read(path)).collect::<Vec<_>>();
    let range = |first: &str, count: &str| number(first)..number(first) + number(count);
    match words[..] {
        ["stdin"] => print!("{}", judge_input(false)),
        ["stdin", "--seq"] => print!("{}", judge_input(true)),
        ["time", rounds, ref paths @ ..] => paths.iter().for_each(|path| times(number(rounds), path)),
        ["texts", first, count, ref paths @ ..] if !paths.is_empty() => {
            let seeds = seeds(paths);
            range(first, count).for_each(|number| println!("{}", found(number, &seeds)));
        }
        ["text", at, ref paths @ ..] if !paths.is_empty() => {
            drop(std::io::stdout().write_all(&changed(number(at), &seeds(paths)).0))
        }
        ["fuzz", other, first, count, ref paths @ ..] if !paths.is_empty() => {
            fuzz(other, range(first, count), paths, &seeds(paths))
        }
        ["against", program, first, count, ref paths @ ..] if !paths.is_empty() => {
            against(program, range(first, count), &seeds(paths))
        }
        _ => stop(format!("usage:\n{HELP}")),
    }
}
