//! Copies standard input to a file while it is checked, and prints the report of `geolint stdin`: Rust with the crate `geolint`.
//!
//!     cargo new report && cd report && cargo add geolint --path $HOME/.local/share/geolint/rust
//!     cp ../report.rs src/main.rs && cargo run --release < map.geojson
//!     target/release/report [COPY]     without a copy, only the report
//!
//! The status is the program's: 0 valid, 1 not valid, 2 no verdict.
use geolint::{Judging, Limits, Linter, Verdict};
use std::fs::File;
use std::io::{self, Write};
use std::process::ExitCode;

fn checked() -> io::Result<Verdict> {
    let linter = Linter::new(Limits::default())?;
    let store: Box<dyn Write> = match std::env::args_os().nth(1) {
        Some(path) => Box::new(File::create(path)?),
        None => Box::new(io::sink()),
    };
    let mut judging = Judging { linter, store };
    io::copy(&mut io::stdin(), &mut judging)?;
    judging.flush()?;
    // A linter may be finished on another thread than it was begun on.
    let linter = judging.linter;
    std::thread::spawn(|| linter.finish()).join().map_err(|_| io::ErrorKind::Other.into())
}

fn main() -> ExitCode {
    match checked().and_then(|verdict| writeln!(io::stdout(), "{verdict}").map(|()| verdict)) {
        Ok(verdict) if verdict.is_valid() => ExitCode::from(0),
        Ok(_) => ExitCode::from(1),
        Err(error) => {
            eprintln!("{error}");
            ExitCode::from(2)
        }
    }
}
