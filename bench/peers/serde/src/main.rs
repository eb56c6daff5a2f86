//! serde_json on the whole of standard input, a file, which is read into memory first; nothing of the text is kept.
use serde::de::IgnoredAny;

fn main() -> Result<(), Box<dyn std::error::Error>> {
    let _: IgnoredAny = serde_json::from_slice(&std::fs::read("/dev/stdin")?)?;
    Ok(())
}
