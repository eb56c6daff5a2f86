//! How long Rust takes to read the same numbers as an `f64`.
use std::hint::black_box;
use std::time::Instant;

#[inline(never)]
fn as_float(text: &str) -> Option<f64> {
    text.parse().ok()
}

fn main() {
    for (digits, text) in [
        (7, "12.3456"),
        (17, "-122.41941550000001"),
        (30, "0.123456789012345678901234567891"),
    ] {
        let mut best = u128::MAX;
        for _ in 0..9 {
            let start = Instant::now();
            for _ in 0..1_000_000 {
                black_box(as_float(black_box(text)));
            }
            best = best.min(start.elapsed().as_nanos() * 1000 / 1_000_000);
        }
        println!("{digits}: f64 by Rust {best}");
    }
}
