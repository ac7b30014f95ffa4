//! figures FILE CALL COUNT: the least time of a call in nanoseconds, of nine rounds with COUNT calls each. CALL is `words` or
//! `digest`.
use capnp_canonical::{Limits, canonical_words, digest};
use std::hint::black_box;
use std::time::Instant;

fn main() {
    let words: Vec<String> = std::env::args().collect();
    let frame = std::fs::read(&words[1]).expect("a file");
    let calls: u32 = words[3].parse().expect("a number");
    let mut least = f64::INFINITY;
    for _ in 0..9 {
        let start = Instant::now();
        for _ in 0..calls {
            match words[2].as_str() {
                "words" => drop(black_box(canonical_words(black_box(&frame), Limits::default()).expect("a message"))),
                _ => drop(black_box(digest(black_box(&frame), Limits::default()).expect("a message"))),
            }
        }
        least = least.min(start.elapsed().as_nanos() as f64 / f64::from(calls));
    }
    println!("{least:.1}");
}
