//! Times `goes_on` beside `parse` of the same texts, and both over hostile texts of one size and of
//! twice that size.

use crate::{Call, answer, ours};
use std::hint::black_box;
use std::time::Instant;

/// The number of rounds over a shape.
const ROUNDS: usize = 100;

/// Returns the least time of a round over the texts, in nanoseconds per text.
pub fn least(call: Call, texts: &[&str]) -> f64 {
    let mut least = f64::INFINITY;
    for _ in 0..ROUNDS {
        let start = Instant::now();
        let mut sum = 0u64;
        for text in texts {
            sum = sum.wrapping_add(answer(call, black_box(text)));
        }
        black_box(sum);
        least = least.min(start.elapsed().as_nanos() as f64 / texts.len() as f64);
    }
    least
}

/// A name, and a function that returns a text of about a given length in bytes.
type Hostile = (&'static str, fn(usize) -> String);

const HOSTILE: &[Hostile] = &[
    ("backslashes in a string", |n| format!("\"{}", "\\".repeat(n))),
    ("quotes", |n| "\"".repeat(n)),
    ("hashes after an r", |n| format!("r{}", "#".repeat(n))),
    ("raw, quotes with 254 of 255 hashes", |n| {
        let nearly = format!("\"{}", "#".repeat(254));
        format!("r{}\"{}", "#".repeat(255), nearly.repeat(n / 255))
    }),
    ("underscores in hexadecimal", |n| format!("0x{}", "_".repeat(n))),
    ("underscores in an exponent", |n| format!("1e{}", "_".repeat(n))),
    ("underscores in an escape", |n| format!("\"\\u{{1{}", "_".repeat(n))),
    ("opening braces in an escape", |n| format!("'\\u{}", "{".repeat(n))),
    ("continuations", |n| format!("\"{}", "\\\n ".repeat(n / 3))),
    ("characters of four bytes, no end", |n| format!("\"{}", "\u{1F98A}".repeat(n / 4))),
    ("a suffix of two-byte letters", |n| format!("1{}", "\u{E9}".repeat(n / 2))),
];

/// Prints both tables.
pub fn main(rows: &[(&str, &str, &[&str])]) {
    println!("\nNanoseconds a text of `goes_on` and of `parse`, the least of {ROUNDS} rounds, and the ratio.");
    for (kind, name, texts) in rows {
        let times = [ours::goes_on as Call, ours::parse].map(|call| least(call, texts));
        println!("{kind:<11}{name:<32}{:>10.1}{:>10.1}{:>6.2}", times[0], times[1], times[0] / times[1]);
    }
    println!("\nHostile texts of 2^19 and 2^20 bytes: picoseconds a byte of `parse` and of `goes_on`.");
    for (name, text) in HOSTILE {
        print!("{name:<43}");
        for call in [ours::parse as Call, ours::goes_on] {
            for size in [1 << 19, 1 << 20] {
                let text = text(size);
                print!("{:>10.0}", 1000.0 * least(call, &[&text]) / text.len() as f64);
            }
        }
        println!();
    }
}
