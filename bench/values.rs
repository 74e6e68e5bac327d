//! Times the values of the numbers in sources: `litrs_value` beside Rust's `str::parse`. The latter
//! is called as in syn, which cuts the suffix and removes the underscores first.

use crate::{Call, answer, ours};
use std::borrow::Cow;
use std::hint::black_box;
use std::time::Instant;

/// The greatest number of texts of a row, and the number of rounds over them.
const TEXTS: usize = 20_000;
const ROUNDS: usize = 200;

/// The result if there is no value.
const NONE: u64 = u64::MAX;

/// Returns the text of `len` bytes at the address `text`.
#[inline(always)]
unsafe fn text<'a>(text: *const u8, len: usize) -> &'a str {
    unsafe { str::from_utf8_unchecked(std::slice::from_raw_parts(text, len)) }
}

/// Returns a float literal without its suffix, which begins with another letter than `e`.
#[inline(always)]
fn number_part(text: &str) -> &str {
    let is_of_number = |byte: u8| matches!(byte, b'0'..=b'9' | b'.' | b'_' | b'e' | b'E' | b'+' | b'-');
    let len = text.bytes().position(|byte| !is_of_number(byte)).unwrap_or(text.len());
    &text[..len]
}

/// Returns the text without its underscores. Copies it only if there is one.
#[inline(always)]
fn without_underscores(text: &str) -> Cow<'_, str> {
    if text.bytes().any(|byte| byte == b'_') { Cow::Owned(text.replace('_', "")) } else { Cow::Borrowed(text) }
}

/// Returns the bits of the value of a float literal.
unsafe extern "C" fn float(at: *const u8, len: usize) -> u64 {
    let number = without_underscores(number_part(unsafe { text(at, len) }));
    number.parse::<f64>().map_or(NONE, f64::to_bits)
}

/// Like [`float`], but always copies the digits, as syn does.
unsafe extern "C" fn float_copied(at: *const u8, len: usize) -> u64 {
    let mut number = number_part(unsafe { text(at, len) }).to_string();
    number.retain(|c| c != '_');
    number.parse::<f64>().map_or(NONE, f64::to_bits)
}

/// Returns the value of an integer literal that has no suffix or the suffix `u32`.
unsafe extern "C" fn integer(at: *const u8, len: usize) -> u64 {
    let text = unsafe { text(at, len) };
    let text = text.strip_suffix("u32").unwrap_or(text);
    let (digits, base) = match text.as_bytes() {
        [b'0', b'x', ..] => (&text[2..], 16),
        [b'0', b'o', ..] => (&text[2..], 8),
        [b'0', b'b', ..] => (&text[2..], 2),
        _ => (text, 10),
    };
    u32::from_str_radix(&without_underscores(digits), base).map_or(NONE, u64::from)
}

/// Calls only `str::parse`, for digits that need no change.
unsafe extern "C" fn float_alone(at: *const u8, len: usize) -> u64 {
    unsafe { text(at, len) }.parse::<f64>().map_or(NONE, f64::to_bits)
}

unsafe extern "C" fn integer_alone(at: *const u8, len: usize) -> u64 {
    unsafe { text(at, len) }.parse::<u32>().map_or(NONE, u64::from)
}

/// Returns the least nanoseconds per text of each call. The calls take turns.
fn time<const N: usize>(texts: &[&str], calls: [Call; N]) -> [f64; N] {
    let mut least = [f64::INFINITY; N];
    for _ in 0..ROUNDS {
        for (least, call) in least.iter_mut().zip(calls) {
            let start = Instant::now();
            let mut sum = 0u64;
            for text in texts {
                sum = sum.wrapping_add(answer(call, black_box(text)));
            }
            black_box(sum);
            *least = least.min(start.elapsed().as_nanos() as f64 / texts.len() as f64);
        }
    }
    least
}

/// Returns the literals of the sources that begin with a digit, as they are written.
fn numbers(sources: &[String]) -> Vec<&str> {
    let mut found = Vec::new();
    for source in sources {
        let mut rest = source.as_str();
        while !rest.is_empty() {
            let len = (answer(ours::token, rest) & ((1 << 56) - 1)) as usize;
            let (token, after) = rest.split_at(len);
            if token.starts_with(|c: char| c.is_ascii_digit()) {
                found.push(token);
            }
            rest = after;
        }
    }
    found
}

/// The name of a row, a test for its literals, our call and Rust's.
type Row = (&'static str, fn(&str) -> bool, Call, Call);

const ROWS: &[Row] = &[
    ("float", |_| true, ours::float, float),
    ("float, suffix or underscore", |text| !is_plain(text), ours::float, float),
    ("float, beside a copy in any case", |_| true, ours::float, float_copied),
    ("float, beside str::parse alone", is_plain, ours::float, float_alone),
    ("read::<f64> of a float", |text| answer(ours::float, text) != NONE, ours::read_f64, float),
    ("read::<u32>", |_| true, ours::read_u32, integer),
    ("read::<u32>, beside str::parse alone", is_plain, ours::read_u32, integer_alone),
];

/// Returns `true` if `str::parse` accepts the text without a change.
fn is_plain(text: &str) -> bool {
    text.bytes().all(|byte| matches!(byte, b'0'..=b'9' | b'.' | b'e' | b'E' | b'+' | b'-'))
}

/// Prints the rows of the numbers in the sources.
pub fn main(name: &str, sources: &[String]) {
    let found = numbers(sources);
    println!("\nNanoseconds a number of {name} sources, by litrs_value and by Rust's str::parse.\n");
    println!("{:<38}{:>8}{:>8}{:>10}{:>10}{:>7}", "call", "texts", "bytes", "ours", "Rust's", "ratio");
    for (row, is_of_row, ours, rust) in ROWS {
        let has_value = |text: &&&str| is_of_row(text) && answer(*ours, text) != NONE;
        let texts: Vec<&str> = found.iter().filter(has_value).take(TEXTS).copied().collect();
        if texts.is_empty() {
            continue;
        }
        for text in &texts {
            assert_eq!(answer(*ours, text), answer(*rust, text), "the value of {text}");
        }
        let [ours, rust] = time(&texts, [*ours, *rust]);
        let bytes = texts.iter().map(|text| text.len()).sum::<usize>() as f64 / texts.len() as f64;
        println!("{row:<38}{:>8}{bytes:>8.1}{ours:>10.1}{rust:>10.1}{:>7.2}", texts.len(), ours / rust);
    }
    let has_value = |text: &&&str| answer(ours::float, text) != NONE;
    let floats: Vec<&str> = found.iter().filter(has_value).take(TEXTS).copied().collect();
    let [parts] = time(&floats, [ours::float_parts]);
    println!("FloatLit::parse alone: {parts:.1}");
}
