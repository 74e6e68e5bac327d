//! Times literals that `litrs_build` writes, beside Rust's `format!` of the value: `{:?}`, and `{}`
//! for an integer.

use crate::{Call, answer, ours};
use std::hint::black_box;
use std::time::Instant;

/// The number of values of a row, and of rounds over them.
const VALUES: usize = 200;
const ROUNDS: usize = 300;

/// Returns the text of `len` bytes at an address.
#[inline(always)]
unsafe fn text<'a>(text: *const u8, len: usize) -> &'a str {
    unsafe { str::from_utf8_unchecked(std::slice::from_raw_parts(text, len)) }
}

unsafe extern "C" fn debug(at: *const u8, len: usize) -> u64 {
    black_box(format!("{:?}", unsafe { text(at, len) })).len() as u64
}

unsafe extern "C" fn escape_ascii(at: *const u8, len: usize) -> u64 {
    black_box(format!("b\"{}\"", unsafe { text(at, len) }.as_bytes().escape_ascii())).len() as u64
}

unsafe extern "C" fn debug_char(at: *const u8, len: usize) -> u64 {
    let value = unsafe { text(at, len) }.chars().next();
    value.map_or(u64::MAX, |c| black_box(format!("{c:?}")).len() as u64)
}

/// A call whose arguments are the two halves of an integer.
type IntegerCall = unsafe extern "C" fn(u64, u64) -> u64;

fn number_of(high: u64, low: u64) -> u128 {
    (u128::from(high) << 64) | u128::from(low)
}

/// Formats an integer with Rust's `to_string`, which formats like the crate itoa.
unsafe extern "C" fn display(high: u64, low: u64) -> u64 {
    let text = if high == 0 { low.to_string() } else { number_of(high, low).to_string() };
    black_box(text).len() as u64
}

unsafe extern "C" fn display_hexadecimal(high: u64, low: u64) -> u64 {
    let text = if high == 0 { format!("{low:#x}") } else { format!("{:#x}", number_of(high, low)) };
    black_box(text).len() as u64
}

/// Returns the least nanoseconds per value of both calls, which take turns.
fn time<T>(values: &[T], ours: impl Fn(&T) -> u64, rust: impl Fn(&T) -> u64) -> [f64; 2] {
    let mut least = [f64::INFINITY; 2];
    for _ in 0..ROUNDS {
        for (i, least) in least.iter_mut().enumerate() {
            let start = Instant::now();
            let mut sum = 0u64;
            for value in values {
                let value = black_box(value);
                sum = sum.wrapping_add(if i == 0 { ours(value) } else { rust(value) });
            }
            black_box(sum);
            *least = least.min(start.elapsed().as_nanos() as f64 / values.len() as f64);
        }
    }
    least
}

/// A generator of pseudorandom numbers from a fixed seed (xorshift).
struct Draw(u64);

impl Draw {
    fn next(&mut self) -> u64 {
        self.0 ^= self.0 << 13;
        self.0 ^= self.0 >> 7;
        self.0 ^= self.0 << 17;
        self.0
    }

    fn ascii(&mut self) -> char {
        char::from(b' ' + (self.next() % 95) as u8)
    }

    /// Draws a letter, a digit or a space.
    fn plain(&mut self) -> char {
        char::from(b"abcdefghijklmnopqrstuvwxyz 0123456789ABCDEF"[(self.next() % 43) as usize])
    }
}

/// Returns texts of at least `len` bytes, of characters that `one` draws.
fn texts(draw: &mut Draw, len: usize, one: fn(&mut Draw, usize) -> char) -> Vec<String> {
    let mut made = Vec::new();
    for _ in 0..VALUES {
        let mut text = String::new();
        while text.len() < len {
            text.push(one(draw, text.len()));
        }
        made.push(text);
    }
    made
}

fn line_feed_each_8(draw: &mut Draw, at: usize) -> char {
    if at % 8 == 7 { '\n' } else { draw.plain() }
}

fn cyrillic(draw: &mut Draw, _: usize) -> char {
    char::from_u32(0x430 + (draw.next() % 32) as u32).unwrap()
}

/// The name of a row, the length of its values in bytes, a function that draws their characters,
/// our call and Rust's.
type Row = (&'static str, usize, fn(&mut Draw, usize) -> char, Call, Call);

const ROWS: &[Row] = &[
    ("string, plain", 4, |draw, _| draw.plain(), ours::build_string, debug),
    ("string, plain", 16, |draw, _| draw.plain(), ours::build_string, debug),
    ("string, plain", 64, |draw, _| draw.plain(), ours::build_string, debug),
    ("string, plain", 256, |draw, _| draw.plain(), ours::build_string, debug),
    ("string, plain", 1024, |draw, _| draw.plain(), ours::build_string, debug),
    ("string, plain", 4096, |draw, _| draw.plain(), ours::build_string, debug),
    ("string, any ASCII from the space on", 1024, |draw, _| draw.ascii(), ours::build_string, debug),
    ("string, LF each 8 bytes", 16, line_feed_each_8, ours::build_string, debug),
    ("string, LF each 8 bytes", 1024, line_feed_each_8, ours::build_string, debug),
    ("string, quotes alone", 1024, |_, _| '"', ours::build_string, debug),
    ("string, Cyrillic", 1024, cyrillic, ours::build_string, debug),
    ("byte string, plain", 16, |draw, _| draw.plain(), ours::build_byte_string, escape_ascii),
    ("byte string, plain", 1024, |draw, _| draw.plain(), ours::build_byte_string, escape_ascii),
    ("byte string, LF each 8 bytes", 1024, line_feed_each_8, ours::build_byte_string, escape_ascii),
    ("char, ASCII", 1, |draw, _| draw.plain(), ours::build_char, debug_char),
    ("char, Cyrillic", 2, cyrillic, ours::build_char, debug_char),
];

/// The name of a row, the number of bits of its values, our call and Rust's.
type IntegerRow = (&'static str, u32, IntegerCall, IntegerCall);

const INTEGER_ROWS: &[IntegerRow] = &[
    ("integer, base ten", 8, ours::build_integer, display),
    ("integer, base ten", 32, ours::build_integer, display),
    ("integer, base ten", 64, ours::build_integer, display),
    ("integer, base ten", 128, ours::build_integer, display),
    ("integer, groups of three digits", 64, ours::build_grouped, display),
    ("integer, base sixteen", 32, ours::build_hexadecimal, display_hexadecimal),
    ("integer, base sixteen", 64, ours::build_hexadecimal, display_hexadecimal),
];

/// Draws the halves of a number of `bits` bits.
fn halves(draw: &mut Draw, bits: u32) -> (u64, u64) {
    let high = if bits > 64 { draw.next() } else { 0 };
    (high, draw.next() >> (64 - bits.min(64)))
}

fn print(row: &str, size: String, times: [f64; 2]) {
    println!("{row:<38}{size:>10}{:>10.1}{:>10.1}{:>7.2}", times[0], times[1], times[0] / times[1]);
}

/// Prints the rows.
pub fn main() {
    println!("\nNanoseconds a literal that litrs_build writes, and by Rust's format!.\n");
    println!("{:<38}{:>10}{:>10}{:>10}{:>7}", "value", "size", "ours", "Rust's", "ratio");
    let mut draw = Draw(0x9e37_79b9_7f4a_7c15);
    for (row, len, one, ours, rust) in ROWS {
        let values = texts(&mut draw, *len, *one);
        for value in &values {
            assert_eq!(answer(*ours, value), answer(*rust, value), "the length of {value:?}");
        }
        let times = time(&values, |value| answer(*ours, value), |value| answer(*rust, value));
        print(row, format!("{len} bytes"), times);
    }
    for (row, bits, ours, rust) in INTEGER_ROWS {
        let values: Vec<(u64, u64)> = (0..VALUES).map(|_| halves(&mut draw, *bits)).collect();
        let times = time(&values, |(high, low)| unsafe { ours(*high, *low) }, |(high, low)| unsafe {
            rust(*high, *low)
        });
        print(row, format!("{bits} bits"), times);
    }
}
