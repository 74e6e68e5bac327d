//! Times `run` of `litrs_lines` from memory to memory, beside a program over the Rust crate that
//! does the same.

use crate::{BYTES, Call, Numbers, TEXTS, TYPES, answer, grouped, ours};
use std::hint::black_box;
use std::time::Instant;

/// The number of rounds over a shape.
const ROUNDS: usize = 100;

/// The kind of the literals, the name of a shape, and a function that draws a line without its LF.
type Lines = (&'static str, &'static str, fn(&mut Numbers) -> String);

const LINES: &[Lines] = &[
    ("Integer", "decimal, up to 10 digits", |n| n.of_bits(33).to_string()),
    ("Integer", "decimal, 11 to 39 digits", |n| (10_000_000_000 + n.of_bits(127)).to_string()),
    ("Integer", "hexadecimal, underscores, type", |n| {
        let digits = grouped(&format!("{:X}", n.of_bits(63)), 4);
        format!("0x{digits}{}", n.one_of(&TYPES))
    }),
    ("Float", "floats", |n| format!("{}.{}{}", n.digits(4), n.digits(6), n.one_of(&["", "f32", "e-3"]))),
    ("Char", "chars", |n| format!("'{}'", if n.below(4) == 0 { n.escape() } else { n.plain() })),
    ("String", "strings, up to 31 items", |n| {
        let len = n.below(32) as usize;
        format!("\"{}\"", n.many(len, |n| if n.below(8) == 0 { n.escape() } else { n.plain() }))
    }),
    ("CString", "C strings, up to 31 items", |n| {
        let len = n.below(32) as usize;
        format!("c\"{}\"", n.many(len, |n| if n.below(8) == 0 { n.escape() } else { n.plain() }))
    }),
    ("String", "strings of 10,000 bytes", |n| format!("\"{}\"", n.many(10_000, Numbers::plain))),
    ("Integer", "refused: 1-2", |n| format!("{}-{}", n.digits(5), n.digits(5))),
    ("", "refused: long lines", |n| format!("x{}", n.many(100_000, Numbers::plain))),
];

/// Returns lines of the shape at index `place` as one text, and their number.
fn text_of(place: usize) -> (String, usize) {
    let mut numbers = Numbers(0xD1B5_4A32_D192_ED03u64.wrapping_mul(1 + place as u64));
    let mut text = String::new();
    let mut count = 0;
    while count < TEXTS && text.len() < BYTES {
        text.push_str(&LINES[place].2(&mut numbers));
        text.push('\n');
        count += 1;
    }
    (text, count)
}

/// The program over the Rust crate. It reads lines with a buffered reader, and writes reports with
/// `write!` and hexadecimal digits with a table.
#[cfg(upstream)]
mod upstream {
    use crate::REFUSED;
    use crate::upstream::{text, with_bytes};
    use litrs::Literal;
    use std::io::{BufRead, BufReader, Write};

    fn write_hex(out: &mut Vec<u8>, name: &str, raw: bool, suffix: &str, bytes: &[u8]) {
        let raw = if raw { "yes" } else { "no" };
        write!(out, "{name} raw={raw} suffix={suffix} value=").unwrap();
        const DIGITS: &[u8; 16] = b"0123456789abcdef";
        for byte in bytes {
            out.extend_from_slice(&[DIGITS[usize::from(byte >> 4)], DIGITS[usize::from(byte & 15)]]);
        }
    }

    fn report(out: &mut Vec<u8>, line: &[u8]) {
        let Ok(line) = str::from_utf8(line) else {
            out.extend_from_slice(b"error input is not UTF-8\n");
            return;
        };
        match Literal::parse(line) {
            Ok(Literal::Bool(lit)) => write!(out, "bool {lit}").unwrap(),
            Ok(Literal::Integer(lit)) => {
                let (base, digits, suffix) = (lit.base().value(), lit.raw_main_part(), lit.suffix());
                write!(out, "integer base={base} digits={digits} suffix={suffix} value=").unwrap();
                match lit.value::<u128>() {
                    Some(value) => write!(out, "{value}").unwrap(),
                    None => out.extend_from_slice(b"none"),
                }
            }
            Ok(Literal::Float(lit)) => {
                let (integer, exponent, suffix) = (lit.integer_part(), lit.exponent_part(), lit.suffix());
                let fraction = lit.fractional_part().unwrap_or("-");
                write!(out, "float int={integer} frac={fraction} exp={exponent} suffix={suffix}").unwrap();
            }
            Ok(Literal::Char(lit)) => {
                write!(out, "char value={:x} suffix={}", u32::from(lit.value()), lit.suffix()).unwrap();
            }
            Ok(Literal::Byte(lit)) => {
                write!(out, "byte value={:x} suffix={}", lit.value(), lit.suffix()).unwrap();
            }
            Ok(Literal::String(lit)) => {
                write_hex(out, "string", lit.is_raw_string(), lit.suffix(), lit.value().as_bytes());
            }
            Ok(Literal::ByteString(lit)) => {
                write_hex(out, "bytestring", lit.is_raw_byte_string(), lit.suffix(), lit.value());
            }
            Ok(Literal::CString(lit)) => {
                write_hex(out, "cstring", lit.is_raw_c_string(), lit.suffix(), lit.value().to_bytes());
            }
            Ok(_) => unreachable!(),
            Err(e) => write!(out, "error {e}").unwrap(),
        }
        out.push(b'\n');
    }

    fn reports_on(text: &str) -> Vec<u8> {
        let mut out = Vec::with_capacity(text.len() * 24 + 1024);
        let mut input = BufReader::with_capacity(8192, text.as_bytes());
        let mut line = Vec::new();
        while input.read_until(b'\n', &mut line).unwrap() != 0 {
            report(&mut out, line.strip_suffix(b"\n").unwrap_or(&line));
            line.clear();
        }
        out
    }

    pub unsafe extern "C" fn run(text: *const u8, len: usize) -> u64 {
        reports_on(unsafe { self::text(text, len) }).len() as u64
    }

    pub unsafe extern "C" fn reports(text: *const u8, len: usize) -> u64 {
        let number = with_bytes(0, &reports_on(unsafe { self::text(text, len) }));
        assert!(number != REFUSED);
        number
    }
}

#[cfg(upstream)]
const CALLS: [Call; 2] = [ours::run, upstream::run];

#[cfg(not(upstream))]
const CALLS: [Call; 1] = [ours::run];

/// Times each shape and prints its figures.
pub fn main() {
    println!("\nNanoseconds a line of `run` of litrs_lines, from memory to memory, the least of {ROUNDS} rounds.");
    for (place, (kind, name, _)) in LINES.iter().enumerate() {
        let (text, count) = text_of(place);
        #[cfg(upstream)]
        assert_eq!(answer(ours::reports, &text), answer(upstream::reports, &text), "the reports of {name}");
        let mut times = [f64::INFINITY; CALLS.len()];
        for _ in 0..ROUNDS {
            for (least, call) in times.iter_mut().zip(CALLS) {
                let start = Instant::now();
                black_box(answer(call, black_box(&text)));
                *least = least.min(start.elapsed().as_nanos() as f64 / count as f64);
            }
        }
        print!("{kind:<11}{name:<32}{:>9.1}", text.len() as f64 / count as f64 - 1.0);
        for time in times {
            print!("{time:>10.1}");
        }
        if let [ours, upstream] = times[..] {
            print!("{:>6.2}", ours / upstream);
        }
        println!();
    }
}
