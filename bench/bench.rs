//! Times `Literal::parse` and the values of literals over texts of several shapes.
//!
//! The texts are the same in each run. Each figure is the least of the rounds, in nanoseconds per
//! text. With the configuration `upstream`, the Rust crate of the same name is timed beside this
//! one by the same calls. The results of both are compared first.

use std::hint::black_box;
use std::time::Instant;

mod allocations;
#[cfg(not(shapes))]
mod built;
mod corpus;
#[cfg(upstream)]
mod families;
mod going_on;
mod held_out;
#[cfg(rustc_lexer)]
mod lexer;
mod limits;
mod lines;
mod prefix;
mod several_lines;
#[cfg(not(shapes))]
mod values;

/// The greatest number of texts of a shape, and of their bytes together.
const TEXTS: usize = 4000;
const BYTES: usize = 1 << 20;

/// The number of rounds over a shape in a pass, and of passes over all shapes.
const ROUNDS: usize = 100;
const PASSES: usize = 4;

const REFUSED: u64 = 1 << 63;

/// The result for an error without a span, or for a literal without a value.
#[cfg(upstream)]
const NONE: u64 = u64::MAX;

mod ours {
    #[link(name = "litrs_bench", kind = "static")]
    #[link(name = "libc_c", kind = "static")]
    unsafe extern "C" {
        #[link_name = "litrs_bench_parse"]
        pub fn parse(text: *const u8, len: usize) -> u64;
        #[link_name = "litrs_bench_value"]
        pub fn value(text: *const u8, len: usize) -> u64;
        #[link_name = "litrs_bench_parse_string"]
        pub fn parse_string(text: *const u8, len: usize) -> u64;
        #[cfg(upstream)]
        #[link_name = "litrs_bench_contents"]
        pub fn contents(text: *const u8, len: usize) -> u64;
        #[link_name = "litrs_bench_goes_on"]
        pub fn goes_on(text: *const u8, len: usize) -> u64;
        #[link_name = "litrs_bench_prefix"]
        pub fn prefix(text: *const u8, len: usize) -> u64;
        #[link_name = "litrs_bench_prefix_len"]
        pub fn prefix_len(text: *const u8, len: usize) -> u64;
        #[link_name = "litrs_bench_feed"]
        pub fn feed(text: *const u8, len: usize) -> u64;
        #[link_name = "litrs_bench_split"]
        pub fn split(text: *const u8, len: usize) -> u64;
        #[link_name = "litrs_bench_run"]
        pub fn run(text: *const u8, len: usize) -> u64;
        #[cfg(upstream)]
        #[link_name = "litrs_bench_reports"]
        pub fn reports(text: *const u8, len: usize) -> u64;
    }

    #[cfg(not(shapes))]
    unsafe extern "C" {
        #[cfg(rustc_lexer)]
        #[link_name = "litrs_bench_tokens"]
        pub fn tokens(text: *const u8, len: usize) -> u64;
        #[link_name = "litrs_bench_token"]
        pub fn token(text: *const u8, len: usize) -> u64;
        #[link_name = "litrs_bench_float"]
        pub fn float(text: *const u8, len: usize) -> u64;
        #[link_name = "litrs_bench_float_parts"]
        pub fn float_parts(text: *const u8, len: usize) -> u64;
        #[link_name = "litrs_bench_read_f64"]
        pub fn read_f64(text: *const u8, len: usize) -> u64;
        #[link_name = "litrs_bench_read_u32"]
        pub fn read_u32(text: *const u8, len: usize) -> u64;
        #[link_name = "litrs_bench_build_string"]
        pub fn build_string(value: *const u8, len: usize) -> u64;
        #[link_name = "litrs_bench_build_byte_string"]
        pub fn build_byte_string(value: *const u8, len: usize) -> u64;
        #[link_name = "litrs_bench_build_char"]
        pub fn build_char(value: *const u8, len: usize) -> u64;
        #[link_name = "litrs_bench_build_integer"]
        pub fn build_integer(high: u64, low: u64) -> u64;
        #[link_name = "litrs_bench_build_hexadecimal"]
        pub fn build_hexadecimal(high: u64, low: u64) -> u64;
        #[link_name = "litrs_bench_build_grouped"]
        pub fn build_grouped(high: u64, low: u64) -> u64;
    }
}

#[cfg(upstream)]
mod upstream {
    use super::{NONE, REFUSED};
    use litrs::{Buffer, Literal, ParseError};

    #[inline(always)]
    fn with(number: u64, part: usize) -> u64 {
        number.rotate_left(13) ^ (part as u64)
    }

    pub fn with_bytes(number: u64, bytes: &[u8]) -> u64 {
        let number = with(number, bytes.len());
        bytes.iter().fold(number, |number, byte| number.rotate_left(7) ^ u64::from(*byte))
    }

    #[inline(always)]
    fn parts<B: Buffer>(lit: &Literal<B>) -> u64 {
        match lit {
            Literal::Bool(lit) => with(1, usize::from(lit.value())),
            Literal::Integer(lit) => with(with(2, lit.raw_main_part().len()), lit.suffix().len()),
            Literal::Float(lit) => {
                let number = with(with(3, lit.integer_part().len()), lit.exponent_part().len());
                let number = match lit.fractional_part() {
                    Some(fraction) => with(number, fraction.len() + 1),
                    None => number,
                };
                with(number, lit.suffix().len())
            }
            Literal::Char(lit) => with(with(4, u32::from(lit.value()) as usize), lit.suffix().len()),
            Literal::Byte(lit) => with(with(5, usize::from(lit.value())), lit.suffix().len()),
            Literal::String(lit) => with(with(6, lit.value().len()), lit.suffix().len()),
            Literal::ByteString(lit) => with(with(7, lit.value().len()), lit.suffix().len()),
            Literal::CString(lit) => with(with(8, lit.value().to_bytes().len()), lit.suffix().len()),
            _ => unreachable!(),
        }
    }

    #[inline(always)]
    fn place(e: &ParseError) -> u64 {
        match e.span() {
            Some(span) => with(with(1, span.start), span.end) | REFUSED,
            None => NONE,
        }
    }

    /// Returns the text of `len` bytes at the address `text`.
    #[inline(always)]
    pub unsafe fn text<'a>(text: *const u8, len: usize) -> &'a str {
        unsafe { str::from_utf8_unchecked(std::slice::from_raw_parts(text, len)) }
    }

    pub unsafe extern "C" fn parse(text: *const u8, len: usize) -> u64 {
        match Literal::parse(unsafe { self::text(text, len) }) {
            Ok(lit) => parts(&lit),
            Err(e) => place(&e),
        }
    }

    pub unsafe extern "C" fn parse_string(text: *const u8, len: usize) -> u64 {
        match Literal::parse(String::from(unsafe { self::text(text, len) })) {
            Ok(lit) => parts(&lit),
            Err(e) => place(&e),
        }
    }

    pub unsafe extern "C" fn value(text: *const u8, len: usize) -> u64 {
        match Literal::parse(unsafe { self::text(text, len) }) {
            Ok(Literal::Bool(lit)) => u64::from(lit.value()),
            Ok(Literal::Integer(lit)) => match lit.value::<u128>() {
                Some(number) => (number ^ (number >> 64)) as u64,
                None => NONE,
            },
            Ok(Literal::Char(lit)) => u64::from(u32::from(lit.value())),
            Ok(Literal::Byte(lit)) => u64::from(lit.value()),
            Ok(Literal::String(lit)) => lit.value().len() as u64,
            Ok(Literal::ByteString(lit)) => lit.value().len() as u64,
            Ok(Literal::CString(lit)) => lit.value().to_bytes().len() as u64,
            _ => NONE,
        }
    }

    pub unsafe extern "C" fn contents(text: *const u8, len: usize) -> u64 {
        let lit = match Literal::parse(unsafe { self::text(text, len) }) {
            Ok(lit) => lit,
            Err(e) => return place(&e),
        };
        let number = with_bytes(0, lit.raw_input().as_bytes());
        let number = with_bytes(number, lit.suffix().as_bytes());
        match &lit {
            Literal::Bool(lit) => with_bytes(number, lit.as_str().as_bytes()),
            Literal::Integer(lit) => with_bytes(number, lit.raw_main_part().as_bytes()),
            Literal::Float(lit) => {
                let number = with_bytes(number, lit.integer_part().as_bytes());
                let number = with_bytes(number, lit.fractional_part().unwrap_or("").as_bytes());
                with_bytes(number, lit.exponent_part().as_bytes())
            }
            Literal::Char(lit) => with(number, u32::from(lit.value()) as usize),
            Literal::Byte(lit) => with(number, usize::from(lit.value())),
            Literal::String(lit) => with_bytes(number, lit.value().as_bytes()),
            Literal::ByteString(lit) => with_bytes(number, lit.value()),
            Literal::CString(lit) => with_bytes(number, lit.value().to_bytes()),
            _ => unreachable!(),
        }
    }
}

/// A xorshift64* generator, by which each run has the same texts.
struct Numbers(u64);

impl Numbers {
    fn next(&mut self) -> u64 {
        self.0 ^= self.0 >> 12;
        self.0 ^= self.0 << 25;
        self.0 ^= self.0 >> 27;
        self.0.wrapping_mul(0x2545_F491_4F6C_DD1D)
    }

    /// Draws a number below `end`.
    fn below(&mut self, end: u64) -> u64 {
        (self.next() >> 32) % end
    }

    /// Draws a number of up to `bits` bits. All lengths are equally likely.
    fn of_bits(&mut self, bits: u64) -> u128 {
        let wide = (u128::from(self.next()) << 64) | u128::from(self.next());
        wide >> (128 - 1 - self.below(bits))
    }

    fn one_of<'a>(&mut self, texts: &[&'a str]) -> &'a str {
        texts[self.below(texts.len() as u64) as usize]
    }

    /// Draws one to `most` decimal digits.
    fn digits(&mut self, most: u64) -> String {
        (0..=self.below(most)).map(|_| char::from(b'0' + self.below(10) as u8)).collect()
    }

    /// Draws `len` texts, and returns them joined.
    fn many(&mut self, len: usize, text: fn(&mut Numbers) -> String) -> String {
        (0..len).map(|_| text(self)).collect()
    }

    /// Draws a letter, a digit, or another ASCII character that is plain in every quoted literal.
    fn plain(&mut self) -> String {
        loop {
            let byte = b' ' + self.below(95) as u8;
            if !b"\"'\\".contains(&byte) {
                return char::from(byte).to_string();
            }
        }
    }

    /// Draws a character that is not ASCII.
    fn non_ascii(&mut self) -> String {
        let last = [0x7FF, 0xFFFF, 0x1_FFFF][self.below(3) as usize];
        loop {
            if let Some(c) = char::from_u32(0x80 + self.below(last - 0x7F) as u32) {
                return c.to_string();
            }
        }
    }

    fn simple_escape(&mut self) -> String {
        self.one_of(&["\\n", "\\r", "\\t", "\\\\", "\\'", "\\\""]).to_string()
    }

    fn unicode_escape(&mut self) -> String {
        format!("\\u{{{:x}}}", u32::from(self.non_ascii().chars().next().unwrap()))
    }

    /// Draws an escape that is valid in every kind of quoted literal.
    fn escape(&mut self) -> String {
        match self.below(4) {
            0 => format!("\\x{:02x}", 1 + self.below(127)),
            _ => self.simple_escape(),
        }
    }
}

/// Returns the digits in groups of `group` from the right, with an underscore between two groups.
fn grouped(digits: &str, group: usize) -> String {
    let mut text = String::new();
    for (i, digit) in digits.chars().enumerate() {
        if i != 0 && (digits.len() - i) % group == 0 {
            text.push('_');
        }
        text.push(digit);
    }
    text
}

const TYPES: [&str; 12] = ["u8", "u16", "u32", "u64", "u128", "usize", "i8", "i16", "i32", "i64", "i128", "isize"];

/// The expected result of `parse` for the texts of a shape.
#[derive(Clone, Copy, PartialEq)]
enum Texts {
    /// A literal with a value.
    Valued,
    /// A literal without a value.
    Parsed,
    /// An error.
    Refused,
    /// An error with another span than upstream's, as docs/DIFFERENCES.md says.
    RefusedElsewhere,
}

use Texts::{Parsed, Refused, RefusedElsewhere, Valued};

/// A kind of literal, the name of a shape, the expected result, and a function that draws a text.
type Shape = (&'static str, &'static str, Texts, fn(&mut Numbers) -> String);

const SHAPES: &[Shape] = &[
    ("", "the empty text", Refused, |_| String::new()),
    ("", "a name", Refused, |n| n.one_of(&["x", "abc", "True", "truee", "_1", "foo_bar"]).to_string()),
    ("", "a sign and a number", Refused, |n| format!("{}{}", n.one_of(&["-", "+"]), n.digits(5))),
    ("Bool", "bool", Valued, |n| n.one_of(&["true", "false"]).to_string()),
    ("Integer", "1 digit", Valued, |n| n.below(10).to_string()),
    ("Integer", "decimal, 1 to 3 digits", Valued, |n| n.below(1000).to_string()),
    ("Integer", "decimal, 4 to 10 digits", Valued, |n| (1000 + n.of_bits(32)).to_string()),
    ("Integer", "decimal, 11 to 39 digits", Valued, |n| (10_000_000_000 + n.of_bits(127)).to_string()),
    ("Integer", "decimal with underscores", Valued, |n| grouped(&(1000 + n.of_bits(63)).to_string(), 3)),
    ("Integer", "decimal with a type", Valued, |n| format!("{}{}", n.of_bits(31), n.one_of(&TYPES))),
    ("Integer", "decimal, ASCII suffix of 20", Valued, |n| format!("{}a_suffix_of_20_bytes", n.digits(3))),
    ("Integer", "decimal, suffix of 5 not ASCII", Valued, |n| format!("{}größe", n.digits(3))),
    ("Integer", "hexadecimal, up to 8 digits", Valued, |n| format!("0x{:x}", n.of_bits(32))),
    ("Integer", "hexadecimal, underscores, type", Valued, |n| {
        format!("0x{}u64", grouped(&format!("{:X}", n.of_bits(63)), 4))
    }),
    ("Integer", "octal, up to 4 digits", Valued, |n| format!("0o{:o}", n.below(4096))),
    ("Integer", "binary, up to 8 digits", Valued, |n| format!("0b{:b}", n.below(256))),
    ("Integer", "binary, underscores", Valued, |n| format!("0b{}", grouped(&format!("{:032b}", n.below(1 << 32)), 8))),
    ("Integer", "decimal, 100,000 zeros", Valued, |_| "0".repeat(100_000)),
    ("Integer", "hexadecimal, 100,000 _", Valued, |_| format!("0x{}1", "_".repeat(100_000))),
    ("Integer", "ASCII suffix of 100,000", Valued, |_| format!("1{}", "u".repeat(100_000))),
    ("Integer", "refused: wrong digit (0b12)", Refused, |n| {
        format!("{}{}", n.one_of(&["0b12", "0b1010_3", "0o78", "0o7_9"]), n.digits(3))
    }),
    ("Integer", "refused: no digit (0x_)", Refused, |n| n.one_of(&["0x", "0x_", "0b", "0o__", "0xu8"]).to_string()),
    ("Integer", "refused: no suffix (1-2)", Refused, |n| {
        format!("{}{}{}", n.digits(5), n.one_of(&["-", "+", " ", "/", "a-"]), n.digits(5))
    }),
    ("Integer", "refused: suffix with e (0b1e3)", RefusedElsewhere, |n| {
        format!("{}{:b}e{}", n.one_of(&["0b", "0o"]), n.below(256), n.digits(2))
    }),
    ("Float", "with a fraction", Parsed, |n| format!("{}.{}", n.digits(4), n.digits(6))),
    ("Float", "nothing after the period", Parsed, |n| format!("{}.", n.digits(4))),
    ("Float", "with a fraction and a type", Parsed, |n| {
        format!("{}.{}{}", n.digits(4), n.digits(6), n.one_of(&["f32", "f64"]))
    }),
    ("Float", "with an exponent", Parsed, |n| format!("{}e{}", n.digits(4), n.digits(2))),
    ("Float", "fraction, exponent, sign", Parsed, |n| {
        format!("{}.{}{}{}", n.digits(4), n.digits(6), n.one_of(&["e-", "E+", "e"]), n.digits(2))
    }),
    ("Float", "all parts and underscores", Parsed, |n| {
        let integer = grouped(&n.digits(9), 3);
        let fraction = grouped(&n.digits(9), 3);
        format!("{integer}.{fraction}_{}{}_f64", n.one_of(&["e-", "E+", "e"]), n.digits(2))
    }),
    ("Float", "17 digits", Parsed, |n| format!("{}.{}", n.below(10), n.many(16, |n| n.below(10).to_string()))),
    ("Float", "refused: 1.e4, 1._5", Refused, |n| {
        format!("{}{}{}", n.digits(4), n.one_of(&[".e", "._", ".f"]), n.digits(3))
    }),
    ("Float", "refused: no exponent (1e, 1e+_)", Refused, |n| {
        format!("{}{}", n.digits(4), n.one_of(&["e", "e+", ".0E-_", "e_f32"]))
    }),
    ("Float", "refused: no suffix (1.0-2)", Refused, |n| {
        format!("{}.{}{}", n.digits(4), n.digits(4), n.one_of(&["-2", " ", "f32+", ".1"]))
    }),
    ("Char", "plain, ASCII", Valued, |n| format!("'{}'", n.plain())),
    ("Char", "plain, not ASCII", Valued, |n| format!("'{}'", n.non_ascii())),
    ("Char", "simple escape", Valued, |n| format!("'{}'", n.simple_escape())),
    ("Char", "hex escape", Valued, |n| format!("'\\x{:02x}'", n.below(128))),
    ("Char", "unicode escape", Valued, |n| format!("'{}'", n.unicode_escape())),
    ("Char", "plain with a suffix", Valued, |n| format!("'{}'{}", n.plain(), n.one_of(&TYPES))),
    ("Char", "refused: '', 'ab', 'a", Refused, |n| n.one_of(&["''", "'''", "'ab'", "'a", "'\t'", "'"]).to_string()),
    ("Char", "refused: escapes", Refused, |n| {
        format!("'{}'", n.one_of(&["\\q", "\\x8", "\\xff", "\\u41", "\\u{}", "\\u{110000}", "\\u{g}", "\\u{41"]))
    }),
    ("Char", "refused: no suffix ('a'-2)", Refused, |n| format!("'{}'{}", n.plain(), n.one_of(&["-2", " ", "1", "_"]))),
    ("Byte", "plain", Valued, |n| format!("b'{}'", n.plain())),
    ("Byte", "simple escape", Valued, |n| format!("b'{}'", n.simple_escape())),
    ("Byte", "hex escape", Valued, |n| format!("b'\\x{:02x}'", n.below(256))),
    ("Byte", "refused: b'', b'ab', b'a, b'é'", Refused, |n| {
        n.one_of(&["b''", "b'''", "b'ab'", "b'a", "b'\t'", "b'", "b'é'"]).to_string()
    }),
    ("Byte", "refused: escapes", Refused, |n| format!("b'{}'", n.one_of(&["\\q", "\\x8", "\\u{41}", "\\xg0"]))),
    ("String", "up to 31 bytes", Valued, |n| {
        let len = n.below(32) as usize;
        format!("\"{}\"", n.many(len, Numbers::plain))
    }),
    ("String", "up to 31 items, escapes", Valued, |n| {
        let len = n.below(32) as usize;
        format!("\"{}\"", n.many(len, |n| if n.below(8) == 0 { n.escape() } else { n.plain() }))
    }),
    ("String", "16 escapes", Valued, |n| format!("\"{}\"", n.many(16, Numbers::escape))),
    ("String", "8 unicode escapes", Valued, |n| format!("\"{}\"", n.many(8, Numbers::unicode_escape))),
    ("String", "16 characters not ASCII", Valued, |n| format!("\"{}\"", n.many(16, Numbers::non_ascii))),
    ("String", "1,000 bytes", Valued, |n| format!("\"{}\"", n.many(1000, Numbers::plain))),
    ("String", "10,000 bytes, escape each 100", Valued, |n| {
        let body = n.many(100, |n| format!("{}{}", "an even run of letters".repeat(4), n.escape()));
        format!("\"{body}\"")
    }),
    ("String", "1,000,000 bytes", Valued, |n| format!("\"{}\"", n.many(1_000_000, Numbers::plain))),
    ("String", "raw, up to 31 bytes", Valued, |n| {
        let len = n.below(32) as usize;
        format!("r#\"{}\"#", n.many(len, Numbers::plain))
    }),
    ("String", "raw, 10,000 bytes", Valued, |n| format!("r\"{}\"", n.many(10_000, Numbers::plain))),
    ("String", "raw, 10,000 bytes, 100 quotes", Valued, |n| {
        format!("r##\"{}\"##", n.many(100, |n| format!("{}\" ", n.many(98, Numbers::plain))))
    }),
    ("String", "refused: no closing quote", Refused, |n| {
        let len = n.below(32) as usize;
        format!("\"{}", n.many(len, Numbers::plain))
    }),
    ("String", "refused: an escape", Refused, |n| {
        let len = n.below(32) as usize;
        format!("\"{}{}\"", n.many(len, Numbers::plain), n.one_of(&["\\q", "\\x8g", "\\xff", "\\u{}"]))
    }),
    ("ByteString", "up to 31 bytes", Valued, |n| {
        let len = n.below(32) as usize;
        format!("b\"{}\"", n.many(len, Numbers::plain))
    }),
    ("ByteString", "up to 31 items, escapes", Valued, |n| {
        let len = n.below(32) as usize;
        format!("b\"{}\"", n.many(len, |n| if n.below(8) == 0 { n.escape() } else { n.plain() }))
    }),
    ("ByteString", "refused: not ASCII", Refused, |n| {
        let len = n.below(32) as usize;
        format!("b\"{}é\"", n.many(len, Numbers::plain))
    }),
    ("CString", "up to 31 bytes", Valued, |n| {
        let len = n.below(32) as usize;
        format!("c\"{}\"", n.many(len, Numbers::plain))
    }),
    ("CString", "up to 31 items, escapes", Valued, |n| {
        let len = n.below(32) as usize;
        format!("c\"{}\"", n.many(len, |n| if n.below(8) == 0 { n.escape() } else { n.plain() }))
    }),
    ("CString", "refused: NUL", Refused, |n| {
        let len = n.below(32) as usize;
        format!("c\"{}{}\"", n.many(len, Numbers::plain), n.one_of(&["\0", "\\0", "\\x00"]))
    }),
];

/// Returns the texts of the shape at index `place`. There are fewer if they are long.
fn texts_of(place: usize) -> Vec<String> {
    let mut numbers = Numbers(0x9E37_79B9_7F4A_7C15u64.wrapping_mul(1 + place as u64));
    let mut texts = Vec::new();
    let mut bytes = 0;
    while texts.len() < TEXTS && bytes < BYTES {
        let text = SHAPES[place].3(&mut numbers);
        bytes += text.len();
        texts.push(text);
    }
    texts
}

/// Stops if a text does not have the expected result, or if the results of both crates differ.
fn compare(texts: &[&str], shape: Texts) {
    let refused = matches!(shape, Refused | RefusedElsewhere);
    for text in texts {
        let parsed = answer(ours::parse, text);
        assert_eq!(parsed & REFUSED != 0, refused, "whether {text} is refused");
        assert_eq!(parsed, answer(ours::parse_string, text), "{text} as a String");
        #[cfg(upstream)]
        {
            let wanted = answer(upstream::parse, text);
            assert_eq!(wanted & REFUSED != 0, refused, "whether upstream refuses {text}");
            assert_eq!(wanted, answer(upstream::parse_string, text), "{text} as a String for upstream");
            assert_eq!(answer(ours::value, text), answer(upstream::value, text), "the value of {text}");
            if shape != RefusedElsewhere {
                assert_eq!(parsed, wanted, "the parts or the place of {text}");
                let contents = answer(upstream::contents, text);
                assert_eq!(answer(ours::contents, text), contents, "the contents of {text}");
            }
        }
    }
}

/// A call that is timed. Its arguments are the address and the length of a text.
type Call = unsafe extern "C" fn(*const u8, usize) -> u64;

/// Returns the result of `call` for `text`.
#[inline(always)]
fn answer(call: Call, text: &str) -> u64 {
    unsafe { call(text.as_ptr(), text.len()) }
}

#[cfg(upstream)]
const CALLS: [Call; 6] = [
    ours::parse,
    upstream::parse,
    ours::value,
    upstream::value,
    ours::parse_string,
    upstream::parse_string,
];

#[cfg(not(upstream))]
const CALLS: [Call; 3] = [ours::parse, ours::value, ours::parse_string];

/// The nanoseconds per text of each call.
type Times = [f64; CALLS.len()];

/// Runs the rounds, and lowers `least` to the least times. The calls take turns, so other work of
/// the machine affects all of them.
fn time(texts: &[&str], least: &mut Times) {
    for _ in 0..ROUNDS {
        for (least, call) in least.iter_mut().zip(CALLS) {
            let start = Instant::now();
            let mut sum = 0u64;
            for text in texts {
                sum = sum.wrapping_add(answer(call, black_box(text)));
            }
            black_box(sum);
            *least = least.min(start.elapsed().as_nanos() as f64 / texts.len() as f64);
        }
    }
}

/// Prints the times of a shape. Returns its ratios above one, with their lines.
fn row(kind: &str, name: &str, shape: Texts, texts: &[&str], times: &Times) -> Vec<(f64, String)> {
    let bytes = texts.iter().map(|text| text.len()).sum::<usize>() as f64 / texts.len() as f64;
    let each = CALLS.len() / 3;
    let mut slower = Vec::new();
    print!("{kind:<11}{name:<32}{bytes:>9.1}");
    for (call, times) in ["parse", "parse and value", "parse a String"].iter().zip(times.chunks(each)) {
        if *call == "parse and value" && shape == Parsed {
            print!("{:>1$}", "-", if each == 2 { 26 } else { 10 });
            continue;
        }
        for time in times {
            print!("{time:>10.1}");
        }
        if let [ours, upstream] = times {
            let ratio = ours / upstream;
            print!("{ratio:>6.2}");
            if ratio > 1.0 {
                slower.push((ratio, format!("{ratio:>6.2}  {call}: {kind} {name}")));
            }
        }
    }
    println!();
    slower
}

/// Prints the lines above the figures.
fn head() {
    if cfg!(upstream) {
        println!("{:<52}{:>26}{:>26}{:>26}", "", "parse", "parse and value", "parse a String");
        print!("{:<11}{:<32}{:>9}", "kind", "shape", "bytes");
        for _ in 0..3 {
            print!("{:>10}{:>10}{:>6}", "ours", "upstream", "ratio");
        }
        println!();
    } else {
        println!("{:<11}{:<32}{:>9}{:>10}{:>10}{:>10}", "kind", "shape", "bytes", "parse", "and value", "a String");
    }
}

/// A kind, a shape, the expected result, and its texts.
type Row<'a> = (&'a str, &'a str, Texts, Vec<&'a str>);

/// Returns the least times of each row. Compares the results first.
fn times_of(rows: &[Row]) -> Vec<[f64; CALLS.len()]> {
    for (_, _, shape, texts) in rows {
        compare(texts, *shape);
    }
    let mut times = vec![[f64::INFINITY; CALLS.len()]; rows.len()];
    for _ in 0..PASSES {
        for (row, least) in rows.iter().zip(&mut times) {
            time(&row.3, least);
        }
    }
    times
}

/// Prints the tables of tokens and values for the sources that the environment names.
#[cfg(not(shapes))]
fn tokens_and_values() {
    let rust = std::env::var("LITRS_BENCH_RUST");
    #[cfg(rustc_lexer)]
    if let Ok(folder) = &rust {
        lexer::main(folder);
    }
    if let Ok(folder) = std::env::var("LITRS_BENCH_SOURCES") {
        values::main("Rattle", &corpus::sources_in(&folder, "rt"));
    }
    if let Ok(folder) = &rust {
        values::main("Rust", &corpus::sources_in(folder, "rs"));
    }
}

fn main() {
    let part = std::env::args().nth(1);
    if part.as_deref() == Some("several_lines") {
        several_lines::main();
        return;
    }
    #[cfg(upstream)]
    if part.as_deref() == Some("families") {
        families::main();
        return;
    }
    if part.as_deref() == Some("sources") {
        held_out::sources();
        return;
    }
    #[cfg(not(shapes))]
    if part.as_deref() == Some("built") {
        built::main();
        return;
    }
    #[cfg(not(shapes))]
    if part.as_deref() == Some("tokens_and_values") {
        tokens_and_values();
        return;
    }
    println!("Nanoseconds a text, the least of {} rounds over up to {TEXTS} texts a shape.", PASSES * ROUNDS);
    if cfg!(all(upstream, check_suffix)) {
        println!("Upstream is built with its feature check_suffix.");
    } else if cfg!(upstream) {
        println!("Upstream is built WITHOUT its feature check_suffix, as unicode-xid is not at hand: of a suffix");
        println!("it looks at the ASCII alone.");
    }
    println!();
    let mut rows: Vec<(&str, &str, Texts, Vec<String>)> = (0..SHAPES.len())
        .map(|place| (SHAPES[place].0, SHAPES[place].1, SHAPES[place].2, texts_of(place)))
        .collect();
    let valued: Vec<&Vec<String>> =
        rows.iter().filter(|row| row.2 == Valued && row.3.len() == TEXTS).map(|row| &row.3).collect();
    let mixed = (0..TEXTS).map(|i| valued[i % valued.len()][i].clone()).collect();
    rows.push(("", "those with a value in turn", Valued, mixed));
    let rows: Vec<Row> = rows
        .iter()
        .map(|(kind, name, shape, texts)| (*kind, *name, *shape, texts.iter().map(String::as_str).collect()))
        .collect();
    let times = times_of(&rows);
    head();
    let mut slower = Vec::new();
    for ((kind, name, shape, texts), times) in rows.iter().zip(&times) {
        slower.extend(row(kind, name, *shape, texts, times));
    }
    if part.as_deref() == Some("shapes") {
        return;
    }
    if cfg!(upstream) {
        slower.sort_by(|(one, _), (other, _)| other.total_cmp(one));
        println!("\nSlower than upstream, the slowest first: {}", slower.len());
        for (_, line) in slower {
            println!("{line}");
        }
    }
    held_out::main();
    limits::main();
    prefix::main();
    #[cfg(not(shapes))]
    {
        tokens_and_values();
        built::main();
    }
    lines::main();
    going_on::main(&rows.iter().map(|(kind, name, _, texts)| (*kind, *name, &texts[..])).collect::<Vec<_>>());
    println!();
    allocations::main(&rows.iter().map(|(kind, name, _, texts)| (*kind, *name, &texts[..])).collect::<Vec<_>>());
}
