//! Times the literal at the front of a longer text, for each kind and before rests of several
//! lengths. Times all tokens of a source, beside a lexer that returns only the lengths of tokens,
//! like rustc_lexer.

use crate::{Call, answer, corpus, ours};
use std::hint::black_box;
use std::time::Instant;

/// A kind of literal, and a literal of this kind.
const LITERALS: &[(&str, &str)] = &[
    ("Bool", "true"),
    ("Integer", "1_000u32"),
    ("Integer", "0xFF_u8"),
    ("Float", "3.14"),
    ("Float", "1.5e-3_f64"),
    ("Char", "'a'"),
    ("Char", "'\\u{1f98a}'"),
    ("Byte", "b'\\xff'"),
    ("String", "\"a plain string\""),
    ("String", "\"a string\\twith\\n\""),
    ("String", "r#\"a raw string\"#"),
    ("ByteString", "b\"bytes\\0\""),
    ("CString", "c\"a C string\""),
];

/// A text that is repeated after the literal, and the lengths of the rest in bytes.
const REST: &str = ", and more of the text";
const LENS: [usize; 3] = [0, 100, 100_000];

/// The number of calls in a round, and of rounds.
const TEXTS: usize = 1000;
const ROUNDS: usize = 200;

/// The least number of bytes of the source whose tokens are cut.
const SOURCE_LEN: usize = 1 << 20;

/// Returns the least nanoseconds of a call.
fn time(call: Call, text: &str) -> f64 {
    let mut least = f64::INFINITY;
    for _ in 0..ROUNDS {
        let start = Instant::now();
        for _ in 0..TEXTS {
            black_box(answer(call, black_box(text)));
        }
        least = least.min(start.elapsed().as_nanos() as f64 / TEXTS as f64);
    }
    least
}

/// The rest of a text after the characters that were read.
struct Cursor<'a>(&'a str);

impl<'a> Cursor<'a> {
    fn first(&self) -> Option<char> {
        self.0.chars().next()
    }

    fn second(&self) -> Option<char> {
        let mut chars = self.0.chars();
        chars.next();
        chars.next()
    }

    fn bump(&mut self) -> Option<char> {
        let mut chars = self.0.chars();
        let first = chars.next();
        self.0 = chars.as_str();
        first
    }

    fn skip(&mut self, is: impl Fn(char) -> bool) {
        while self.first().is_some_and(&is) {
            self.bump();
        }
    }

    /// Skips a body up to its closing quote, and a suffix.
    fn skip_quoted(&mut self, quote: char) {
        while let Some(c) = self.bump() {
            if c == quote {
                break;
            } else if c == '\\' {
                self.bump();
            }
        }
        self.skip(continues_name);
    }

    /// Skips hashes, a raw body, its closing quote and hashes, and a suffix. Returns `true` if
    /// there is a body.
    fn skip_raw(&mut self) -> bool {
        let begun = self.0;
        self.skip(|c| c == '#');
        let hashes = begun.len() - self.0.len();
        if self.bump() != Some('"') {
            self.0 = begun;
            return false;
        }
        while let Some(c) = self.bump() {
            if c == '"' && self.0.bytes().take_while(|b| *b == b'#').take(hashes).count() == hashes {
                self.0 = &self.0[hashes..];
                break;
            }
        }
        self.skip(continues_name);
        true
    }

    fn skip_number(&mut self, first: char) {
        let digit = |c: char| c == '_' || c.is_ascii_digit();
        if first == '0' && matches!(self.first(), Some('x' | 'o' | 'b')) {
            self.bump();
            self.skip(|c| c == '_' || c.is_ascii_hexdigit());
        } else {
            self.skip(digit);
            let after = self.second();
            if self.first() == Some('.') && after != Some('.') && !after.is_some_and(begins_name) {
                self.bump();
                self.skip(digit);
            }
            if matches!(self.first(), Some('e' | 'E')) {
                self.bump();
                if matches!(self.first(), Some('+' | '-')) {
                    self.bump();
                }
                self.skip(digit);
            }
        }
        self.skip(continues_name);
    }

    fn skip_comment(&mut self) {
        let mut depth = 1;
        self.bump();
        while depth > 0 {
            match (self.bump(), self.first()) {
                (Some('/'), Some('*')) => depth += 1,
                (Some('*'), Some('/')) => depth -= 1,
                (None, _) => return,
                _ => continue,
            }
            self.bump();
        }
    }

    fn skip_lifetime_or_char(&mut self) {
        if self.second() != Some('\'') && self.first().is_some_and(begins_name) {
            self.skip(continues_name);
        } else {
            self.skip_quoted('\'');
        }
    }
}

fn begins_name(c: char) -> bool {
    c == '_' || c.is_ascii_alphabetic() || (!c.is_ascii() && c.is_alphabetic())
}

fn continues_name(c: char) -> bool {
    begins_name(c) || c.is_ascii_digit() || (!c.is_ascii() && c.is_alphanumeric())
}

/// Returns the length of the token, the white space or the comment at the front of a text.
fn token_len(text: &str) -> usize {
    let mut rest = Cursor(text);
    let Some(first) = rest.bump() else {
        return 0;
    };
    match (first, rest.first()) {
        ('/', Some('/')) => rest.skip(|c| c != '\n'),
        ('/', Some('*')) => rest.skip_comment(),
        ('0'..='9', _) => rest.skip_number(first),
        ('"', _) => rest.skip_quoted('"'),
        ('\'', _) => rest.skip_lifetime_or_char(),
        ('b' | 'c', Some('"')) | ('b', Some('\'')) => {
            let quote = rest.bump().unwrap_or('"');
            rest.skip_quoted(quote);
        }
        ('b' | 'c', Some('r')) => {
            rest.bump();
            if !rest.skip_raw() {
                rest.skip(continues_name);
            }
        }
        ('r', Some('"' | '#')) if rest.skip_raw() => {}
        (c, _) if begins_name(c) => rest.skip(continues_name),
        (c, _) if c.is_whitespace() => rest.skip(char::is_whitespace),
        _ => {}
    }
    text.len() - rest.0.len()
}

/// Like [`token_len`], but finds a literal with our `prefix_len`.
fn our_token_len(text: &str) -> usize {
    match answer(ours::prefix_len, text) {
        0 => token_len(text),
        len => len as usize,
    }
}

/// Returns the number of tokens of a text, and the least nanoseconds per token for cutting them.
fn time_tokens(text: &str, len: fn(&str) -> usize) -> (usize, f64) {
    let (mut count, mut least) = (0, f64::INFINITY);
    for _ in 0..20 {
        let start = Instant::now();
        let mut rest = black_box(text);
        count = 0;
        while !rest.is_empty() {
            rest = &rest[len(rest)..];
            count += 1;
        }
        least = least.min(start.elapsed().as_nanos() as f64 / count as f64);
    }
    (count, least)
}

/// Prints both tables.
pub fn main() {
    println!("\nNanoseconds of a literal before a rest of 0, 100 and 100,000 bytes.\n");
    println!("{:<11}{:<24}{:>30}{:>30}", "kind", "literal", "parse_prefix", "prefix_len");
    for (kind, literal) in LITERALS {
        print!("{kind:<11}{literal:<24}");
        for call in [ours::prefix as Call, ours::prefix_len] {
            for len in LENS {
                let rest: String = REST.chars().cycle().take(len).collect();
                print!("{:>10.1}", time(call, &format!("{literal}{rest}")));
            }
        }
        println!();
    }
    if let Ok(folder) = std::env::var("LITRS_BENCH_SOURCES") {
        let text = corpus::text_of(&folder, SOURCE_LEN);
        let (count, ours) = time_tokens(&text, our_token_len);
        let (others, theirs) = time_tokens(&text, token_len);
        let ratio = ours / theirs;
        println!("\nTokens of {} bytes of sources: {count} by prefix_len, {ours:.1} ns each;", text.len());
        println!("{others} by lengths alone, {theirs:.1} ns each; ratio {ratio:.2}");
    }
}
