//! Times the tokens of Rust sources beside rustc_lexer: first all tokens of the sources in turn,
//! then the tokens of each kind, each from its own place. Both return the kind and the length of a
//! token. rustc_lexer does not test escapes, digits and suffixes.

use crate::{Call, answer, corpus, ours};
use std::collections::{BTreeMap, HashMap};
use std::hint::black_box;
use std::time::Instant;

/// The greatest number of places of a kind, and the number of rounds over them.
const PLACES: usize = 4000;
const ROUNDS: usize = 400;

/// The number of rounds over all sources.
const WALKS: usize = 10;

/// A kind with fewer tokens is timed a second time, with its tokens repeated up to `PLACES`.
const FEW: usize = 100;

/// The kinds for which the calls of litrs_prefix are timed too.
const LITERALS: &[&str] = &[
    "bool",
    "byte",
    "byte string",
    "char",
    "float",
    "integer, decimal",
    "integer, other base",
    "raw string",
    "string",
    "malformed literal",
];

/// The kinds of rustc_lexer, by their numbers in litrs_bench.rt.in.
const WHITESPACE: u64 = 1;
const LINE_COMMENT: u64 = 2;
const BLOCK_COMMENT: u64 = 3;
const OPEN_COMMENT: u64 = 4;
const IDENT: u64 = 5;
const RAW_IDENT: u64 = 6;
const UNKNOWN_PREFIX: u64 = 7;
const LIFETIME: u64 = 8;
const LITERAL: u64 = 11;
const MALFORMED: u64 = 12;
const PUNCTUATION: u64 = 13;
const UNKNOWN: u64 = 14;

mod theirs {
    use super::*;
    use rustc_lexer::{LiteralKind, TokenKind};

    #[inline(always)]
    fn is_whole(kind: LiteralKind) -> bool {
        match kind {
            LiteralKind::Int { empty_int, .. } => !empty_int,
            LiteralKind::Float { empty_exponent, .. } => !empty_exponent,
            LiteralKind::Char { terminated }
            | LiteralKind::Byte { terminated }
            | LiteralKind::Str { terminated }
            | LiteralKind::ByteStr { terminated } => terminated,
            LiteralKind::RawStr { err, .. } | LiteralKind::RawByteStr { err, .. } => err.is_none(),
        }
    }

    #[inline(always)]
    fn number(token: rustc_lexer::Token) -> u64 {
        let kind = match token.kind {
            TokenKind::Whitespace => WHITESPACE,
            TokenKind::LineComment { .. } => LINE_COMMENT,
            TokenKind::BlockComment { terminated: true, .. } => BLOCK_COMMENT,
            TokenKind::BlockComment { .. } => OPEN_COMMENT,
            TokenKind::Ident => IDENT,
            TokenKind::RawIdent => RAW_IDENT,
            TokenKind::UnknownPrefix => UNKNOWN_PREFIX,
            TokenKind::Lifetime { .. } => LIFETIME,
            TokenKind::Literal { kind, .. } if is_whole(kind) => LITERAL,
            TokenKind::Literal { .. } => MALFORMED,
            TokenKind::InvalidIdent | TokenKind::Unknown => UNKNOWN,
            _ => PUNCTUATION,
        };
        (kind << 56) + token.len as u64
    }

    pub unsafe extern "C" fn token(text: *const u8, len: usize) -> u64 {
        let text = unsafe { str::from_utf8_unchecked(std::slice::from_raw_parts(text, len)) };
        if text.is_empty() { 0 } else { number(rustc_lexer::first_token(text)) }
    }

    pub unsafe extern "C" fn tokens(text: *const u8, len: usize) -> u64 {
        let text = unsafe { str::from_utf8_unchecked(std::slice::from_raw_parts(text, len)) };
        rustc_lexer::tokenize(text).fold(0u64, |sum, token| sum.wrapping_mul(31).wrapping_add(number(token)))
    }
}

/// Returns the kind and the length of a token from its number.
fn split(number: u64) -> (u64, usize) {
    (number >> 56, (number & ((1 << 56) - 1)) as usize)
}

/// Returns the start and the number of each token of a text. A bool is a literal.
fn tokens_of(call: Call, text: &str) -> Vec<(usize, u64)> {
    let (mut found, mut start) = (Vec::new(), 0);
    while start < text.len() {
        let number = answer(call, &text[start..]);
        let (kind, len) = split(number);
        let is_bool = kind == IDENT && matches!(&text[start..start + len], "true" | "false");
        found.push((start, if is_bool { (LITERAL << 56) + len as u64 } else { number }));
        start += len;
    }
    found
}

/// Returns the name of a kind of token in the table.
fn name_of(kind: u64, text: &str) -> &'static str {
    let begins = |fronts: &[&str]| fronts.iter().any(|front| text.starts_with(front));
    match kind {
        WHITESPACE => "white space",
        LINE_COMMENT => "line comment",
        BLOCK_COMMENT => "block comment",
        OPEN_COMMENT => "unterminated comment",
        IDENT => "identifier",
        RAW_IDENT => "raw identifier",
        UNKNOWN_PREFIX => "unknown prefix",
        LIFETIME => "lifetime",
        MALFORMED => "malformed literal",
        PUNCTUATION => "punctuation",
        UNKNOWN => "unknown",
        LITERAL if begins(&["true", "false"]) => "bool",
        LITERAL if begins(&["0x", "0o", "0b"]) => "integer, other base",
        LITERAL if text.starts_with(|c: char| c.is_ascii_digit()) && text.contains(['.', 'e', 'E']) => "float",
        LITERAL if text.starts_with(|c: char| c.is_ascii_digit()) => "integer, decimal",
        LITERAL if begins(&["'"]) => "char",
        LITERAL if begins(&["b'"]) => "byte",
        LITERAL if begins(&["\""]) => "string",
        LITERAL if begins(&["b\""]) => "byte string",
        LITERAL if begins(&["r\"", "r#", "br"]) => "raw string",
        _ => "",
    }
}

/// The tokens of a kind: their number, their bytes, and the text from some of their places on.
struct Kind<'a> {
    count: usize,
    bytes: usize,
    step: usize,
    rests: Vec<&'a str>,
}

impl<'a> Kind<'a> {
    /// Adds the token of `len` bytes at the front of `rest`. Keeps every second place if there are
    /// too many.
    fn add(&mut self, rest: &'a str, len: usize) {
        if self.count % self.step == 0 {
            self.rests.push(rest);
        }
        self.count += 1;
        self.bytes += len;
        if self.rests.len() == 2 * PLACES {
            self.rests = self.rests.iter().step_by(2).copied().collect();
            self.step *= 2;
        }
    }
}

/// The tokens of sources.
#[derive(Default)]
struct Found<'a> {
    /// The tokens that are the same in both lexers, by their kinds.
    kinds: BTreeMap<&'static str, Kind<'a>>,
    /// The tokens that have another kind in rustc_lexer.
    of_another_kind: Vec<&'a str>,
    /// The tokens that rustc_lexer does not have.
    of_another_extent: Vec<&'a str>,
}

/// Returns the tokens of the sources, compared with those of rustc_lexer.
fn tokens_beside(sources: &[String]) -> Found<'_> {
    let mut found = Found::default();
    for text in sources {
        let theirs: HashMap<usize, u64> = tokens_of(theirs::token, text).into_iter().collect();
        for (start, number) in tokens_of(ours::token, text) {
            let (kind, len) = split(number);
            let token = &text[start..start + len];
            match theirs.get(&start) {
                Some(other) if *other == number => {
                    let empty = || Kind { count: 0, bytes: 0, step: 1, rests: Vec::new() };
                    found.kinds.entry(name_of(kind, token)).or_insert_with(empty).add(&text[start..], len);
                }
                Some(other) if split(*other).1 == len => found.of_another_kind.push(token),
                _ => found.of_another_extent.push(token),
            }
        }
    }
    found
}

/// Returns up to 24 characters of some of the texts.
fn some_of(texts: &[&str]) -> Vec<String> {
    texts.iter().step_by(1 + texts.len() / 8).map(|text| text.chars().take(24).collect()).collect()
}

/// Returns the least nanoseconds of a round over these texts by each call. The calls take turns.
fn time(texts: &[&str], rounds: usize, calls: [Call; 2]) -> [f64; 2] {
    let mut least = [f64::INFINITY; 2];
    for _ in 0..rounds {
        for (least, call) in least.iter_mut().zip(calls) {
            let start = Instant::now();
            let mut sum = 0u64;
            for text in texts {
                sum = sum.wrapping_add(answer(call, black_box(text)));
            }
            black_box(sum);
            *least = least.min(start.elapsed().as_nanos() as f64);
        }
    }
    least
}

fn row(name: &str, count: usize, bytes: usize, timed: usize, [ours, theirs]: [f64; 2]) {
    let (ours, theirs) = (ours / timed as f64, theirs / timed as f64);
    let len = bytes as f64 / count as f64;
    println!("{name:<22}{count:>10}{len:>8.1}{ours:>10.1}{theirs:>13.1}{:>7.2}", ours / theirs);
}

/// Prints the table of the Rust sources in `folder`.
pub fn main(folder: &str) {
    let sources = corpus::sources_in(folder, "rs");
    let found = tokens_beside(&sources);
    let others = found.of_another_kind.len() + found.of_another_extent.len();
    let count = others + found.kinds.values().map(|kind| kind.count).sum::<usize>();
    let bytes = sources.iter().map(String::len).sum();
    println!("\nNanoseconds a token of {} Rust sources, {bytes} bytes, together and by kind.", sources.len());
    for (words, texts) in [("kind", &found.of_another_kind), ("extent", &found.of_another_extent)] {
        println!("Of another {words} by rustc_lexer: {}, for example {:?}.", texts.len(), some_of(texts));
    }
    println!("\n{:<22}{:>10}{:>8}{:>10}{:>13}{:>7}", "kind", "tokens", "bytes", "ours", "rustc_lexer", "ratio");
    let texts: Vec<&str> = sources.iter().map(String::as_str).collect();
    row("all, in turn", count, bytes, count, time(&texts, WALKS, [ours::tokens, theirs::tokens]));
    for (name, kind) in &found.kinds {
        let calls = [ours::token as Call, theirs::token];
        row(name, kind.count, kind.bytes, kind.rests.len(), time(&kind.rests, ROUNDS, calls));
        if kind.count < FEW {
            let more: Vec<&str> = kind.rests.iter().cycle().take(PLACES).copied().collect();
            let bytes = PLACES * kind.bytes / kind.count;
            row("  these, repeated", PLACES, bytes, PLACES, time(&more, ROUNDS, calls));
        }
    }
    for (name, call) in [("prefix_len", ours::prefix_len as Call), ("parse_prefix", ours::prefix)] {
        println!("\n{name:<22}{:>10}{:>8}{:>10}{:>13}{:>7}", "literals", "bytes", "ours", "rustc_lexer", "ratio");
        for literal in LITERALS {
            if let Some(kind) = found.kinds.get(literal) {
                let times = time(&kind.rests, ROUNDS, [call, theirs::token]);
                row(literal, kind.count, kind.bytes, kind.rests.len(), times);
            }
        }
    }
}
