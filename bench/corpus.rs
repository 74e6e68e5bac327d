//! Reads sources from folders, and finds the literals in them.

use crate::Texts::{self, Parsed, Valued};
use crate::{Call, REFUSED, answer, ours};
use std::fs;
use std::path::Path;

/// The greatest number of texts of a shape. They are taken at equal distances from all of them.
const TEXTS: usize = 20_000;

/// The number of literals in a row that are taken together for a row of literals in their order.
const STRETCH: usize = 1000;

/// The name of the sources, the variable that names their folder, and the extension of their files.
const CORPORA: &[(&str, &str, &str)] = &[
    ("Rattle", "LITRS_BENCH_SOURCES", "rt"),
    ("rustc", "LITRS_BENCH_RUST", "rs"),
    ("crates", "LITRS_BENCH_CRATES", "rs"),
    ("programs", "LITRS_BENCH_PROGRAMS", "rs"),
];

/// Appends the texts of the files in `folder` and below it that have this extension, in the order
/// of their names.
fn sources(folder: &Path, extension: &str, found: &mut Vec<String>) {
    let Ok(entries) = fs::read_dir(folder) else {
        return;
    };
    let mut paths: Vec<_> = entries.filter_map(|entry| Some(entry.ok()?.path())).collect();
    paths.sort();
    for path in paths {
        if path.is_dir() {
            sources(&path, extension, found);
        } else if path.extension().is_some_and(|it| it == extension) {
            found.extend(fs::read_to_string(&path));
        }
    }
}

/// Returns the length of a quoted body with its closing quote, or 0 if there is no closing quote.
fn quoted_len(rest: &str, quote: u8) -> usize {
    let mut escaped = false;
    for (i, byte) in rest.bytes().enumerate() {
        if byte == quote && !escaped {
            return i + 1;
        }
        escaped = byte == b'\\' && !escaped;
    }
    0
}

/// Returns the length of a raw string after its `r`, or 0 if `rest` is not one.
fn raw_len(rest: &str) -> usize {
    let hashes = rest.len() - rest.trim_start_matches('#').len();
    let closing = format!("\"{}", "#".repeat(hashes));
    match rest[hashes..].strip_prefix('"').and_then(|body| body.find(&closing)) {
        Some(end) => hashes + 1 + end + closing.len(),
        None => 0,
    }
}

/// Returns the length of a number, with a fraction and a suffix.
fn number_len(rest: &str) -> usize {
    let word = |text: &str| text.find(|c: char| c != '_' && !c.is_alphanumeric()).unwrap_or(text.len());
    let len = word(rest);
    match rest[len..].strip_prefix('.') {
        Some(fraction) if fraction.starts_with(|c: char| c.is_ascii_digit()) => len + 1 + word(fraction),
        _ => len,
    }
}

/// Returns the length in bytes of the token at the front of the text, which may be a literal.
fn token_len(rest: &str) -> usize {
    let after = |front: &str, len: fn(&str) -> usize| match len(&rest[front.len()..]) {
        0 => front.len(),
        len => front.len() + len,
    };
    for front in ["br", "cr", "r"] {
        if rest.starts_with(&format!("{front}\"")) || rest.starts_with(&format!("{front}#")) {
            return after(front, raw_len);
        }
    }
    for front in ["b\"", "c\"", "\""] {
        if rest.starts_with(front) {
            return after(front, |rest| quoted_len(rest, b'"'));
        }
    }
    for front in ["b'", "'"] {
        let mut chars = rest.strip_prefix(front).unwrap_or("").chars();
        if let (Some(first), Some(second)) = (chars.next(), chars.next())
            && (first == '\\' || second == '\'')
        {
            return after(front, |rest| quoted_len(rest, b'\''));
        }
    }
    match rest.chars().next() {
        Some(c) if c.is_ascii_digit() => number_len(rest),
        Some(c) if c == '_' || c.is_alphabetic() => {
            rest.find(|c: char| c != '_' && !c.is_alphanumeric()).unwrap_or(rest.len())
        }
        Some(c) => c.len_utf8(),
        None => 0,
    }
}

/// Appends the literals of a source, in their order.
fn literals_of(mut rest: &str, found: &mut Vec<String>) {
    while !rest.is_empty() {
        if rest.starts_with("//") {
            rest = &rest[rest.find('\n').unwrap_or(rest.len())..];
            continue;
        }
        let (token, next) = rest.split_at(token_len(rest));
        if answer(ours::parse as Call, token) & REFUSED == 0 {
            found.push(token.to_string());
        }
        rest = next;
    }
}

/// A kind of literal, the name of a shape, the expected result, and a test for its literals.
type Class = (&'static str, &'static str, Texts, fn(&str) -> bool);

const CLASSES: &[Class] = &[
    ("", "all in turn", Parsed, |_| true),
    ("String", "plain", Valued, |text| text.starts_with('"') && !text.contains('\\')),
    ("String", "with escapes", Valued, |text| text.starts_with('"') && text.contains('\\')),
    ("Integer", "integers", Valued, |text| is_number(text) && !is_float(text)),
    ("Float", "floats", Parsed, |text| is_number(text) && is_float(text)),
    ("Char", "chars", Valued, |text| text.starts_with('\'')),
];

fn is_number(text: &str) -> bool {
    text.starts_with(|c: char| c.is_ascii_digit())
}

fn is_float(text: &str) -> bool {
    !text.starts_with("0x") && text.contains(['.', 'e', 'E']) && !text.ends_with("size")
}

/// Returns the texts of the files below `folder` that have this extension.
pub fn sources_in(folder: &str, extension: &str) -> Vec<String> {
    let mut found = Vec::new();
    sources(Path::new(folder), extension, &mut found);
    found
}

/// Returns the sources below the folder, one after the other, until there are `len` bytes.
pub fn text_of(folder: &str, len: usize) -> String {
    let mut text = String::new();
    for source in sources_in(folder, "rt") {
        if text.len() < len {
            text.push_str(&source);
        }
    }
    text
}

/// The literals of sources, in their order.
pub struct Corpus {
    pub name: &'static str,
    pub folder: String,
    pub files: usize,
    pub literals: Vec<String>,
}

impl Corpus {
    /// Returns the rows of the literals: a kind, a name, the expected result, and the texts.
    pub fn rows(&self) -> Vec<(&'static str, &'static str, Texts, Vec<String>)> {
        let of = |is: fn(&str) -> bool| {
            let all: Vec<&String> = self.literals.iter().filter(|text| is(text)).collect();
            let len = all.len().min(TEXTS);
            (0..len).map(|i| all[i * all.len() / len].clone()).collect()
        };
        let mut rows = vec![("", "all in order", Parsed, self.in_order())];
        rows.extend(CLASSES.iter().map(|(kind, name, shape, is)| (*kind, *name, *shape, of(*is))));
        rows
    }

    /// Returns stretches of literals that follow one another, taken at equal distances.
    fn in_order(&self) -> Vec<String> {
        let count = TEXTS / STRETCH;
        let last = self.literals.len().saturating_sub(STRETCH);
        let starts = (0..count).map(|i| i * last / count);
        starts.flat_map(|start| self.literals.iter().skip(start).take(STRETCH)).cloned().collect()
    }
}

/// Returns the corpora whose folders the environment names, without those that have no literals.
pub fn found() -> Vec<Corpus> {
    let mut corpora = Vec::new();
    for (name, variable, extension) in CORPORA {
        let Ok(folder) = std::env::var(variable) else {
            continue;
        };
        let sources = sources_in(&folder, extension);
        let mut literals = Vec::new();
        sources.iter().for_each(|text| literals_of(text, &mut literals));
        if !literals.is_empty() {
            corpora.push(Corpus { name, folder, files: sources.len(), literals });
        }
    }
    corpora
}
