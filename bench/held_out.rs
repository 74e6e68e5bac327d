//! Times `parse` over texts that the table of shapes lacks: long runs of one character, one word
//! alone, and literals of given lengths.

use crate::Texts::{Refused, Valued};
use crate::{Numbers, Row, Texts, corpus, row, times_of};

/// The greatest number of texts of a shape of one size, and of their bytes together.
const TEXTS: usize = 1000;
const BYTES: usize = 1 << 18;

/// The lengths in bytes of long values. The greatest buffer on the stack has 32,768.
const LONG_VALUES: &[usize] = &[17_000, 34_000, 100_000];

/// A kind of literal, the name of a shape, the expected result, its sizes, and a function that
/// draws a text of a size.
type Sweep = (&'static str, &'static str, Texts, &'static [usize], fn(&mut Numbers, usize) -> String);

const SWEEPS: &[Sweep] = &[
    ("Bool", "only true", Valued, &[4], |_, _| "true".to_string()),
    ("Bool", "only false", Valued, &[5], |_, _| "false".to_string()),
    ("Bool", "true, percent among integers", Valued, &[10, 50], |n, percent| {
        if n.below(100) < percent as u64 { "true".to_string() } else { n.below(10_000).to_string() }
    }),
    ("Char", "refused: long, no end", Refused, &[2, 8, 30, 100, 1000, 262_144], |_, len| {
        format!("'{}", "a".repeat(len))
    }),
    ("Char", "refused: long", Refused, &[2, 8, 30, 100, 1000, 262_144], |_, len| format!("'{}'", "a".repeat(len))),
    ("Char", "underscores in an escape", Valued, &[0, 1, 8, 100], |_, len| {
        format!("'\\u{{1{}2}}'", "_".repeat(len))
    }),
    ("Char", "refused: underscores in an escape", Refused, &[1, 8, 100, 1000, 20_000], |_, len| {
        format!("'\\u{{1{}", "_".repeat(len))
    }),
    ("", "refused: a long word", Refused, &[8, 40, 200], |_, len| format!("static_{}", "a".repeat(len - 7))),
    ("String", "refused: only a quote", Refused, &[1], |_, _| "\"".to_string()),
    ("String", "refused: text after", Refused, &[1, 60, 1025, 20_000], |n, len| {
        format!("\"abc\" + {}", n.many(len, Numbers::plain))
    }),
    ("CString", "refused: no closing quote", Refused, &[1, 8, 20, 1025], |n, len| {
        format!("c\"{}", n.many(len, Numbers::plain))
    }),
    ("CString", "refused: NUL after", Refused, &[0, 1, 8, 20], |n, len| {
        format!("c\"{}\0\"", n.many(len, Numbers::plain))
    }),
    ("String", "refused: \\n, text after", Refused, &[60, 300, 1025, 5000, 20_000], |n, len| {
        format!("\"ab\\nc\" + {}", n.many(len, Numbers::plain))
    }),
    ("String", "refused: \\u, text after", Refused, &[60, 1025, 20_000], |n, len| {
        format!("\"ab\\u{{e9}}c\" + {}", n.many(len, Numbers::plain))
    }),
    ("ByteString", "refused: \\xff, text after", Refused, &[60, 1025, 20_000], |n, len| {
        format!("b\"ab\\xffc\" + {}", n.many(len, Numbers::plain))
    }),
    ("CString", "refused: \\xff, text after", Refused, &[60, 1025, 20_000], |n, len| {
        format!("c\"ab\\xffc\" + {}", n.many(len, Numbers::plain))
    }),
    ("String", "refused: LF, text after", Refused, &[60, 1025, 20_000], |n, len| {
        format!("\"\\\n\" + {}", n.many(len, Numbers::plain))
    }),
    ("String", "refused: \\u not closed", Refused, &[1, 5], |_, len| format!("\"\\u{{{}\"", "4".repeat(len))),
    ("String", "refused: no digit in \\u", Refused, &[1, 5], |_, len| format!("\"\\u{{{}g}}\"", "4".repeat(len))),
    ("String", "refused: \\x4", Refused, &[1], |_, _| "\"\\x4\"".to_string()),
    ("CString", "refused: \\u{0}", Refused, &[1], |_, _| "c\"\\u{0}\"".to_string()),
    ("String", "only LF continuations", Valued, &[4, 16, 64, 1000], |_, count| format!("\"{}\"", "\\\n".repeat(count))),
    ("String", "\\n each, value of", Valued, LONG_VALUES, |_, len| format!("\"{}\"", "\\n".repeat(len))),
    ("String", "a\\n each, value of", Valued, LONG_VALUES, |_, len| format!("\"{}\"", "a\\n".repeat(len / 2))),
    ("String", "\\u{1} each, value of", Valued, LONG_VALUES, |_, len| format!("\"{}\"", "\\u{1}".repeat(len))),
    ("String", "abc\\ each, value of", Valued, LONG_VALUES, |_, len| {
        format!("\"{}\"", "abc\\\n    ".repeat(len / 3))
    }),
    ("String", "abc\\ each, blanks after", Valued, &[0, 1, 2, 3, 4, 8, 20], |_, blanks| {
        let item = format!("abc\\\n{}", " ".repeat(blanks));
        format!("\"{}\"", item.repeat(100_000 / item.len()))
    }),
    ("String", "mixed escapes, value of", Valued, LONG_VALUES, |n, len| {
        let body = |n: &mut Numbers| format!("{}{}", n.plain(), n.escape());
        format!("\"{}\"", n.many(len / 2, body))
    }),
    ("String", "escapes of all kinds, number of", Valued, &[500, 5000, 50_000], |n, count| {
        let item = |n: &mut Numbers| match n.below(4) {
            0 => n.unicode_escape(),
            1 => "\\\n    ".to_string(),
            _ => n.escape(),
        };
        format!("\"{}\"", n.many(count, item))
    }),
    ("String", "underscores in one escape", Valued, &[0, 1, 8, 16, 100], |_, len| {
        format!("\"\\u{{1{}2}}\"", "_".repeat(len))
    }),
    ("String", "one escape among characters", Valued, &[0, 1, 2, 3, 4], |n, len| {
        let before = n.below(1 + len as u64) as usize;
        format!("\"{}\\n{}\"", "a".repeat(before), "a".repeat(len - before))
    }),
    ("String", "one escape, value of", Valued, &[127, 129, 150, 200, 1000, 4095, 5000], |n, len| {
        format!("\"\\n{}\"", n.many(len - 1, Numbers::plain))
    }),
    ("String", "escape each 2 bytes", Valued, &[20, 81, 200, 1000, 5000], |_, len| {
        format!("\"{}\"", "a\\n".repeat(len / 3))
    }),
    ("String", "escape each 8 bytes", Valued, &[81, 200, 1000, 5000], |n, len| {
        let body = |n: &mut Numbers| format!("{}{}", n.many(6, Numbers::plain), n.simple_escape());
        format!("\"{}\"", n.many(len / 8, body))
    }),
    ("String", "escape each 20 bytes", Valued, &[81, 200, 1000, 5000], |n, len| {
        let body = |n: &mut Numbers| format!("{}{}", n.many(18, Numbers::plain), n.simple_escape());
        format!("\"{}\"", n.many(len / 20, body))
    }),
    ("String", "unicode escapes", Valued, &[64, 512], |n, count| {
        format!("\"{}\"", n.many(count, Numbers::unicode_escape))
    }),
    ("String", "continuation of blanks", Valued, &[0, 4, 16, 1000, 262_144], |_, len| {
        format!("\"a\\\n{}b\"", " ".repeat(len))
    }),
    ("String", "refused: blanks, no end", Refused, &[4, 16, 1000, 262_144], |_, len| {
        format!("\"a\\\n{}", " ".repeat(len))
    }),
    ("String", "continuations", Valued, &[4, 64, 1000], |_, count| format!("\"{}\"", "line \\\n    ".repeat(count))),
    ("String", "raw, hashes", Valued, &[0, 1, 2, 3, 8, 64, 128, 255], |_, count| {
        let hashes = "#".repeat(count);
        format!("r{hashes}\"a body\"{hashes}")
    }),
    ("String", "raw, hashes, no body", Valued, &[0, 1, 2, 3], |_, count| {
        format!("r{0}\"\"{0}", "#".repeat(count))
    }),
    ("String", "raw, no body, suffix of", Valued, &[1, 4], |_, len| format!("r\"\"{}", "q".repeat(len))),
    ("String", "raw under 255 hashes, quotes only", Valued, &[100, 1000], |_, len| {
        let hashes = "#".repeat(255);
        format!("r{hashes}\"{} \"{hashes}", "\"".repeat(len))
    }),
    ("String", "refused: hashes", Refused, &[256, 1000], |_, count| {
        let hashes = "#".repeat(count);
        format!("r{hashes}\"a body\"{hashes}")
    }),
    ("String", "raw, quote after each", Valued, &[0, 1, 2, 4, 8, 30], |_, len| {
        format!("r#\"{}\"#", format!("{}\"", "a".repeat(len)).repeat(1000 / (1 + len)) + " ")
    }),
    ("String", "raw under ##, \"# only", Valued, &[100, 1000], |_, len| format!("r##\"{} \"##", "\"#".repeat(len / 2))),
    ("String", "raw under ##, quotes only", Valued, &[100, 1000], |_, len| format!("r##\"{} \"##", "\"".repeat(len))),
    ("ByteString", "raw under ##, quotes only", Valued, &[100, 1000], |_, len| {
        format!("br##\"{} \"##", "\"".repeat(len))
    }),
    ("CString", "raw under ##, quotes only", Valued, &[100, 1000], |_, len| {
        format!("cr##\"{} \"##", "\"".repeat(len))
    }),
    ("String", "refused: \\xff after", Refused, &[0, 1, 8, 20], |n, len| {
        format!("\"{}\\xff\"", n.many(len, Numbers::plain))
    }),
    ("CString", "refused: \\x00 after", Refused, &[0, 1, 8, 20], |n, len| {
        format!("c\"{}\\x00\"", n.many(len, Numbers::plain))
    }),
    ("String", "refused: raw, no end", Refused, &[1, 8, 20], |n, len| {
        format!("r#\"{}", n.many(len, Numbers::plain))
    }),
    ("ByteString", "only \\xNN", Valued, &[1, 16, 81, 400], |n, count| {
        format!("b\"{}\"", n.many(count, |n| format!("\\x{:02x}", n.below(256))))
    }),
    ("ByteString", "table of bytes", Valued, &[64, 256, 34_000], |n, count| {
        let byte = |n: &mut Numbers| match n.below(3) {
            0 => format!("\\x{:02x}", n.below(256)),
            1 => "\\0".to_string(),
            _ => n.plain(),
        };
        format!("b\"{}\"", (0..count / 16).map(|_| format!("\\\n    {}", n.many(16, byte))).collect::<String>())
    }),
];

/// Returns the texts of the shape at index `place` that have this size.
fn texts_of(place: usize, size: usize) -> Vec<String> {
    let mut numbers = Numbers(0xA076_1D64_78BD_642Fu64.wrapping_mul(1 + place as u64) ^ size as u64);
    let mut texts = Vec::new();
    let mut bytes = 0;
    while texts.len() < TEXTS && bytes < BYTES {
        let text = SWEEPS[place].4(&mut numbers, size);
        bytes += text.len();
        texts.push(text);
    }
    texts
}

/// Returns each size of the shape with this name, with its texts.
pub fn texts_named(name: &str) -> Vec<(usize, Vec<String>)> {
    let place = SWEEPS.iter().position(|sweep| sweep.1 == name).expect("a name of a shape");
    SWEEPS[place].3.iter().map(|size| (*size, texts_of(place, *size))).collect()
}

/// A kind of literal, the name of a row, the expected result, and the texts.
type Owned = (&'static str, String, Texts, Vec<String>);

/// Returns the rows of the literals of sources. Prints which these are.
fn rows_of_sources() -> Vec<Owned> {
    let mut rows = Vec::new();
    for corpus in corpus::found() {
        println!("{}: {} literals in {} files of {}", corpus.name, corpus.literals.len(), corpus.files, corpus.folder);
        for (kind, name, shape, texts) in corpus.rows() {
            rows.push((kind, format!("{}: {name}", corpus.name), shape, texts));
        }
    }
    rows
}

/// Prints the rows.
fn print(rows: &[Owned]) {
    let rows: Vec<Row> = rows
        .iter()
        .map(|(kind, name, shape, texts)| (*kind, name.as_str(), *shape, texts.iter().map(String::as_str).collect()))
        .collect();
    let times = times_of(&rows);
    let mut slower = 0;
    for ((kind, name, shape, texts), times) in rows.iter().zip(&times) {
        slower += row(kind, name, *shape, texts, times).len();
    }
    if cfg!(upstream) {
        println!("\nSlower than upstream: {slower}");
    }
}

/// Prints the table of the literals of sources.
pub fn sources() {
    println!("\nNanoseconds a literal of sources.");
    print(&rows_of_sources());
}

/// Prints the table of the sweeps and of the literals of sources.
pub fn main() {
    println!("\nNanoseconds a text of other shapes, by the size after their name: up to {TEXTS} texts each.");
    let mut rows = Vec::new();
    for (place, (kind, name, shape, sizes, _)) in SWEEPS.iter().enumerate() {
        for size in *sizes {
            rows.push((*kind, format!("{name} {size}"), *shape, texts_of(place, *size)));
        }
    }
    rows.extend(rows_of_sources());
    print(&rows);
}
