//! Times `parse` over families of texts: a front, a part of some length, and a back, for every
//! front, back and length of a list. Prints the texts that take longer than upstream. They show
//! whether the table of shapes lacks one.

use crate::{CALLS, ROUNDS, Times, answer, ours, time, upstream};

/// The time of a pass over a text, in nanoseconds, if it takes this much or more.
const PASS: usize = 30_000;

/// The number of passes over a text that seems to take longer than upstream.
const PASSES: usize = 4;

/// The lengths of the repeated part, in bytes.
const LENGTHS: &[usize] = &[
    0, 1, 2, 3, 4, 5, 6, 7, 8, 9, 10, 12, 14, 15, 16, 17, 20, 24, 28, 30, 31, 32, 33, 40, 48, 62, 63, 64, 65, 80, 100,
    126, 127, 128, 129, 200, 255, 256, 300, 500, 1000, 2000, 4000, 5000, 10_000, 20_000, 30_000, 60_000,
];

/// A front, a part that is repeated, and a back.
const FAMILIES: &[(&str, &str, &str)] = &[
    // Numbers.
    ("", "7", ""),
    ("", "0", ""),
    ("1", "_", ""),
    ("", "123_", "4"),
    ("", "7", "u8"),
    ("", "7", "_usize"),
    ("", "7", "größe"),
    ("1", "x", ""),
    ("1", "x", "-"),
    ("0x", "f", ""),
    ("0x", "dead_", "f"),
    ("0x", "f", "u128"),
    ("0x1", "_", ""),
    ("0x", "_", ""),
    ("0o", "7", ""),
    ("0o", "7", "8"),
    ("0b", "1", ""),
    ("0b", "1010_", "1"),
    ("0b", "1", "2"),
    ("", "7", "-2"),
    ("", "7", "."),
    ("", "7", ".5"),
    ("1.", "7", ""),
    ("1.", "7", "f64"),
    ("1.5e", "7", ""),
    ("1e", "_", "7"),
    ("1.5E-", "7", "_f32"),
    ("1e", "_", ""),
    ("1.", "7", "-"),
    // Chars and bytes.
    ("'", "a", "'"),
    ("'", "é", "'"),
    ("'", "a", ""),
    ("'a'", "x", ""),
    ("'a'", "x", "-"),
    ("'\\u{1", "_", "}'"),
    ("'\\u{1", "_", ""),
    ("'\\u{", "4", "}'"),
    ("b'", "a", "'"),
    ("b'", "a", ""),
    ("b'a'", "x", ""),
    // Quoted strings.
    ("\"", "a", "\""),
    ("\"", "é", "\""),
    ("\"", "🦊", "\""),
    ("\"", "a\n", "\""),
    ("\"", "a", "\"u8"),
    ("\"", "a", "\"-"),
    ("\"", "a", ""),
    ("\"", "a", "\\"),
    ("\"", "a", "\r\""),
    ("\"", "a", "\\n\""),
    ("\"\\n", "a", "\""),
    ("\"\\n", "a", "\\n\""),
    ("\"\\u{e9}", "a", "\\u{1f98a}\""),
    ("\"\\n", "a", "\"_x"),
    ("\"\\n", "a", "\"-"),
    ("\"\\n", "a", ""),
    ("\"\\n", "a", "\r\""),
    ("\"", "a", "\\q\""),
    ("\"", "a", "\\xg0\""),
    ("\"", "a", "\\x80\""),
    ("\"", "a", "\\u{zz}\""),
    ("\"", "a", "\\u{d800}\""),
    ("\"\\n", "a", "\\q\""),
    ("\"", "\\n", "\""),
    ("\"", "a\\n", "\""),
    ("\"", "abc\\t", "\""),
    ("\"", "abcdefgh\\t", "\""),
    ("\"", "a line of thirty characters, \\n", "\""),
    ("\"", "\\x41", "\""),
    ("\"", "\\u{1}", "\""),
    ("\"", "\\u{1f98a}", "\""),
    ("\"", "\\\\\\\"", "\""),
    ("\"\\u{1", "_", "}\""),
    ("\"", "\\\n", "\""),
    ("\"\\\n", " ", "\""),
    ("\"\\\n", "\t", "a\""),
    ("\"a\\\n", " ", ""),
    ("\"", "abc\\\n", "\""),
    ("\"", "abc\\\n ", "\""),
    ("\"", "abc\\\n    ", "\""),
    ("\"", "a line of thirty characters, \\\n    ", "\""),
    ("\"abc\" + ", "a", ""),
    ("\"a\\nbc\" + ", "a", ""),
    ("\"\\\n\" + ", "a", ""),
    ("b\"", "a", "\""),
    ("b\"", "a", "é\""),
    ("b\"", "a", "\\xff\""),
    ("b\"", "a", "\\u{41}\""),
    ("b\"", "\\xff", "\""),
    ("b\"", "\\0\\\n", "\""),
    ("b\"", "a", ""),
    ("c\"", "a", "\""),
    ("c\"", "é", "\""),
    ("c\"", "a", "\0\""),
    ("c\"", "a", "\\0\""),
    ("c\"", "a", "\\x00\""),
    ("c\"", "a", "\\n\""),
    ("c\"", "\\xff", "\""),
    ("c\"", "a", ""),
    // Raw strings.
    ("r\"", "a", "\""),
    ("r\"", "é", "\""),
    ("r\"", "a", "\"u8"),
    ("r\"", "a", "\"-"),
    ("r\"", "a", ""),
    ("r\"", "a", "\r\""),
    ("r#\"", "a", "\"#"),
    ("r#\"", "a", "\""),
    ("r#\"", "\"", " \"#"),
    ("r#\"", "a\"", " \"#"),
    ("r#\"", "abc\"", " \"#"),
    ("r##\"", "a", "\"#"),
    ("r##\"", "\"#", " \"##"),
    ("r\"abc\" + ", "a", ""),
    ("r", "#", ""),
    ("r", "#", "\""),
    ("r", "#", "a"),
    ("br\"", "a", "\""),
    ("br\"", "a", "é\""),
    ("br#\"", "a", "\"#"),
    ("cr\"", "a", "\""),
    ("cr\"", "a", "\0\""),
    ("cr#\"", "a", "\"#"),
    // Other texts.
    ("true", "x", ""),
    ("f", "a", ""),
    ("", "x", ""),
    ("", "é", ""),
    ("-", "1", ""),
    ("b", "x", ""),
    ("br", "x", ""),
];

/// Returns the texts of a family.
fn texts_of((front, part, back): (&str, &str, &str)) -> Vec<String> {
    let mut texts: Vec<String> =
        LENGTHS.iter().map(|len| format!("{front}{}{back}", part.repeat(len.div_ceil(part.len())))).collect();
    texts.dedup();
    texts
}

/// Returns the raw strings between hashes of each length up to 300, and some that lack a hash.
fn between_hashes() -> Vec<String> {
    let mut texts = Vec::new();
    for len in LENGTHS.iter().filter(|len| **len <= 300) {
        let hashes = "#".repeat(*len);
        texts.push(format!("r{hashes}\"a body\"{hashes}"));
        texts.push(format!("br{hashes}\"\"{hashes}u8"));
        texts.push(format!("r{hashes}\"{} \"{hashes}", "\"".repeat(50)));
        texts.push(format!("r{hashes}#\"a body\"{hashes}"));
        texts.push(format!("r{hashes}#\"{} \"{hashes}#", format!("\"{hashes}").repeat(10)));
    }
    texts
}

/// Returns the least times of a text, which is timed again while it seems to take longer.
fn times_of(text: &str) -> Times {
    let copies = vec![text; (PASS / 30 / (1 + text.len())).clamp(1, 100)];
    let mut least = [f64::INFINITY; CALLS.len()];
    for _ in 0..PASSES {
        time(&copies, &mut least);
        if least[0] < least[1] && least[2] < least[3] {
            break;
        }
    }
    least
}

/// Prints the texts that take longer than upstream, and how many there are.
pub fn main() {
    let mut texts: Vec<String> = FAMILIES.iter().flat_map(|family| texts_of(*family)).collect();
    texts.extend(between_hashes());
    let count = texts.len();
    println!("\n{count} texts of {} families and of raw strings between hashes, {ROUNDS} rounds.", FAMILIES.len());
    let (mut parsed, mut valued, mut logs) = (0, 0, [0.0; 2]);
    for text in &texts {
        assert_eq!(answer(ours::parse, text), answer(upstream::parse, text), "the parts or the place of {text}");
        assert_eq!(answer(ours::value, text), answer(upstream::value, text), "the value of {text}");
        let times = times_of(text);
        let [parse, value] = [times[0] / times[1], times[2] / times[3]];
        parsed += usize::from(parse > 1.0);
        valued += usize::from(value > 1.0);
        logs = [logs[0] + parse.ln(), logs[1] + value.ln()];
        if parse > 1.0 || value > 1.0 {
            let front: String = text.chars().take(20).collect();
            println!("{parse:.2}, with the value {value:.2}: {} bytes, {front:?} ..", text.len());
        }
    }
    let [parse, value] = logs.map(|sum| (sum / count as f64).exp());
    println!("Slower than upstream: {parsed}, with the value {valued}; geometric means {parse:.3} and {value:.3}");
}
