//! Times a literal over many lines: `Collector::feed` of each line, beside `parse`.

use crate::{Call, answer, ours};
use std::hint::black_box;
use std::time::Instant;

/// The number of rounds over a text.
const ROUNDS: usize = 100;

/// The greatest growth of the time if there are twice as many lines.
const MOST_GROWTH: f64 = 2.2;

/// The numbers of lines.
const COUNTS: [usize; 3] = [10_000, 20_000, 40_000];

/// The bytes of a line, without its LF.
const LINE_LEN: usize = 50;

/// A name, the front of the literal, the end of each line, and the end of the literal.
const SHAPES: &[(&str, &str, &str, &str)] = &[
    ("raw", "r#\"", "", "\"#"),
    ("raw, with quotes", "r#\"", " \"a\"", "\"#"),
    ("raw, not ASCII", "r#\"", "\u{E9}\u{1F98A}", "\"#"),
    ("quoted", "\"", "", "\""),
    ("quoted, with escapes", "\"", "\\n\\t", "\""),
    ("quoted, not ASCII", "\"", "\u{E9}\u{1F98A}", "\""),
    ("continuations", "\"", "\\", "\""),
    ("a byte string", "b\"", "\\x00", "\""),
];

/// Returns a literal of `lines` lines. Allocates once, so there is no free memory between the
/// texts. Otherwise the collected lines would be there at first, and would be moved when they grow.
fn text_of((_, front, end, closing): (&str, &str, &str, &str), lines: usize) -> String {
    let mut text = String::with_capacity(front.len() + (LINE_LEN + 1) * lines + closing.len());
    text.push_str(front);
    for _ in 0..lines {
        text.extend(std::iter::repeat_n('x', LINE_LEN - end.len()));
        text.push_str(end);
        text.push('\n');
    }
    text.push_str(closing);
    text
}

unsafe extern "C" {
    /// Sets a parameter of the C library's allocator.
    fn mallopt(param: i32, value: i32) -> i32;
}

/// Makes the allocator keep freed memory. Otherwise the system supplies new pages for each text.
/// Filling them with zeros takes up to half of the time, and less for short texts.
fn keep_memory() {
    const TRIM_THRESHOLD: i32 = -1;
    const MMAP_THRESHOLD: i32 = -3;
    for param in [TRIM_THRESHOLD, MMAP_THRESHOLD] {
        assert_eq!(unsafe { mallopt(param, 1 << 30) }, 1);
    }
}

/// Returns the time of `calls` calls, in nanoseconds.
fn time(call: Call, text: &str, calls: usize) -> f64 {
    let start = Instant::now();
    for _ in 0..calls {
        black_box(answer(call, black_box(text)));
    }
    start.elapsed().as_nanos() as f64
}

/// The least times of a shape, in nanoseconds.
struct Least {
    /// The times of feeding each text, with splitting it.
    whole: [f64; 3],
    /// The times of splitting each text.
    split: [f64; 3],
    /// The time of a `parse` of one line that is a literal by itself.
    alone: f64,
    /// The time of a `parse` of the longest text.
    parse: f64,
}

/// Returns the least times. All calls take turns, so no text stays in the caches, and other work of
/// the machine affects all of them.
fn least_of(texts: &[String; 3], line: &str) -> Least {
    let [whole, split] = [[f64::INFINITY; 3]; 2];
    let mut least = Least { whole, split, alone: f64::INFINITY, parse: f64::INFINITY };
    for _ in 0..ROUNDS {
        for (i, text) in texts.iter().enumerate() {
            least.whole[i] = least.whole[i].min(time(ours::feed, text, 1));
            least.split[i] = least.split[i].min(time(ours::split, text, 1));
        }
        least.alone = least.alone.min(time(ours::parse, line, 1000) / 1000.0);
        least.parse = least.parse.min(time(ours::parse, &texts[2], 1));
    }
    least
}

/// Prints for each shape the time per line of 10,000, 20,000 and 40,000 lines, without the time of
/// splitting the text. Prints also the time of a line that is parsed as a literal by itself.
pub fn main() {
    println!("\nNanoseconds a line of `feed` of 10,000, 20,000 and 40,000 lines of one literal, less those of splitting");
    println!("the text alone; by how much the whole, with splitting, grows at most by a step; a `parse` of one line alone");
    println!("as a literal; the ratio; a line's share of a `parse` of the whole; splitting. The least of {ROUNDS} rounds.");
    keep_memory();
    for shape in SHAPES {
        let texts = COUNTS.map(|lines| text_of(*shape, lines));
        assert_eq!(answer(ours::feed, &texts[0]), answer(ours::parse, &texts[0]), "{}", shape.0);
        let Least { whole, split, alone, parse } = least_of(&texts, &text_of(*shape, 1));
        let growth = (whole[1] / whole[0]).max(whole[2] / whole[1]);
        let share = parse / COUNTS[2] as f64;
        print!("String     {:<32}", shape.0);
        for ((whole, split), lines) in whole.iter().zip(split).zip(COUNTS) {
            print!("{:>8.1}", (whole - split) / lines as f64);
        }
        let line = (whole[2] - split[2]) / COUNTS[2] as f64;
        print!("{growth:>6.2}{alone:>8.1}{:>6.2}{share:>8.1}", line / alone);
        print!("{:>8.1}", split[2] / COUNTS[2] as f64);
        println!("{}", if growth > MOST_GROWTH { "  grows" } else { "" });
    }
}
