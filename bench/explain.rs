//! The program that `explain.py` times beside `litrs_explain`: a loop over the Rust crate that
//! writes the same lines for texts that are not literals.

use litrs::{Literal, ParseError};
use std::fmt::Write as _;
use std::io::{self, BufRead, BufWriter, Write};

/// Returns `true` if more text can complete a text whose error has this message.
fn is_incomplete(message: &str, text: &str) -> bool {
    match message {
        "exponent of floating point literal does not contain any digits" => {
            text.ends_with(['e', 'E', '+', '-', '_'])
        }
        "integer literal does not contain any digits" => text.ends_with(['b', 'o', 'x', '_']),
        "unterminated escape: input ended too soon"
        | "unterminated unicode escape (no closing '}')"
        | "character literal is not terminated"
        | "byte literal is not terminated"
        | "unterminated raw (byte) string literal"
        | "unterminated (byte) string literal" => true,
        _ => false,
    }
}

/// Writes the lines on the error of `text`, which is line `number`. `message` is emptied first.
fn report(out: &mut impl Write, number: usize, text: &str, error: &ParseError, message: &mut String) -> io::Result<()> {
    message.clear();
    write!(message, "{error}").unwrap();
    let message = message.rsplit_once(" (at").map_or(message.as_str(), |it| it.0);
    let span = error.span().unwrap_or(0..text.len());
    let before = text[..span.start].chars().count();
    let marks = text[span].chars().count().max(1);
    let margin = number.ilog10() as usize + 1;
    writeln!(out, "error: {message}")?;
    writeln!(out, "{:margin$}--> <stdin>:{number}:{}", "", before + 1)?;
    writeln!(out, "{:margin$} |", "")?;
    writeln!(out, "{number} | {text}")?;
    writeln!(out, "{:margin$} | {:before$}{:^<marks$}", "", "", "")?;
    if is_incomplete(message, text) {
        writeln!(out, "  this is incomplete: more text can complete it")
    } else {
        writeln!(out, "  no continuation of this text is a literal")
    }
}

fn main() -> io::Result<()> {
    let mut input = io::stdin().lock();
    let mut out = BufWriter::new(io::stdout().lock());
    let (mut line, mut message, mut number) = (String::new(), String::new(), 0);
    while input.read_line(&mut line)? > 0 {
        number += 1;
        let text = line.strip_suffix('\n').unwrap_or(&line);
        let text = text.strip_suffix('\r').unwrap_or(text);
        if let Err(error) = Literal::parse(text) {
            report(&mut out, number, text, &error, &mut message)?;
        }
        line.clear();
    }
    out.flush()
}
