//! The calls of litrs.h over the Rust crate litrs, as a static library for the C benchmark.
//!
//! An error does not have a kind, which is private in that crate, or `is_final` and `is_open`.

use litrs::{Literal, ParseError};
use std::ops::Range;

#[repr(C)]
#[derive(Clone, Copy, Default)]
pub struct Place {
    start: usize,
    end: usize,
}

#[repr(C)]
#[derive(Clone, Copy, Default)]
pub struct Fields {
    kind: u32,
    base: u32,
    is_raw: bool,
    has_fraction: bool,
    has_value: bool,
    value_low: u64,
    value_high: u64,
    main: Place,
    fraction: Place,
    exponent: Place,
    suffix: Place,
}

#[repr(C)]
#[derive(Clone, Copy, Default)]
pub struct Refusal {
    kind: u32,
    has_span: bool,
    is_final: bool,
    is_open: bool,
    span: Place,
    char_span: Place,
}

#[repr(C)]
#[derive(Clone, Copy, Default)]
pub struct Answer {
    status: u32,
    literal: Fields,
    refusal: Refusal,
}

/// Returns the text at a pointer, or `None` if its bytes are not UTF-8.
#[inline(always)]
unsafe fn text_at<'a>(text: *const u8, len: usize) -> Option<&'a str> {
    let bytes = if len == 0 { &[] } else { unsafe { std::slice::from_raw_parts(text, len) } };
    str::from_utf8(bytes).ok()
}

#[unsafe(no_mangle)]
pub unsafe extern "C" fn upstream_parse(text: *const u8, len: usize) -> Answer {
    let Some(text) = (unsafe { text_at(text, len) }) else {
        return Answer { status: 2, ..Answer::default() };
    };
    match Literal::parse(text) {
        Ok(lit) => Answer { status: 0, literal: fields(&lit), ..Answer::default() },
        Err(e) => Answer { status: 1, refusal: refusal(&e, text), ..Answer::default() },
    }
}

#[unsafe(no_mangle)]
pub unsafe extern "C" fn upstream_parse_into(text: *const u8, len: usize, answer: &mut Answer) {
    let Some(text) = (unsafe { text_at(text, len) }) else {
        answer.status = 2;
        return;
    };
    match Literal::parse(text) {
        Ok(lit) => {
            answer.status = 0;
            answer.literal = fields(&lit);
        }
        Err(e) => {
            answer.status = 1;
            answer.refusal = refusal(&e, text);
        }
    }
}

/// Returns the place of `part`, which must be a slice of `text`.
#[inline(always)]
fn place(text: &str, part: &str) -> Place {
    let start = part.as_ptr() as usize - text.as_ptr() as usize;
    Place { start, end: start + part.len() }
}

#[inline(always)]
fn fields(lit: &Literal<&str>) -> Fields {
    match lit {
        Literal::Bool(lit) => {
            let len = lit.as_str().len();
            value(1, u64::from(lit.value()), Place { start: len, end: len })
        }
        Literal::Integer(lit) => {
            let value = lit.value::<u128>();
            Fields {
                kind: 2,
                base: u32::from(lit.base().value()),
                has_value: value.is_some(),
                value_low: value.unwrap_or(0) as u64,
                value_high: (value.unwrap_or(0) >> 64) as u64,
                main: place(lit.raw_input(), lit.raw_main_part()),
                suffix: suffix(lit.raw_input(), lit.suffix()),
                ..Fields::default()
            }
        }
        Literal::Float(lit) => {
            let text = lit.raw_input();
            Fields {
                kind: 3,
                has_fraction: lit.fractional_part().is_some(),
                main: place(text, lit.integer_part()),
                fraction: lit.fractional_part().map_or(Place::default(), |it| place(text, it)),
                exponent: place(text, lit.exponent_part()),
                suffix: suffix(text, lit.suffix()),
                ..Fields::default()
            }
        }
        Literal::Char(lit) => {
            value(4, u64::from(lit.value()), suffix(lit.raw_input(), lit.suffix()))
        }
        Literal::Byte(lit) => {
            value(5, u64::from(lit.value()), suffix(lit.raw_input(), lit.suffix()))
        }
        Literal::String(lit) => {
            string(6, lit.is_raw_string(), suffix(lit.raw_input(), lit.suffix()))
        }
        Literal::ByteString(lit) => {
            string(7, lit.is_raw_byte_string(), suffix(lit.raw_input(), lit.suffix()))
        }
        Literal::CString(lit) => {
            string(8, lit.is_raw_c_string(), suffix(lit.raw_input(), lit.suffix()))
        }
        _ => Fields::default(),
    }
}

#[inline(always)]
fn suffix(text: &str, suffix: &str) -> Place {
    Place { start: text.len() - suffix.len(), end: text.len() }
}

#[inline(always)]
fn value(kind: u32, value: u64, suffix: Place) -> Fields {
    Fields { kind, has_value: true, value_low: value, suffix, ..Fields::default() }
}

#[inline(always)]
fn string(kind: u32, is_raw: bool, suffix: Place) -> Fields {
    Fields { kind, is_raw, suffix, ..Fields::default() }
}

#[inline(always)]
fn refusal(error: &ParseError, text: &str) -> Refusal {
    let Some(Range { start, end }) = error.span() else {
        return Refusal::default();
    };
    let mut char_end = end;
    while !text.is_char_boundary(char_end) {
        char_end += 1;
    }
    let char_span = Place { start, end: char_end };
    Refusal { has_span: true, span: Place { start, end }, char_span, ..Refusal::default() }
}
