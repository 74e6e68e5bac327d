//! Times small forms in Rust over some texts of `held_out`. Each form does a part of the work of
//! `parse`.

use crate::going_on::least;
use crate::{Call, corpus, held_out, ours};
use std::hint::black_box;

/// Returns the text of `len` bytes at the address `text`.
unsafe fn text_at<'a>(text: *const u8, len: usize) -> &'a str {
    unsafe { str::from_utf8_unchecked(std::slice::from_raw_parts(text, len)) }
}

/// Returns which bool the text is.
unsafe extern "C" fn which_bool(text: *const u8, len: usize) -> u64 {
    match unsafe { text_at(text, len) } {
        "true" => 1,
        "false" => 2,
        _ => 0,
    }
}

/// A parsed text, of the same size as a literal.
#[allow(dead_code)]
enum Parsed<'a> {
    Bool(bool),
    Number(&'a str, [usize; 5]),
    Text(&'a str, [usize; 5], bool),
}

/// Returns a number or a text. Like the functions that cut a literal, this one is called, and not
/// inlined.
#[inline(never)]
fn parsed(text: &str) -> Result<Parsed<'_>, Refusal> {
    let places = [text.len(); 5];
    match text.as_bytes() {
        [b'0'..=b'9', ..] => Ok(Parsed::Number(text, places)),
        [.., b'"'] => Ok(Parsed::Text(text, places, false)),
        _ => Err(Refusal { span: Some(0..1), char_end: 1, kind: 0 }),
    }
}

/// Returns which bool the text is, after a call for the texts of other kinds.
unsafe extern "C" fn bool_among_kinds(text: *const u8, len: usize) -> u64 {
    let text = unsafe { text_at(text, len) };
    let answer = match text.as_bytes() {
        [b'0'..=b'9' | b'\'' | b'"' | b'r', ..] | [b'b' | b'c', b'\'' | b'"' | b'r', ..] => parsed(text),
        b"true" => Ok(Parsed::Bool(true)),
        b"false" => Ok(Parsed::Bool(false)),
        _ => Err(Refusal { span: None, char_end: 0, kind: 2 }),
    };
    match answer {
        Ok(Parsed::Bool(value)) => 1 + u64::from(value),
        Ok(Parsed::Number(text, places)) => (text.len() + places[0]) as u64,
        Ok(Parsed::Text(text, places, is_raw)) => (text.len() + places[1]) as u64 + u64::from(is_raw),
        Err(refusal) => refusal.span.map_or(0, |span| span.end as u64),
    }
}

/// A cut text of another kind: the places of its parts, and its own value if it has one. Each of
/// the functions that cut is called, like each of ours.
struct Cut {
    places: [usize; 3],
    value: Option<String>,
}

#[inline(never)]
fn cut_number(text: &str) -> Result<[usize; 4], Refusal> {
    let end = text.bytes().position(|byte| !byte.is_ascii_digit()).unwrap_or(text.len());
    if end < 40 { Ok([0, end, end, text.len()]) } else { Err(Refusal { span: Some(end..end + 1), char_end: end + 1, kind: 3 }) }
}

#[inline(never)]
fn cut_char(text: &str, front: usize) -> Result<(char, usize), Refusal> {
    match text[front..].chars().next() {
        Some(character) => Ok((character, front + character.len_utf8() + 1)),
        None => Err(Refusal { span: None, char_end: 0, kind: 4 }),
    }
}

#[inline(never)]
fn cut_text(text: &str, front: usize) -> Result<Cut, Refusal> {
    match text[front..].find(['"', '\\']) {
        Some(place) if text.as_bytes()[front + place] == b'"' => {
            Ok(Cut { places: [front, front + place, front + place + 1], value: None })
        }
        Some(place) => Ok(Cut { places: [front, place, text.len()], value: Some(text.to_string()) }),
        None => Err(Refusal { span: None, char_end: 0, kind: 5 }),
    }
}

/// A parsed text whose parts the calling function puts together.
enum Whole<'a> {
    Bool(bool),
    Number(&'a str, [usize; 4]),
    Char(&'a str, char, usize),
    Byte(&'a str, char, usize),
    Text(&'a str, Cut),
}

/// Returns the literal that the text is, by its first byte.
#[inline(always)]
fn whole(text: &str) -> Result<Whole<'_>, Refusal> {
    match text.as_bytes() {
        [b'0'..=b'9', ..] => Ok(Whole::Number(text, cut_number(text)?)),
        [b'\'', ..] => cut_char(text, 1).map(|(value, end)| Whole::Char(text, value, end)),
        [b'"', ..] => Ok(Whole::Text(text, cut_text(text, 1)?)),
        [b'r', ..] => Ok(Whole::Text(text, cut_text(text, 2)?)),
        [b'b', b'\'', ..] => cut_char(text, 2).map(|(value, end)| Whole::Byte(text, value, end)),
        [b'b' | b'c', b'"', ..] => Ok(Whole::Text(text, cut_text(text, 2)?)),
        [b'b' | b'c', b'r', ..] => Ok(Whole::Text(text, cut_text(text, 3)?)),
        b"true" => Ok(Whole::Bool(true)),
        b"false" => Ok(Whole::Bool(false)),
        _ => Err(Refusal { span: None, char_end: 0, kind: 2 }),
    }
}

/// Returns which bool the text is. Puts a literal of another kind together here, from the parts
/// that a call has cut.
unsafe extern "C" fn bool_beside_kinds(text: *const u8, len: usize) -> u64 {
    match whole(unsafe { text_at(text, len) }) {
        Ok(Whole::Bool(value)) => 1 + u64::from(value),
        Ok(Whole::Number(text, places)) => (places[1] + places[2] + text.len() - places[3]) as u64,
        Ok(Whole::Char(text, value, end)) => u64::from(u32::from(value)) + (text.len() - end) as u64,
        Ok(Whole::Byte(text, value, end)) => 2 * u64::from(u32::from(value)) + (text.len() - end) as u64,
        Ok(Whole::Text(text, Cut { places, value })) => match value {
            Some(value) => (value.len() + text.len() - places[2]) as u64,
            None => (places[1] - places[0] + text.len() - places[2]) as u64,
        },
        Err(refusal) => refusal.span.map_or(0, |span| span.end as u64) + u64::from(refusal.kind),
    }
}

/// Returns the place of a quote after the first byte.
unsafe extern "C" fn quote_place(text: *const u8, len: usize) -> u64 {
    let text = unsafe { text_at(text, len) };
    text[1..].find('\'').unwrap_or(len) as u64
}

/// Searches byte by byte for the closing quote of a quoted string without backslash and CR. Returns
/// its place, or 0 for any other text.
unsafe extern "C" fn closing_quote(text: *const u8, len: usize) -> u64 {
    let body = &unsafe { text_at(text, len) }.as_bytes()[1..];
    match body.iter().position(|byte| matches!(byte, b'"' | b'\\' | b'\r')) {
        Some(place) if body[place] == b'"' => place as u64 + 1,
        _ => 0,
    }
}

/// Copies the text to new memory, and frees it.
unsafe extern "C" fn copied(text: *const u8, len: usize) -> u64 {
    black_box(unsafe { text_at(text, len) }.to_string()).len() as u64
}

/// Returns one more than the length of the suffix of a raw string whose body does not contain a
/// quote. Returns 0 for any other text.
unsafe extern "C" fn raw_end(text: *const u8, len: usize) -> u64 {
    let text = unsafe { text_at(text, len) };
    let rest = text[1..].trim_start_matches('#');
    let hashes = len - 1 - rest.len();
    let Some(quote) = rest[1..].find(['"', '\r']) else {
        return 0;
    };
    let (closing, suffix) = rest[2 + quote..].split_at(hashes);
    if closing.bytes().all(|byte| byte == b'#') { suffix.len() as u64 + 1 } else { 0 }
}

/// Returns the value of the hexadecimal digits and underscores at the front, and their length in
/// bytes.
fn hex(digits: &str) -> (u32, usize) {
    let len = digits.find(|c: char| c != '_' && !c.is_ascii_hexdigit()).unwrap_or(digits.len());
    let digits = digits[..len].chars().filter_map(|c| c.to_digit(16));
    (digits.fold(0, |value, digit| 16 * value + digit), len)
}

/// Appends the value of the escape or continuation at the front, and returns its length in bytes.
fn push_item(rest: &str, value: &mut Vec<u8>) -> usize {
    let byte = match rest.as_bytes()[1] {
        b'\n' => return rest.len() - rest[1..].trim_start_matches([' ', '\t', '\n']).len(),
        b'x' => {
            value.push(hex(&rest[2..4]).0 as u8);
            return 4;
        }
        b'u' => {
            let (number, len) = hex(&rest[3..]);
            let mut buffer = [0; 4];
            let character = char::from_u32(number).unwrap_or(' ').encode_utf8(&mut buffer);
            value.extend_from_slice(character.as_bytes());
            return 4 + len;
        }
        b'n' => b'\n',
        b't' => b'\t',
        b'r' => b'\r',
        b'0' => 0,
        other => other,
    };
    value.push(byte);
    2
}

/// Builds the value of a quoted string, with room for as many bytes as the text has, and frees it.
/// It does not test the escapes, the characters and the text after the closing quote.
unsafe extern "C" fn unescaped(text: *const u8, len: usize) -> u64 {
    let text = unsafe { text_at(text, len) };
    let mut rest = &text[text.find('"').map_or(0, |quote| quote + 1)..];
    let mut value = Vec::with_capacity(len);
    while let Some(run) = rest.find(['\\', '"']) {
        value.extend_from_slice(&rest.as_bytes()[..run]);
        rest = &rest[run..];
        if rest.starts_with('"') {
            break;
        }
        rest = &rest[push_item(rest, &mut value)..];
    }
    black_box(value).len() as u64
}

/// Returns the value of a simple escape or `\xNN` with its length, or `None` if it is invalid.
#[inline(always)]
fn escaped_byte(rest: &[u8]) -> Option<(u8, usize)> {
    let byte = match *rest.get(1)? {
        b'n' => b'\n',
        b't' => b'\t',
        b'r' => b'\r',
        b'0' => 0,
        quoted @ (b'\\' | b'"' | b'\'') => quoted,
        b'x' => {
            let digit = |place: usize| char::from(*rest.get(place)?).to_digit(16);
            return Some(((16 * digit(2)? + digit(3)?) as u8, 4)).filter(|(byte, _)| byte.is_ascii());
        }
        _ => return None,
    };
    Some((byte, 2))
}

/// Builds the value of a quoted string of few bytes, if the text is one, and frees it. The value is
/// built on the stack while the characters and escapes are tested. It is copied once the text ends
/// with the closing quote.
unsafe extern "C" fn tested(text: *const u8, len: usize) -> u64 {
    let text = unsafe { text_at(text, len) }.as_bytes();
    let mut room = [0; 80];
    let (mut at, mut used) = (1, 0);
    loop {
        let (byte, len) = match text.get(at) {
            Some(b'"') => break,
            None | Some(b'\r') => return 0,
            Some(b'\\') => match escaped_byte(&text[at..]) {
                Some(item) => item,
                None => return 0,
            },
            Some(plain) => (*plain, 1),
        };
        let Some(place) = room.get_mut(used) else {
            return 0;
        };
        *place = byte;
        used += 1;
        at += len;
    }
    if at + 1 != text.len() {
        return 0;
    }
    black_box(room[..used].to_vec()).len() as u64
}

/// An error, of the same size as ours.
#[allow(dead_code)]
struct Refusal {
    span: Option<std::ops::Range<usize>>,
    char_end: usize,
    kind: u8,
}

/// Returns the place of the first escape, or 0 if there is none. Returns an error if the escape is
/// `\xNN` with 0 or a value above 7F.
#[inline(never)]
fn first_escape(text: &str) -> Result<usize, Refusal> {
    let Some(place) = text.find('\\') else {
        return Ok(0);
    };
    match text.as_bytes()[place + 1] {
        b'x' => match hex(&text[place + 2..place + 4]).0 {
            1..=0x7F => Ok(place),
            _ => Err(Refusal { span: Some(place..place + 4), char_end: place + 4, kind: 1 }),
        },
        _ => Ok(place),
    }
}

/// Returns the place of the first escape, or the sum of the ends of its span if it is invalid.
unsafe extern "C" fn refused_escape(text: *const u8, len: usize) -> u64 {
    match first_escape(unsafe { text_at(text, len) }) {
        Ok(place) => place as u64,
        Err(refusal) => refusal.span.map_or(0, |span| (span.start + span.end) as u64),
    }
}

/// Returns the lengths of the parts of a decimal number, in one number.
unsafe extern "C" fn number_parts(text: *const u8, len: usize) -> u64 {
    let text = unsafe { text_at(text, len) };
    let digits = |rest: &str| rest.find(|c: char| c != '_' && !c.is_ascii_digit()).unwrap_or(rest.len());
    let integer = digits(text);
    let mut end = integer;
    if text[end..].starts_with('.') {
        end += 1 + digits(&text[end + 1..]);
    }
    if text[end..].starts_with(['e', 'E']) {
        end += 1;
        end += usize::from(text[end..].starts_with(['+', '-']));
        end += digits(&text[end..]);
    }
    (integer + (end << 8) + ((len - end) << 16)) as u64
}

/// Returns a first result for a literal of any kind. That is the result of [`number_parts`],
/// [`which_bool`] or [`raw_end`] for these kinds, and of [`unescaped`] for a literal with a
/// backslash. For any other text it is the place of the closing quote after the opening one.
unsafe extern "C" fn parts_by_kind(text: *const u8, len: usize) -> u64 {
    let bytes = unsafe { text_at(text, len) }.as_bytes();
    let front = match bytes {
        [b'0'..=b'9', ..] => return unsafe { number_parts(text, len) },
        [b't' | b'f', ..] => return unsafe { which_bool(text, len) },
        [b'r', ..] | [b'b' | b'c', b'r', ..] => return unsafe { raw_end(text, len) },
        [b'"' | b'\'', ..] => 1,
        _ => 2,
    };
    let rest = unsafe { text_at(text.add(front), len - front) };
    match rest.find(['\\', char::from(bytes[front - 1])]) {
        Some(place) if rest.as_bytes()[place] == b'\\' => unsafe { unescaped(text, len) },
        Some(place) => place as u64,
        None => 0,
    }
}

const VALUE: &str = "its value, put together and freed";
const TESTED: &str = "its value, tested and put together on the stack, copied and freed";

/// The name of texts of `held_out`, the result of a form, and the form.
const FORMS: &[(&str, &str, Call)] = &[
    ("only true", "which bool it is", which_bool),
    ("only false", "which bool it is", which_bool),
    ("only true", "which bool it is, after the other kinds", bool_among_kinds),
    ("only false", "which bool it is, after the other kinds", bool_among_kinds),
    ("only true", "which bool it is, where the other kinds are put together too", bool_beside_kinds),
    ("only false", "which bool it is, where the other kinds are put together too", bool_beside_kinds),
    ("refused: long, no end", "where a quote stands", quote_place),
    ("one escape among characters", "a copy, and its release", copied),
    ("one escape among characters", VALUE, unescaped),
    ("one escape among characters", TESTED, tested),
    ("underscores in one escape", VALUE, unescaped),
    ("escape each 2 bytes", VALUE, unescaped),
    ("escape each 20 bytes", VALUE, unescaped),
    ("unicode escapes", VALUE, unescaped),
    ("continuation of blanks", VALUE, unescaped),
    ("continuations", VALUE, unescaped),
    ("only \\xNN", VALUE, unescaped),
    ("table of bytes", VALUE, unescaped),
    ("raw, hashes", "where the suffix begins", raw_end),
    ("refused: \\xff after", "where the escape is refused", refused_escape),
    ("refused: \\x00 after", "where the escape is refused", refused_escape),
];

/// Like [`FORMS`], for literals of real sources.
const SOURCE_FORMS: &[(&str, &str, Call)] = &[
    ("all in turn", "the parts or the value of each kind", parts_by_kind),
    ("plain", "where its closing quote stands", closing_quote),
    ("with escapes", VALUE, unescaped),
    ("integers", "how long its parts are", number_parts),
    ("floats", "how long its parts are", number_parts),
];

/// Prints the row of a form.
fn row(name: &str, texts: &[String], what: &str, form: Call) {
    let texts: Vec<&str> = texts.iter().map(String::as_str).collect();
    let [ours, form] = [ours::parse as Call, form].map(|call| least(call, &texts));
    println!("{name:<43}{ours:>10.1}{form:>10.1}  {what}");
}

/// Prints the table.
pub fn main() {
    println!("\nNanoseconds a text of `parse`, and of a form in Rust that does a part of it.");
    for (name, what, form) in FORMS {
        for (size, texts) in held_out::texts_named(name) {
            row(&format!("{name} {size}"), &texts, what, *form);
        }
    }
    for corpus in corpus::found() {
        for (_, name, _, texts) in corpus.rows() {
            for (_, what, form) in SOURCE_FORMS.iter().filter(|form| form.0 == name) {
                row(&format!("{}: {name}", corpus.name), &texts, what, *form);
            }
        }
    }
}
