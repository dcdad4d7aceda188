//! Records of comma-separated values, as the `csv` crate reads them.

use std::borrow::Cow;

use super::column::Kind;

/// A field of a record, as the cell of its column.
pub enum Field<'a> {
    Missing,
    Number(i64),
    /// A text, which is wrong in a column of numbers.
    Text(Cow<'a, [u8]>),
}

/// Drops a byte order mark at the beginning.
pub fn without_mark(text: &[u8]) -> &[u8] {
    text.strip_prefix(b"\xef\xbb\xbf").unwrap_or(text)
}

/// Reads the first record of a text into `row`, and returns what follows it. Returns `None` if the text has
/// only empty lines.
#[inline]
pub fn read<'a>(mut text: &'a [u8], kinds: &[Kind], row: &mut Vec<Field<'a>>) -> Option<&'a [u8]> {
    while let Some((b'\n' | b'\r', rest)) = text.split_first() {
        text = rest;
    }
    if text.is_empty() {
        return None;
    }
    row.clear();
    let mut at = 0;
    loop {
        let kind = kinds.get(row.len()).copied().unwrap_or(Kind::Text);
        let (field, end) = read_field(text, at, kind);
        row.push(field);
        match text.get(end) {
            Some(b',') => at = end + 1,
            Some(b'\r') if text.get(end + 1) == Some(&b'\n') => return Some(&text[end + 2..]),
            Some(_) => return Some(&text[end + 1..]),
            None => return Some(&[]),
        }
    }
}

/// Reads the field that begins at `at`. Returns where it ends too: at a comma, at the end of a line or of
/// the text.
#[inline]
fn read_field(text: &[u8], at: usize, kind: Kind) -> (Field<'_>, usize) {
    if kind == Kind::Number {
        let (number, end) = leading_number(text, at);
        if let (Some(number), None | Some(b',' | b'\n' | b'\r')) = (number, text.get(end)) {
            return (Field::Number(number), end);
        }
    }
    let (bytes, end) = if text.get(at) == Some(&b'"') {
        let (own, end) = unquoted(text, at + 1);
        (Cow::Owned(own), end)
    } else {
        let end = end_of_field(text, at);
        (Cow::Borrowed(&text[at..end]), end)
    };
    if *bytes == *b"\\N" {
        return (Field::Missing, end);
    }
    match number(&bytes) {
        Some(number) if kind == Kind::Number => (Field::Number(number), end),
        _ => (Field::Text(bytes), end),
    }
}

#[inline]
fn end_of_field(text: &[u8], at: usize) -> usize {
    let ends = |byte: &u8| matches!(byte, b',' | b'\n' | b'\r');
    text[at..]
        .iter()
        .position(ends)
        .map_or(text.len(), |more| at + more)
}

/// Returns the field whose opening quote is before `at`, and where it ends. After its closing quote, bytes
/// up to the end of the field belong to it as they are.
#[cold]
fn unquoted(text: &[u8], mut at: usize) -> (Vec<u8>, usize) {
    let mut own = Vec::new();
    while let Some(byte) = text.get(at) {
        at += 1;
        if *byte == b'"' {
            if text.get(at) != Some(&b'"') {
                let end = end_of_field(text, at);
                own.extend_from_slice(&text[at..end]);
                return (own, end);
            }
            at += 1;
        }
        own.push(*byte);
    }
    (own, at)
}

/// Returns the number of a sign and at most 18 digits at `at`, and where they end.
#[inline]
fn leading_number(text: &[u8], at: usize) -> (Option<i64>, usize) {
    let is_negative = text.get(at) == Some(&b'-');
    let first = at + usize::from(is_negative);
    let (mut number, mut end) = (0i64, first);
    while let Some(byte) = text.get(end) {
        let digit = byte.wrapping_sub(b'0');
        if digit > 9 {
            break;
        }
        number = number.wrapping_mul(10).wrapping_add(i64::from(digit));
        end += 1;
    }
    let is_short = (1..=18).contains(&(end - first));
    let signed = if is_negative {
        number.wrapping_neg()
    } else {
        number
    };
    (is_short.then_some(signed), end)
}

/// Returns the number that a whole field spells.
pub fn number(field: &[u8]) -> Option<i64> {
    let digits = field
        .strip_prefix(b"+")
        .or(field.strip_prefix(b"-"))
        .unwrap_or(field);
    if digits.is_empty() || !digits.iter().all(u8::is_ascii_digit) {
        return None;
    }
    std::str::from_utf8(field).ok()?.parse().ok()
}
