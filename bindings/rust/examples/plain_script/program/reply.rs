//! Replies, which are written when there are many or the script ends.

use std::io::Write;

use super::refusal::Refusal;

const FULL: usize = 1 << 16;

/// The least number that has more than 8 digits.
const LONG: u64 = 100_000_000;

/// Replies that are not written yet, and where they are written to.
pub struct Replies<'a> {
    bytes: Vec<u8>,
    output: &'a mut dyn Write,
    is_broken: bool,
}

impl<'a> Replies<'a> {
    /// No replies.
    pub fn new(output: &'a mut dyn Write) -> Replies<'a> {
        let bytes = Vec::with_capacity(2 * FULL);
        Replies {
            bytes,
            output,
            is_broken: false,
        }
    }

    /// Appends bytes.
    #[inline]
    pub fn text(&mut self, text: &[u8]) {
        self.bytes.extend_from_slice(text);
    }

    /// Appends a number.
    #[inline]
    pub fn number(&mut self, number: i64) {
        if number < 0 {
            self.bytes.push(b'-');
        }
        self.count(number.unsigned_abs());
    }

    /// Appends a number that is not negative.
    #[inline]
    pub fn count(&mut self, number: u64) {
        if number >= LONG {
            return self.long(number);
        }
        let digits = eight_digits(number);
        let zeros = (digits.trailing_zeros() as usize / 8).min(7);
        // Appending 8 bytes always takes no loop.
        self.bytes
            .extend_from_slice(&((digits | ASCII) >> (8 * zeros)).to_le_bytes());
        self.bytes.truncate(self.bytes.len() - zeros);
    }

    #[cold]
    fn long(&mut self, number: u64) {
        self.count(number / LONG);
        let digits = eight_digits(number % LONG) | ASCII;
        self.bytes.extend_from_slice(&digits.to_le_bytes());
    }

    /// Appends a sum.
    pub fn wide(&mut self, number: i128) {
        match i64::try_from(number) {
            Ok(short) => self.number(short),
            Err(_) => self.text(number.to_string().as_bytes()),
        }
    }

    /// Appends a text as a field of a record, which is quoted as the `csv` crate quotes it.
    #[inline]
    pub fn field(&mut self, text: Option<&[u8]>, is_alone: bool) {
        let Some(text) = text else {
            return self.text(b"\\N");
        };
        let is_marked = text
            .iter()
            .any(|it| matches!(it, b',' | b'"' | b'\r' | b'\n'));
        if is_marked || is_alone && text.is_empty() {
            self.quoted(text);
        } else {
            self.text(text);
        }
    }

    #[cold]
    fn quoted(&mut self, text: &[u8]) {
        self.bytes.push(b'"');
        for byte in text {
            if *byte == b'"' {
                self.bytes.push(b'"');
            }
            self.bytes.push(*byte);
        }
        self.bytes.push(b'"');
    }

    /// Appends marks of rows: `+` for one that is there, `-` for a removed one.
    pub fn marks(&mut self, alive: &[bool]) {
        let marks = alive.iter().map(|it| if *it { b'+' } else { b'-' });
        self.bytes.extend(marks);
    }

    /// Ends a line.
    #[inline]
    pub fn end(&mut self) {
        self.bytes.push(b'\n');
        if self.bytes.len() >= FULL {
            self.flush();
        }
    }

    /// Appends a line of a text alone.
    pub fn line(&mut self, text: &[u8]) {
        self.text(text);
        self.end();
    }

    /// Appends a line of a text and a number.
    #[inline]
    pub fn counted<const LENGTH: usize>(&mut self, text: &[u8; LENGTH], number: u64) {
        self.text(text);
        self.count(number);
        self.end();
    }

    /// Appends the line of a refusal.
    pub fn refused(&mut self, refusal: Refusal) {
        let line = format!("refused {} {}", refusal.number(), refusal);
        self.line(line.as_bytes());
    }

    /// Writes all replies so far.
    pub fn flush(&mut self) {
        let written = self.output.write_all(&self.bytes);
        let flushed = written.and_then(|()| self.output.flush());
        self.is_broken |= flushed.is_err();
        self.bytes.clear();
    }

    /// Returns whether a write failed.
    pub fn is_broken(&self) -> bool {
        self.is_broken
    }
}

/// Eight digits 0.
const ASCII: u64 = 0x3030_3030_3030_3030;

/// Returns the digits of a number below `LONG`, one in each byte, the first one in the lowest. It divides
/// two halves, four quarters and eight bytes at once, each by a multiplication.
#[inline]
fn eight_digits(number: u64) -> u64 {
    let halves = (number / 10_000) | (number % 10_000) << 32;
    let hundreds = ((halves * 10_486) >> 20) & 0x0000_007f_0000_007f;
    let quarters = hundreds | (halves - 100 * hundreds) << 16;
    let tens = ((quarters * 103) >> 10) & 0x000f_000f_000f_000f;
    tens | (quarters - 10 * tens) << 8
}
