//! The lines of a script, and the words of a line.

/// The most bytes that a script has.
pub const LONGEST: usize = 16_777_216;

/// What is left of a script.
pub struct Script<'a> {
    rest: &'a [u8],
    /// Whether bytes follow that are no part of a script, so that a last line without its end is none.
    is_cut: bool,
}

impl<'a> Script<'a> {
    /// The script in these bytes, up to its first fault.
    pub fn new(bytes: &'a [u8]) -> Script<'a> {
        let mut rest = &bytes[..bytes.len().min(LONGEST)];
        if let Err(fault) = std::str::from_utf8(rest) {
            rest = &rest[..fault.valid_up_to()];
        }
        let is_cut = rest.len() < bytes.len();
        Script { rest, is_cut }
    }

    /// Whether the script ends at a fault.
    pub fn is_cut(&self) -> bool {
        self.is_cut
    }

    /// Takes the next line that is not empty, without its end.
    #[inline]
    pub fn line(&mut self) -> Option<&'a [u8]> {
        loop {
            if self.rest.is_empty() {
                return None;
            }
            let end = end_of_line(self.rest);
            let line = &self.rest[..end];
            if end == self.rest.len() {
                self.rest = &[];
                return (!self.is_cut).then_some(line);
            }
            self.rest = &self.rest[end + 1..];
            let line = line.strip_suffix(b"\r").unwrap_or(line);
            if !line.is_empty() {
                return Some(line);
            }
        }
    }

    /// Takes the bytes of a load. If they are not all there, the script is cut.
    pub fn bytes(&mut self, count: usize) -> Option<&'a [u8]> {
        let continues = |byte: &u8| (0x80..0xc0).contains(byte);
        if count > self.rest.len() || self.rest.get(count).is_some_and(continues) {
            self.is_cut = true;
            self.rest = &[];
            return None;
        }
        let (bytes, rest) = self.rest.split_at(count);
        self.rest = rest;
        Some(bytes)
    }
}

/// Returns where the first line feed is, or the end. It compares 8 bytes at once.
#[inline]
fn end_of_line(text: &[u8]) -> usize {
    const ONES: u64 = 0x0101_0101_0101_0101;
    const TOPS: u64 = ONES << 7;
    let mut at = 0;
    while let Some(eight) = text[at..].first_chunk() {
        let marked = u64::from_le_bytes(*eight) ^ (ONES * b'\n' as u64);
        let zeros = marked.wrapping_sub(ONES) & !marked & TOPS;
        if zeros != 0 {
            return at + zeros.trailing_zeros() as usize / 8;
        }
        at += 8;
    }
    let last = text[at..].iter().position(|byte| *byte == b'\n');
    last.map_or(text.len(), |more| at + more)
}

/// The words of a line that are left. `None` is a line that has ended, which is not an empty word.
pub struct Words<'a>(Option<&'a [u8]>);

impl<'a> Words<'a> {
    /// All words of a line.
    pub fn new(line: &'a [u8]) -> Words<'a> {
        Words(Some(line))
    }

    /// Takes the next word.
    #[inline]
    pub fn word(&mut self) -> Option<&'a [u8]> {
        let text = self.0?;
        let end = text.iter().position(|byte| *byte == b' ');
        self.0 = end.map(|end| &text[end + 1..]);
        Some(end.map_or(text, |end| &text[..end]))
    }

    /// Takes the next word, if it is a number below 2^64.
    pub fn long(&mut self) -> Option<u64> {
        let word = self.word()?;
        let mut number = 0u64;
        for byte in word {
            let digit = byte.wrapping_sub(b'0');
            if digit > 9 {
                return None;
            }
            number = number.checked_mul(10)?.checked_add(u64::from(digit))?;
        }
        (!word.is_empty()).then_some(number)
    }

    /// Takes the next word, if it is a number below 2^32.
    #[inline]
    pub fn number(&mut self) -> Option<u32> {
        let text = self.0?;
        let (mut number, mut end) = (0u64, 0);
        while let Some(byte) = text.get(end) {
            let digit = byte.wrapping_sub(b'0');
            if digit > 9 {
                break;
            }
            number = number * 10 + u64::from(digit);
            if number > u64::from(u32::MAX) {
                return None;
            }
            end += 1;
        }
        self.0 = match text.get(end) {
            None => None,
            Some(b' ') => Some(&text[end + 1..]),
            Some(_) => return None,
        };
        (end > 0).then_some(number as u32)
    }

    /// Takes the rest of the line.
    #[inline]
    pub fn rest(&mut self) -> Option<&'a [u8]> {
        self.0.take()
    }

    /// Returns whether the line has ended.
    #[inline]
    pub fn end(&self) -> Option<()> {
        self.0.is_none().then_some(())
    }
}
