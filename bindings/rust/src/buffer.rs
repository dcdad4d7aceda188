use crate::Column;

/// A validity mask, as a [`Column`] takes it: a bit for each row.
#[derive(Debug, Clone, Default)]
struct Bits {
    bytes: Vec<u8>,
    len: usize,
    has_missing: bool,
}

impl Bits {
    fn push(&mut self, valid: bool) {
        if self.len % 8 == 0 {
            self.bytes.push(0);
        }
        self.bytes[self.len / 8] |= u8::from(valid) << (self.len % 8);
        self.len += 1;
        self.has_missing |= !valid;
    }

    fn clear(&mut self) {
        self.bytes.clear();
        self.len = 0;
        self.has_missing = false;
    }

    fn put_on<'a>(&'a self, column: Column<'a>) -> Column<'a> {
        if self.has_missing {
            column.valid(&self.bytes)
        } else {
            column
        }
    }
}

/// A buffer of numbers, some of them missing, for a [`Column`] to borrow. If none is missing, a slice
/// and [`Column::ints`] are enough.
///
/// ```
/// use fullercoral::{IntBuffer, Limits, Memory, Schema, Table};
///
/// let mut table = Table::open(Schema::new().int("price"), Limits::new(), Memory::new())?;
/// let mut prices: IntBuffer = [Some(5), None].into_iter().collect();
/// prices.push(7);
/// table.extend_columns(&[prices.column()])?;
/// assert_eq!((table.int("price", 1)?, table.int("price", 2)?), (None, Some(7)));
/// # Ok::<(), Box<dyn std::error::Error>>(())
/// ```
#[derive(Debug, Clone, Default)]
pub struct IntBuffer {
    values: Vec<i64>,
    valid: Bits,
}

impl IntBuffer {
    /// Makes an empty buffer.
    ///
    /// ```
    /// assert!(fullercoral::IntBuffer::new().column().is_empty());
    /// ```
    #[must_use]
    pub fn new() -> IntBuffer {
        IntBuffer::default()
    }

    /// Appends a number, or a missing one.
    ///
    /// ```
    /// let mut prices = fullercoral::IntBuffer::new();
    /// prices.push(5);
    /// prices.push(None);
    /// assert_eq!(prices.column().len(), 2);
    /// ```
    pub fn push(&mut self, number: impl Into<Option<i64>>) {
        let number = number.into();
        self.values.push(number.unwrap_or(0));
        self.valid.push(number.is_some());
    }

    /// Removes all numbers, and keeps the capacity.
    ///
    /// ```
    /// let mut prices: fullercoral::IntBuffer = [5].into_iter().collect();
    /// prices.clear();
    /// assert!(prices.column().is_empty());
    /// ```
    pub fn clear(&mut self) {
        self.values.clear();
        self.valid.clear();
    }

    /// Borrows the numbers as a column.
    ///
    /// ```
    /// let prices: fullercoral::IntBuffer = [5, 7].into_iter().collect();
    /// assert_eq!(prices.column().len(), 2);
    /// ```
    #[must_use]
    pub fn column(&self) -> Column<'_> {
        self.valid.put_on(Column::ints(&self.values))
    }
}

impl<T: Into<Option<i64>>> FromIterator<T> for IntBuffer {
    fn from_iter<I: IntoIterator<Item = T>>(numbers: I) -> IntBuffer {
        let mut buffer = IntBuffer::new();
        buffer.extend(numbers);
        buffer
    }
}

impl<T: Into<Option<i64>>> Extend<T> for IntBuffer {
    fn extend<I: IntoIterator<Item = T>>(&mut self, numbers: I) {
        numbers.into_iter().for_each(|number| self.push(number));
    }
}

/// A buffer of texts, some of them missing, for a [`Column`] to borrow. It stores them back to back,
/// with offsets, and takes anything that implements `AsRef<str>`.
///
/// ```
/// use fullercoral::TextBuffer;
///
/// let mut skus: TextBuffer = ["rye", "bread"].into_iter().collect();
/// skus.push_missing();
/// skus.extend((0..5).map(|n| format!("cake {n}")));
/// assert_eq!(skus.column().len(), 8);
/// ```
#[derive(Debug, Clone)]
pub struct TextBuffer {
    offsets: Vec<u64>,
    bytes: Vec<u8>,
    valid: Bits,
}

impl TextBuffer {
    /// Makes an empty buffer.
    ///
    /// ```
    /// assert!(fullercoral::TextBuffer::new().column().is_empty());
    /// ```
    #[must_use]
    pub fn new() -> TextBuffer {
        TextBuffer {
            offsets: vec![0],
            bytes: Vec::new(),
            valid: Bits::default(),
        }
    }

    /// Appends a text.
    ///
    /// ```
    /// let mut skus = fullercoral::TextBuffer::new();
    /// skus.push("rye");
    /// assert_eq!(skus.column().len(), 1);
    /// ```
    pub fn push(&mut self, text: &str) {
        self.bytes.extend_from_slice(text.as_bytes());
        self.end_text(true);
    }

    /// Appends a missing text.
    ///
    /// ```
    /// let mut skus = fullercoral::TextBuffer::new();
    /// skus.push_missing();
    /// assert_eq!(skus.column().len(), 1);
    /// ```
    pub fn push_missing(&mut self) {
        self.end_text(false);
    }

    fn end_text(&mut self, valid: bool) {
        self.valid.push(valid);
        self.offsets.push(self.bytes.len() as u64);
    }

    /// Removes all texts, and keeps the capacity.
    ///
    /// ```
    /// let mut skus: fullercoral::TextBuffer = ["rye"].into_iter().collect();
    /// skus.clear();
    /// assert!(skus.column().is_empty());
    /// ```
    pub fn clear(&mut self) {
        self.offsets.truncate(1);
        self.bytes.clear();
        self.valid.clear();
    }

    /// Borrows the texts as a column.
    ///
    /// ```
    /// let skus: fullercoral::TextBuffer = ["rye", "bread"].into_iter().collect();
    /// assert_eq!(skus.column().len(), 2);
    /// ```
    #[must_use]
    pub fn column(&self) -> Column<'_> {
        self.valid.put_on(Column::texts(&self.offsets, &self.bytes))
    }
}

impl Default for TextBuffer {
    fn default() -> TextBuffer {
        TextBuffer::new()
    }
}

impl<T: AsRef<str>> FromIterator<T> for TextBuffer {
    fn from_iter<I: IntoIterator<Item = T>>(texts: I) -> TextBuffer {
        let mut buffer = TextBuffer::new();
        buffer.extend(texts);
        buffer
    }
}

impl<T: AsRef<str>> Extend<T> for TextBuffer {
    fn extend<I: IntoIterator<Item = T>>(&mut self, texts: I) {
        texts.into_iter().for_each(|text| self.push(text.as_ref()));
    }
}

#[cfg(test)]
mod tests {
    use super::*;
    use crate::{Limits, Memory, Schema, Table};

    #[test]
    fn what_is_missing_in_a_buffer_is_missing_in_the_table()
    -> Result<(), Box<dyn std::error::Error>> {
        let schema = Schema::new().text("t").int("n");
        let mut table = Table::open(schema, Limits::new().group(8), Memory::new())?;
        let (mut texts, mut numbers) = (TextBuffer::new(), IntBuffer::new());
        let due = |n: u32| (n % 3 > 0).then_some(n);
        for from in [0, 21, 42] {
            texts.clear();
            numbers.clear();
            for n in from..from + 21 {
                numbers.push(due(n).map(i64::from));
                match due(n) {
                    Some(n) => texts.push(&n.to_string()),
                    None => texts.push_missing(),
                }
            }
            table.extend_columns(&[texts.column(), numbers.column()])?;
        }
        for n in 0..63 {
            let text = due(n).map(|n| n.to_string());
            assert_eq!(table.int("n", n)?, due(n).map(i64::from));
            assert_eq!(table.text("t", n)?, text.as_deref());
        }
        texts.clear();
        assert!(!texts.valid.has_missing && texts.column().is_empty());
        Ok(())
    }
}
