use std::ptr::NonNull;

use crate::Kind;
use crate::sys::fc_column;

/// A column of rows to insert together, in the layout of Arrow. It borrows its data.
///
/// ```
/// use fullercoral::{Column, Limits, Memory, Schema, Table};
///
/// let schema = Schema::new().text("sku").int("quantity");
/// let mut table = Table::open(schema, Limits::new(), Memory::new())?;
/// let skus = Column::texts(&[0, 3, 8], b"ryebread");
/// let quantities = Column::ints(&[3, 5]);
/// assert_eq!(table.extend_columns(&[skus, quantities])?, 2);
/// # Ok::<(), Box<dyn std::error::Error>>(())
/// ```
#[derive(Debug, Clone, Copy)]
pub struct Column<'a> {
    data: Data<'a>,
    valid: Option<&'a [u8]>,
}

#[derive(Debug, Clone, Copy)]
enum Data<'a> {
    Ints(&'a [i64]),
    Texts { offsets: &'a [u64], bytes: &'a [u8] },
}

impl<'a> Column<'a> {
    /// A column of numbers.
    ///
    /// ```
    /// assert_eq!(fullercoral::Column::ints(&[3, 5]).len(), 2);
    /// ```
    #[must_use]
    pub fn ints(values: &'a [i64]) -> Column<'a> {
        Column {
            data: Data::Ints(values),
            valid: None,
        }
    }

    /// A column of texts, back to back in `bytes`. `offsets` has the start of each text and the end of
    /// the last: one more than there are texts. [`TextBuffer`](crate::TextBuffer) makes both.
    ///
    /// ```
    /// assert_eq!(fullercoral::Column::texts(&[0, 3, 8], b"ryebread").len(), 2);
    /// ```
    #[must_use]
    pub fn texts(offsets: &'a [u64], bytes: &'a [u8]) -> Column<'a> {
        Column {
            data: Data::Texts { offsets, bytes },
            valid: None,
        }
    }

    /// Adds a validity mask: a bit for each row, the lowest first, set if the row has a value.
    /// [`IntBuffer`](crate::IntBuffer) and [`TextBuffer`](crate::TextBuffer) keep such a mask themselves.
    ///
    /// ```
    /// let column = fullercoral::Column::ints(&[3, 0, 5]).valid(&[0b101]);
    /// # let _ = column;
    /// ```
    #[must_use]
    pub fn valid(mut self, bits: &'a [u8]) -> Column<'a> {
        self.valid = Some(bits);
        self
    }

    /// The number of rows.
    ///
    /// ```
    /// assert_eq!(fullercoral::Column::ints(&[3, 5]).len(), 2);
    /// ```
    #[must_use]
    pub fn len(&self) -> usize {
        match self.data {
            Data::Ints(values) => values.len(),
            Data::Texts { offsets, .. } => offsets.len().saturating_sub(1),
        }
    }

    /// Whether the column has no rows.
    ///
    /// ```
    /// assert!(fullercoral::Column::ints(&[]).is_empty());
    /// ```
    #[must_use]
    pub fn is_empty(&self) -> bool {
        self.len() == 0
    }

    pub(crate) fn kind(&self) -> Kind {
        match self.data {
            Data::Ints(_) => Kind::Int,
            Data::Texts { .. } => Kind::Text,
        }
    }

    /// The bytes of local memory that the texts of these rows take.
    pub(crate) fn text_bytes(&self, from: usize, to: usize) -> u64 {
        match self.data {
            Data::Ints(_) => 0,
            Data::Texts { offsets, .. } => {
                let texts = offsets[to].saturating_sub(offsets[from]);
                texts.saturating_add(4 * (to - from) as u64)
            }
        }
    }

    /// The length of a row's text in bytes; 0 if it is missing.
    pub(crate) fn text_len(&self, row: usize) -> u64 {
        let is_valid = |bits: &[u8]| bits[row / 8] >> (row % 8) & 1 == 1;
        match self.data {
            Data::Texts { offsets, .. } if self.valid.is_none_or(is_valid) => {
                offsets[row + 1].saturating_sub(offsets[row])
            }
            _ => 0,
        }
    }

    /// The first row without an offset or a bit, with the rule that this breaks.
    pub(crate) fn broken_rule(&self) -> Option<(usize, &'static str)> {
        if let Data::Texts { offsets: [], .. } = self.data {
            return Some((0, "there must be one offset more than texts"));
        }
        let bits = self.valid.map(|bits| bits.len().saturating_mul(8));
        let short = bits.filter(|bits| *bits < self.len());
        short.map(|row| (row, "there must be a bit for each row"))
    }

    /// The bytes of a row's text, if its offsets ascend and are within the bytes.
    fn bytes_at(&self, row: usize) -> Option<&'a [u8]> {
        match self.data {
            Data::Ints(_) => Some(&[]),
            Data::Texts { offsets, bytes } => {
                let from = usize::try_from(offsets[row]).ok()?;
                let to = usize::try_from(offsets[row + 1]).ok()?;
                bytes.get(from..to)
            }
        }
    }

    /// Whether the offsets of a row's text descend or are past the end of the bytes.
    pub(crate) fn has_bad_offsets(&self, row: usize) -> bool {
        self.bytes_at(row).is_none()
    }

    /// Whether the text of a row is not valid UTF-8.
    pub(crate) fn has_no_utf8(&self, row: usize) -> bool {
        let text = self.bytes_at(row).unwrap_or_default();
        self.text_len(row) > 0 && std::str::from_utf8(text).is_err()
    }

    /// The rows from `from` up to `to` as an `fc_column`. It copies the mask to `bits` if the first row's
    /// bit is not the first of a byte.
    pub(crate) fn raw(&self, from: usize, to: usize, bits: &mut Vec<u8>) -> fc_column {
        let valid = match self.valid {
            None => &[],
            Some(all) if from % 8 == 0 => &all[from / 8..to.div_ceil(8)],
            Some(all) => {
                shift(all, from, to, bits);
                bits.as_slice()
            }
        };
        let (numbers, offsets, bytes): (&[i64], &[u64], &[u8]) = match self.data {
            Data::Ints(values) => (&values[from..to], &[], &[]),
            Data::Texts { offsets, bytes } => (&[], &offsets[from..=to], bytes),
        };
        fc_column {
            numbers: NonNull::from(numbers).cast(),
            numbers_len: numbers.len(),
            offsets: NonNull::from(offsets).cast(),
            offsets_len: offsets.len(),
            bytes: NonNull::from(bytes).cast(),
            bytes_len: bytes.len(),
            valid: NonNull::from(valid).cast(),
            valid_len: valid.len(),
            kind: self.kind().code(),
        }
    }
}

// Copies the bits from `from` up to `to`.
fn shift(all: &[u8], from: usize, to: usize, bits: &mut Vec<u8>) {
    let (first, by) = (from / 8, from % 8);
    let byte = |i: usize| u16::from(all.get(i).copied().unwrap_or(0));
    bits.clear();
    bits.extend((0..(to - from).div_ceil(8)).map(|i| {
        let both = byte(first + i) | byte(first + i + 1) << 8;
        (both >> by) as u8
    }));
}

#[cfg(test)]
mod tests {
    use super::*;

    #[test]
    fn bits_that_begin_within_a_byte_are_shifted() {
        let all = [0b1010_0101, 0b0000_1111, 0b1];
        let mut bits = Vec::new();
        for from in 0..17 {
            for to in from..18 {
                shift(&all, from, to, &mut bits);
                for i in from..to {
                    let due = all[i / 8] >> (i % 8) & 1;
                    assert_eq!(bits[(i - from) / 8] >> ((i - from) % 8) & 1, due);
                }
            }
        }
    }
}
