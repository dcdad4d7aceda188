use super::{Coded, Library, done};
use crate::sys::*;

/// The buffers for a range of a column.
#[derive(Debug, Default)]
pub struct Buffers {
    pub values: Vec<i64>,
    pub offsets: Vec<u64>,
    pub bytes: Vec<u8>,
    pub valid: Vec<bool>,
    pub alive: Vec<bool>,
}

impl Library {
    /// Reads the cells of a place into `cells`; the library lends their texts.
    pub fn row(&mut self, place: u32, columns: usize) -> Coded<()> {
        self.cells.clear();
        self.cells.resize(columns, fc_cell::MISSING);
        let cells = self.cells.as_mut_ptr();
        // SAFETY: rules 1, 2 and 4, all cells are blank.
        done(unsafe { fc_row(&mut self.raw, place, cells, columns) })
    }

    /// The cells that `row` read, if it was the last call. The library lends their texts.
    pub fn cells(&self) -> &[fc_cell] {
        &self.cells
    }

    #[inline]
    pub fn is_alive(&mut self, place: u32) -> Coded<bool> {
        let mut alive = false;
        // SAFETY: rules 1 and 2.
        done(unsafe { fc_is_alive(&mut self.raw, place, &mut alive) })?;
        Ok(alive)
    }

    /// Copies the numbers of the places `from` up to `to`, and their flags.
    pub fn numbers(&mut self, column: u32, from: u32, to: u32, into: &mut Buffers) -> Coded<()> {
        let len = (to - from) as usize;
        into.values.resize(len, 0);
        into.valid.resize(len, false);
        into.alive.resize(len, false);
        // SAFETY: rules 1 and 2, each buffer has this length.
        done(unsafe {
            fc_numbers(
                &mut self.raw,
                column,
                from,
                to,
                into.values.as_mut_ptr(),
                len,
                into.valid.as_mut_ptr(),
                len,
                into.alive.as_mut_ptr(),
                len,
            )
        })
    }

    /// The number of a place, if it has one.
    pub fn number(&mut self, column: u32, place: u32) -> Coded<Option<i64>> {
        let (mut value, mut valid, mut alive) = (0, false, false);
        let to = place.saturating_add(1);
        // SAFETY: rules 1 and 2, each buffer has a length of 1.
        done(unsafe {
            fc_numbers(
                &mut self.raw,
                column,
                place,
                to,
                &mut value,
                1,
                &mut valid,
                1,
                &mut alive,
                1,
            )
        })?;
        Ok(valid.then_some(value))
    }

    /// The text of a place, lent by the library, if there is one.
    #[inline]
    pub fn text(&mut self, column: u32, place: u32) -> Coded<Option<fc_bytes>> {
        let (mut text, mut valid) = (fc_bytes::NONE, false);
        // SAFETY: rules 1, 2 and 4.
        done(unsafe { fc_text(&mut self.raw, column, place, &mut text, &mut valid) })?;
        Ok(valid.then_some(text))
    }

    /// Copies the texts of the places `from` up to `to`, and their flags.
    pub fn texts(&mut self, column: u32, from: u32, to: u32, into: &mut Buffers) -> Coded<()> {
        let mut size = 0;
        // SAFETY: rules 1 and 2.
        done(unsafe { fc_texts_size(&mut self.raw, column, from, to, &mut size) })?;
        let len = (to - from) as usize;
        into.offsets.resize(len + 1, 0);
        into.bytes.resize(size, 0);
        into.valid.resize(len, false);
        into.alive.resize(len, false);
        // SAFETY: rules 1 and 2, each buffer has the length passed with it.
        done(unsafe {
            fc_texts(
                &mut self.raw,
                column,
                from,
                to,
                into.offsets.as_mut_ptr(),
                len + 1,
                into.bytes.as_mut_ptr(),
                size,
                into.valid.as_mut_ptr(),
                len,
                into.alive.as_mut_ptr(),
                len,
            )
        })
    }
}
