use super::{Code, Coded, Library, done};
use crate::Cell;
use crate::sys::*;

impl Library {
    #[inline]
    pub fn insert(&mut self, row: &[Cell<'_>]) -> Coded<u32> {
        self.cells.clear();
        self.cells.extend(row.iter().map(|cell| cell.raw()));
        let mut place = 0;
        let (cells, len) = (self.cells.as_ptr(), self.cells.len());
        // SAFETY: rules 1 and 2; the texts of the cells are borrowed until this call returns.
        done(unsafe { fc_insert(&mut self.raw, cells, len, &mut place) })?;
        Ok(place)
    }

    /// Inserts rows by columns. Returns how many it inserted, and why it ended.
    ///
    /// # Safety
    /// All slices of the columns are valid (rule 1).
    pub unsafe fn insert_columns(
        &mut self,
        columns: &[fc_column],
        rows: usize,
    ) -> (usize, Coded<()>) {
        let mut inserted = 0;
        let (at, len) = (columns.as_ptr(), columns.len());
        // SAFETY: rule 1 by the caller, and rule 2.
        let code = unsafe { fc_insert_columns(&mut self.raw, at, len, rows, &mut inserted) };
        (inserted, done(code))
    }

    #[inline]
    pub fn set(&mut self, column: u32, place: u32, cell: Cell<'_>) -> Coded<()> {
        let cell = cell.raw();
        // SAFETY: rules 1 and 2; the text of the cell is borrowed until this call returns.
        done(unsafe { fc_set(&mut self.raw, column, place, &cell) })
    }

    #[inline]
    pub fn remove(&mut self, place: u32) -> Result<(), Code> {
        // SAFETY: rule 2.
        done(unsafe { fc_remove(&mut self.raw, place) })
    }
}
