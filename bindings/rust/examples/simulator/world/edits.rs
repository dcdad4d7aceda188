//! Edits, by rows and by columns.

use fullercoral::{Cell, Column, Kind, Refusal, TextBuffer};

use super::{Checked, World, Wrong, no_space};
use crate::call::{Call, Owned, name};
use crate::repeat::told;

impl World {
    pub fn edit(&mut self, call: &Call) -> Checked {
        match call {
            Call::Insert(row) => self.insert(row),
            Call::Extend(columns) => self.extend(columns),
            Call::Set(column, place, cell) => self.set(*column, *place, cell),
            Call::Remove(place) => self.remove(*place),
            _ => Ok(()),
        }
    }

    // The place of a row to insert, or why it is refused.
    fn insert_due(&mut self, row: &[Owned]) -> Result<String, Refusal> {
        let model = &mut self.model;
        model.row_refusal(row)?;
        let place = model.places();
        let manual = self.policy == fullercoral::Policy::Manual;
        if manual && place % model.group != 0 {
            model.all_local(0..model.kinds.len(), place / model.group)?;
        }
        let cells: Vec<(usize, &Owned)> = row.iter().enumerate().collect();
        model.chunk_refusal(place, &cells)?;
        if manual {
            model.space_refusal(place, &cells)?;
        }
        Ok(place.to_string())
    }

    fn insert(&mut self, row: &[Owned]) -> Checked {
        let (due, may) = (self.insert_due(row), self.may());
        let cells: Vec<Cell<'_>> = row.iter().map(Owned::cell).collect();
        let came = told(self.table.insert(&cells));
        if self.settle(&came, due, &may)? && !self.model.insert(row) {
            return Err(no_space());
        }
        Ok(())
    }

    // Inserts rows by columns: the rows before a refused one stay.
    fn extend(&mut self, columns: &[Vec<Owned>]) -> Checked {
        if let Err(refusal) = self.shape_refusal(columns) {
            let came = self.extended(columns);
            return self.settle(&came, Err(refusal), &[]).map(drop);
        }
        let rows = columns.first().map_or(0, Vec::len);
        let before = self.table.places();
        let may = self.may();
        let came = self.extended(columns);
        let inserted = (self.table.places() - before) as usize;
        self.sync();
        let moved = !self.is_manual() && !self.model.is_placed;
        let row = |index: usize| -> Vec<Owned> {
            let cells = columns.iter().map(|column| column[index].clone());
            cells.collect()
        };
        for index in 0..inserted.min(rows) {
            let due = self.insert_due(&row(index));
            if let Err(refusal) = due {
                let due = crate::model::refused(&refusal);
                return Err(Wrong::state(due, came));
            }
            if !self.model.insert(&row(index)) {
                return Err(no_space());
            }
        }
        if moved {
            // (an object that begins with these rows may be away already)
            self.take_over(true, false);
        }
        let due = if inserted == rows {
            Ok(rows.to_string())
        } else {
            self.insert_due(&row(inserted)).map(|_| rows.to_string())
        };
        self.settle(&came, due, &may).map(drop)
    }

    // Why columns are refused before any row is inserted.
    fn shape_refusal(&self, columns: &[Vec<Owned>]) -> Result<(), Refusal> {
        let (cells, due) = (columns.len(), self.model.kinds.len());
        if cells != due {
            return Err(Refusal::RowWidth {
                cells,
                columns: due,
            });
        }
        let rows = columns.first().map_or(0, Vec::len);
        match columns.iter().position(|column| column.len() != rows) {
            None => Ok(()),
            Some(column) => Err(Refusal::BadArgument {
                column: name(column).into(),
                row: rows.min(columns[column].len()),
                rule: "all columns must have one length",
            }),
        }
    }

    fn extended(&mut self, columns: &[Vec<Owned>]) -> String {
        let kinds = &self.model.kinds;
        let raw: Vec<RawColumn> = columns
            .iter()
            .zip(kinds)
            .map(|(cells, kind)| RawColumn::of(*kind, cells))
            .collect();
        let raw: Vec<Column<'_>> = raw.iter().map(RawColumn::column).collect();
        told(self.table.extend_columns(&raw))
    }

    fn set_due(&mut self, column: usize, place: u32, cell: &Owned) -> Result<String, Refusal> {
        let manual = self.is_manual();
        let model = &mut self.model;
        model.cell_refusal(column, place, cell)?;
        if manual {
            model.all_local(0..model.kinds.len(), place / model.group)?;
        }
        model.chunk_refusal(place, &[(column, cell)])?;
        if manual {
            model.space_refusal(place, &[(column, cell)])?;
        }
        Ok("()".to_owned())
    }

    fn set(&mut self, column: usize, place: u32, cell: &Owned) -> Checked {
        let (due, may) = (self.set_due(column, place, cell), self.may());
        let came = told(self.table.set(column, place, cell.cell()));
        if self.settle(&came, due, &may)? && !self.model.set(column, place, cell) {
            return Err(no_space());
        }
        Ok(())
    }

    fn remove(&mut self, place: u32) -> Checked {
        let model = &self.model;
        let mut due = model.place_refusal(place);
        if due.is_ok() && self.is_manual() {
            due = model.all_local(0..model.kinds.len(), place / model.group);
        }
        let due = due.and_then(|()| model.edit_refusal());
        let (due, may) = (due.map(|()| "()".to_owned()), self.may());
        let came = told(self.table.remove(place));
        if self.settle(&came, due, &may)? {
            self.model.remove(place);
        }
        Ok(())
    }
}

/// A column of rows that owns its cells.
pub enum RawColumn {
    Ints(Vec<i64>, Vec<u8>),
    Texts(TextBuffer),
}

impl RawColumn {
    /// Makes a column of these cells. Cells of the other kind become missing.
    pub fn of(kind: Kind, cells: &[Owned]) -> RawColumn {
        if kind == Kind::Int {
            let values = cells.iter().map(|cell| cell.int().unwrap_or(0)).collect();
            let mut bits = vec![0u8; cells.len().div_ceil(8)];
            let valid = (0..cells.len()).filter(|index| cells[*index].int().is_some());
            valid.for_each(|index| bits[index / 8] |= 1 << (index % 8));
            return RawColumn::Ints(values, bits);
        }
        let mut texts = TextBuffer::new();
        for cell in cells {
            match cell.text() {
                Some(text) => texts.push(text),
                None => texts.push_missing(),
            }
        }
        RawColumn::Texts(texts)
    }

    pub fn column(&self) -> Column<'_> {
        match self {
            RawColumn::Ints(values, bits) => Column::ints(values).valid(bits),
            RawColumn::Texts(texts) => texts.column(),
        }
    }
}
