//! Reads rows, texts and ranges of columns.

use fullercoral::{Kind, Policy, Refusal};

use super::{Checked, World, Wrong};
use crate::call::Call;
use crate::repeat::{ints, row, texts, told};

impl World {
    pub fn read(&mut self, call: &Call) -> Checked {
        match call {
            Call::Row(place) => self.row(*place),
            Call::Text(column, place) => self.text(*column, *place),
            Call::Part(column, from, to) => self.part(*column, *from, *to),
            Call::IsAlive(place) => self.is_alive(*place),
            _ => Ok(()),
        }
    }

    fn is_there(&self, place: u32) -> Result<(), Refusal> {
        if place < self.model.places() {
            return Ok(());
        }
        Err(self.model.no_row(place))
    }

    fn row(&mut self, place: u32) -> Checked {
        let mut due = self.is_there(place);
        if due.is_ok() && self.is_manual() {
            let columns = 0..self.model.kinds.len();
            due = self.model.all_local(columns, place / self.model.group);
        }
        let (due, may) = (due.map(|()| self.model.row(place)), self.may());
        let came = row(&mut self.table, place);
        self.settle(&came, due, &may).map(drop)
    }

    fn text_refusal(&self, column: usize, place: u32) -> Result<(), Refusal> {
        self.model.column(column)?;
        if self.model.kinds[column] != Kind::Text {
            return Err(self.model.wrong_kind(column));
        }
        self.is_there(place)?;
        if self.is_manual() {
            let columns = [column].into_iter();
            return self.model.all_local(columns, place / self.model.group);
        }
        Ok(())
    }

    fn text(&mut self, column: usize, place: u32) -> Checked {
        let (due, may) = (self.text_refusal(column, place), self.may());
        let due = due.map(|()| format!("{:?}", self.model.rows[place as usize][column].text()));
        let came = told(self.table.text(column, place));
        self.settle(&came, due, &may).map(drop)
    }

    fn is_alive(&mut self, place: u32) -> Checked {
        let due = self.is_there(place);
        let due = due.map(|()| self.model.alive[place as usize].to_string());
        let came = told(self.table.is_alive(place));
        self.settle(&came, due, &[]).map(drop)
    }

    // The pieces of a range that can be read, and why the next one cannot.
    fn pieces(&self, column: usize, from: u32, to: u32) -> (Vec<String>, Result<(), Refusal>) {
        let mut pieces = Vec::new();
        if let Err(refusal) = self.model.part_refusal(column, from, to) {
            return (pieces, Err(refusal));
        }
        for group in self.model.groups_of(from, to) {
            if self.is_manual() {
                if let Err(absent) = self.model.all_local([column].into_iter(), group) {
                    return (pieces, Err(absent));
                }
            }
            pieces.push(self.model.piece(column, group, from, to));
        }
        (pieces, Ok(()))
    }

    // Reads a range piece by piece, and compares the pieces before one that fails.
    fn part(&mut self, column: usize, from: u32, to: u32) -> Checked {
        let may = self.may();
        let (pieces, due) = self.pieces(column, from, to);
        let is_of_texts = self.model.kinds.get(column) == Some(&Kind::Text);
        let came = if is_of_texts {
            texts(&mut self.table, column, from, to)
        } else {
            ints(&mut self.table, column, from, to)
        };
        let (read, end) = came.rsplit_once('\n').unwrap_or(("", &came));
        let count = read.lines().count();
        let due_pieces = pieces[..count.min(pieces.len())].concat();
        let is_whole = end != "()" || count == pieces.len();
        if due_pieces.trim_end_matches('\n') != read || !is_whole {
            return Err(Wrong::state(pieces.concat(), came));
        }
        let lenient = self.policy == Policy::Prefetch;
        let due = due.map(|()| "()".to_owned());
        let settled = self.settle_some(end, due, &may, lenient).map(drop);
        if count > 0 {
            let groups = self.model.groups_of(from, to).take(count);
            groups.for_each(|group| self.model.was_read(column, group));
        }
        settled
    }
}
