//! Reads rows and ranges of columns.

use std::fmt::Debug;

use fullercoral::{Cell, Engine, Error, Table};

use crate::{GROUP, Reply, Run};

impl<E: Engine> Run<E>
where
    E::Error: Debug,
{
    pub fn read_row(&mut self) {
        let place = self.place();
        let due = (place as usize >= self.plain.len()).then_some(8);
        let due = due.or_else(|| self.absent(place / GROUP));
        let result = self.table.row(place);
        let row =
            result.map(|row| format!("{} {:?}", row.is_alive(), row.iter().collect::<Vec<_>>()));
        match (self.reply(row), due) {
            (Reply::Fault, None) => {}
            (Reply::Value(row), None) => {
                let place = place as usize;
                let cells: Vec<Cell<'_>> = self
                    .plain
                    .rows
                    .columns
                    .iter()
                    .map(|column| column.cell(place))
                    .collect();
                assert_eq!(row, format!("{} {cells:?}", self.plain.rows.alive[place]));
            }
            (reply, due) => assert_eq!(reply, Reply::Refused(due.unwrap_or(0))),
        }
    }

    pub fn read_cell(&mut self) {
        let (place, column) = (self.place(), self.random.below(5) as usize);
        let there = (place as usize) < self.plain.len();
        let away = self.away.contains(&(column as u32, place / GROUP));
        let due = match (there, self.manual() && away) {
            (false, _) => Some(8),
            (true, away) => away.then_some(16),
        };
        let cell = if column % 2 == 0 {
            let number = self.table.int(column, place);
            number.map(|number| format!("{:?}", Cell::from(number)))
        } else {
            let text = self.table.text(column, place);
            text.map(|text| format!("{:?}", Cell::from(text)))
        };
        match (self.reply(cell), due) {
            (Reply::Fault, None) => {}
            (Reply::Value(cell), None) => {
                let due = self.plain.rows.columns[column].cell(place as usize);
                assert_eq!(cell, format!("{due:?}"));
            }
            (reply, due) => assert_eq!(reply, Reply::Refused(due.unwrap_or(0))),
        }
    }

    pub fn read_part(&mut self) {
        let places = self.plain.len() as u32;
        let (from, to) = (self.random.below(places + 1), self.random.below(places + 1));
        let (from, to) = (from.min(to), from.max(to).min(from.min(to) + 100));
        let column = self.random.below(5) as usize;
        let result = read_cells(&mut self.table, column, from, to);
        let groups = if from < to {
            from / GROUP..(to - 1) / GROUP + 1
        } else {
            0..0
        };
        let away = groups
            .clone()
            .any(|group| self.away.contains(&(column as u32, group)));
        let due = (from as usize..to as usize).filter(|place| self.plain.rows.alive[*place]);
        let cells =
            due.map(|place| format!("{place} {:?}", self.plain.rows.columns[column].cell(place)));
        let cells: Vec<String> = cells.collect();
        match self.reply(result) {
            Reply::Fault => {}
            Reply::Value(read) => {
                assert!(!self.manual() || !away);
                assert_eq!(read, cells);
            }
            Reply::Refused(number) => assert!(self.manual() && away && number == 16),
        }
    }
}

/// The live cells of a part, each after its place. The columns of even index hold numbers.
fn read_cells<E: Engine>(
    table: &mut Table<E>,
    column: usize,
    from: u32,
    to: u32,
) -> Result<Vec<String>, Error<E::Error>> {
    let mut cells = Vec::new();
    if column % 2 == 0 {
        let mut part = table.ints(column, from..to)?;
        while let Some(piece) = part.next_piece()? {
            let cell_of =
                |(place, value): (u32, Option<i64>)| format!("{place} {:?}", Cell::from(value));
            cells.extend(piece.rows().map(cell_of));
        }
    } else {
        let part = table.texts(column, from..to)?;
        part.for_each(|place, text| cells.push(format!("{place} {:?}", Cell::from(text))))?;
    }
    Ok(cells)
}
