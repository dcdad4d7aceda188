//! Edits, by rows and by columns.

use std::fmt::Debug;

use fullercoral::{Cell, Column, Engine, Kind, TextBuffer};

use crate::common::{Owned, Random};
use crate::{GROUP, Reply, Run};

impl<E: Engine> Run<E>
where
    E::Error: Debug,
{
    pub fn cell(&mut self, kind: Kind) -> Owned {
        let random = &mut self.random;
        if random.one_in(8) {
            return Owned::Missing;
        }
        let wrong = random.one_in(200);
        match (kind, wrong) {
            (Kind::Int, false) | (Kind::Text, true) => Owned::Int(random.value()),
            _ if random.one_in(2_000) => Owned::Text("x".repeat(4_097)),
            _ => Owned::Text(random.text()),
        }
    }

    pub fn row(&mut self) -> Vec<Owned> {
        let kinds = [Kind::Int, Kind::Text, Kind::Int, Kind::Text, Kind::Int];
        let mut row: Vec<Owned> = kinds.iter().map(|kind| self.cell(*kind)).collect();
        if self.random.one_in(300) {
            row.pop();
        }
        row
    }

    pub fn place(&mut self) -> u32 {
        let places = self.plain.len() as u32;
        if self.random.one_in(100) {
            places
        } else {
            self.random.below(places.max(1))
        }
    }

    pub fn insert(&mut self) {
        let row = self.row();
        let cells: Vec<Cell<'_>> = row.iter().map(Owned::cell).collect();
        let place = self.plain.len() as u32;
        let begun = place % GROUP != 0;
        let absent = if begun {
            self.absent(place / GROUP)
        } else {
            None
        };
        let due = self.plain.insert_refusal(&cells).or(absent);
        let result = self.table.insert(&cells);
        match (self.reply(result), due) {
            (Reply::Fault, None) => {}
            (Reply::Value(given), None) => assert_eq!(given, self.plain.insert(&cells)),
            (reply, due) => assert_eq!(reply, Reply::Refused(due.unwrap_or(0))),
        }
    }

    pub fn extend_columns(&mut self) {
        let rows = Rows::random(&mut self.random);
        let before = self.plain.len();
        let result = self.table.extend_columns(&rows.columns());
        let ended = self.reply(result);
        let inserted = self.table.places() as usize - before;
        for i in 0..inserted {
            self.plain.insert(&rows.row(i));
        }
        let place = self.plain.len() as u32;
        let full = (place == 1_500).then_some(10);
        let absent = || (place % GROUP != 0).then(|| self.absent(place / GROUP))?;
        match ended {
            Reply::Fault => {}
            Reply::Value(count) => assert!(count == rows.len && inserted == rows.len),
            Reply::Refused(number) => assert_eq!(full.or_else(absent), Some(number)),
        }
    }

    pub fn set(&mut self) {
        let column = self.random.below(6) as usize;
        let kind = if column % 2 == 0 {
            Kind::Int
        } else {
            Kind::Text
        };
        let (cell, place) = (self.cell(kind), self.place());
        let due = self.plain.set_refusal(column, place, cell.cell());
        let due = due.or_else(|| self.absent(place / GROUP));
        let result = self.table.set(column, place, cell.cell());
        match (self.reply(result), due) {
            (Reply::Fault, None) => {}
            (Reply::Value(()), None) => self.plain.set(column, place, cell.cell()),
            (reply, due) => assert_eq!(reply, Reply::Refused(due.unwrap_or(0))),
        }
    }

    pub fn remove(&mut self) {
        let place = self.place();
        let due = self
            .plain
            .remove_refusal(place)
            .or_else(|| self.absent(place / GROUP));
        let result = self.table.remove(place);
        match (self.reply(result), due) {
            (Reply::Fault, None) => {}
            (Reply::Value(()), None) => self.plain.remove(place),
            (reply, due) => assert_eq!(reply, Reply::Refused(due.unwrap_or(0))),
        }
    }
}

/// Rows by columns: of each kind a column with missing cells and one without.
struct Rows {
    len: usize,
    ints: Vec<Vec<i64>>,
    bits: Vec<u8>,
    texts: Vec<String>,
    some: TextBuffer,
    all: TextBuffer,
}

impl Rows {
    fn random(random: &mut Random) -> Rows {
        let len = random.below(60) as usize;
        let ints = (0..3).map(|_| (0..len).map(|_| random.value()).collect());
        let ints: Vec<Vec<i64>> = ints.collect();
        let bits = (0..len.div_ceil(8)).map(|_| random.next() as u8).collect();
        let texts: Vec<String> = (0..len).map(|_| random.text()).collect();
        let mut some = TextBuffer::new();
        for (i, text) in texts.iter().enumerate() {
            if i % 7 == 3 {
                some.push_missing()
            } else {
                some.push(text)
            }
        }
        let all = texts.iter().map(String::as_str).collect();
        Rows {
            len,
            ints,
            bits,
            texts,
            some,
            all,
        }
    }

    fn columns(&self) -> [Column<'_>; 5] {
        [
            Column::ints(&self.ints[0]),
            self.some.column(),
            Column::ints(&self.ints[1]).valid(&self.bits),
            self.all.column(),
            Column::ints(&self.ints[2]),
        ]
    }

    fn row(&self, i: usize) -> [Cell<'_>; 5] {
        let valid = self.bits[i / 8] >> (i % 8) & 1 == 1;
        let text = self.texts[i].as_str();
        [
            self.ints[0][i].into(),
            (i % 7 != 3).then_some(text).into(),
            valid.then_some(self.ints[1][i]).into(),
            text.into(),
            self.ints[2][i].into(),
        ]
    }
}
