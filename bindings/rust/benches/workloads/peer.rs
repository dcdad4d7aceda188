//! The plain table as a program under test. It keeps far contents in a map, without digests.

use std::collections::HashMap;

use fullercoral::{Cell, Kind};

use crate::plain::{Plain, PlainColumn, PlainLine, PlainSpec, What};
use crate::program::{Batch, Digest, Program};
use crate::tables::key;

pub struct Peer {
    pub plain: Plain,
    kinds: Vec<Kind>,
    what: Vec<What>,
    group: usize,
    shelf: HashMap<(usize, u32), Box<[u8]>>,
}

impl Peer {
    fn print(&self, number: usize) -> impl FnMut(PlainLine<'_>, &mut Digest) + use<> {
        let what = self.what[number];
        move |line, digest| {
            key(line.key, digest);
            match what {
                What::Totals => {
                    digest.add(line.count);
                    digest.add(line.sum as u64);
                }
                What::Extrema => {
                    digest.int(Some(line.min));
                    digest.int(Some(line.max));
                }
            }
        }
    }

    fn decode(&mut self, column: usize, group: u32) {
        let range = self.range(group);
        let bytes = self
            .shelf
            .get(&(column, group))
            .map_or(&[][..], |bytes| bytes);
        if let PlainColumn::Ints(values) = &mut self.plain.rows.columns[column] {
            for (value, bytes) in values[range].iter_mut().zip(bytes.chunks_exact(8)) {
                *value = Some(i64::from_le_bytes(bytes.try_into().unwrap_or_default()));
            }
        }
    }

    fn range(&self, group: u32) -> std::ops::Range<usize> {
        let from = group as usize * self.group;
        from..self.plain.len().min(from + self.group)
    }
}

impl Program for Peer {
    fn open(kinds: &[Kind], group: u32) -> Self {
        Peer {
            plain: Plain::new(kinds, 1 << 24),
            kinds: kinds.to_vec(),
            what: Vec::new(),
            group: group as usize,
            shelf: HashMap::new(),
        }
    }

    #[inline]
    fn insert(&mut self, row: &[Cell<'_>]) {
        assert!(self.plain.insert_refusal(row).is_none());
        self.plain.insert(row);
    }

    fn load(&mut self, batch: &Batch) {
        let rows = batch.ints[0].len();
        let mut row = Vec::new();
        for i in 0..rows {
            row.clear();
            row.extend(batch.ints.iter().map(|values| Cell::Int(values[i])));
            if !batch.offsets.is_empty() {
                let text = &batch.bytes[batch.offsets[i] as usize..batch.offsets[i + 1] as usize];
                row.push(Cell::Text(std::str::from_utf8(text).unwrap_or_default()));
            }
            self.insert(&row);
        }
    }

    #[inline]
    fn set(&mut self, column: usize, place: u32, value: i64) {
        assert!(
            self.plain
                .set_refusal(column, place, Cell::Int(value))
                .is_none()
        );
        self.plain.set(column, place, Cell::Int(value));
    }

    #[inline]
    fn remove(&mut self, place: u32) {
        assert!(self.plain.remove_refusal(place).is_none());
        self.plain.remove(place);
    }

    fn watch(&mut self, spec: &PlainSpec) -> usize {
        let Ok(number) = self.plain.watch(spec.clone()) else {
            panic!("too many aggregates");
        };
        if number == self.what.len() {
            self.what.push(spec.what);
        }
        self.what[number] = spec.what;
        number
    }

    // Decodes the contents, folds them, and drops them.
    fn watch_far(&mut self, spec: &PlainSpec) -> usize {
        let all: Vec<(usize, u32)> = self.shelf.keys().copied().collect();
        all.iter()
            .for_each(|(column, group)| self.decode(*column, *group));
        let number = self.watch(spec);
        for column in &mut self.plain.rows.columns {
            if let PlainColumn::Ints(values) = column {
                values.fill(None);
            }
        }
        number
    }

    fn unwatch(&mut self, number: usize) {
        self.plain.unwatch(number);
    }

    #[inline]
    fn ask(&mut self, number: usize, digest: &mut Digest) {
        let mut print = self.print(number);
        self.plain.answer(number, |line| print(line, digest));
    }

    fn recount(&mut self, number: usize, digest: &mut Digest) {
        let mut print = self.print(number);
        self.plain.recount(number, |line| print(line, digest));
    }

    fn read_ints(&mut self, column: usize, from: u32, to: u32, digest: &mut Digest) {
        let rows = &self.plain.rows;
        if let PlainColumn::Ints(values) = &rows.columns[column] {
            let range = from as usize..to as usize;
            let cells = values[range.clone()].iter().zip(&rows.alive[range]);
            cells
                .filter(|(_, alive)| **alive)
                .for_each(|(value, _)| digest.int(*value));
        }
    }

    fn read_texts(&mut self, column: usize, from: u32, to: u32, digest: &mut Digest) {
        let rows = &self.plain.rows;
        if let PlainColumn::Texts(texts) = &rows.columns[column] {
            let range = from as usize..to as usize;
            let cells = texts[range.clone()].iter().zip(&rows.alive[range]);
            cells
                .filter(|(_, alive)| **alive)
                .for_each(|(text, _)| digest.text(text.as_deref()));
        }
    }

    fn dump(&mut self, digest: &mut Digest) {
        for place in 0..self.plain.len() {
            if self.plain.rows.alive[place] {
                let cells = self
                    .plain
                    .rows
                    .columns
                    .iter()
                    .map(|column| column.cell(place));
                cells.for_each(|cell| digest.cell(cell));
            }
        }
    }

    // Encodes a column of numbers in 8 bytes each.
    fn evict(&mut self, column: usize, group: u32) {
        assert!(self.kinds[column] == Kind::Int);
        let range = self.range(group);
        if let PlainColumn::Ints(values) = &mut self.plain.rows.columns[column] {
            let bytes = values[range.clone()]
                .iter()
                .flat_map(|v| v.unwrap_or(0).to_le_bytes());
            self.shelf.insert((column, group), bytes.collect());
            values[range].fill(None);
        }
    }

    fn fetch(&mut self, column: usize, group: u32) {
        self.decode(column, group);
        self.shelf.remove(&(column, group));
    }
}
