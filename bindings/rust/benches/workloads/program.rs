//! The operations of both programs, and the checksum that compares their answers.

use fullercoral::{Cell, Kind};

use crate::plain::PlainSpec;

/// A checksum of all that a program answers.
#[derive(Debug, Default, Clone, Copy, PartialEq, Eq)]
pub struct Digest(pub u64);

impl Digest {
    #[inline]
    pub fn add(&mut self, word: u64) {
        self.0 = (self.0.rotate_left(5) ^ word).wrapping_mul(0x9e37_79b9_7f4a_7c15);
    }

    #[inline]
    pub fn int(&mut self, value: Option<i64>) {
        self.add(value.map_or(1, |value| value as u64));
    }

    #[inline]
    pub fn text(&mut self, text: Option<&str>) {
        let Some(text) = text else {
            return self.add(2);
        };
        for chunk in text.as_bytes().chunks(8) {
            let mut word = [0; 8];
            word[..chunk.len()].copy_from_slice(chunk);
            self.add(u64::from_le_bytes(word));
        }
        self.add(text.len() as u64);
    }

    #[inline]
    pub fn cell(&mut self, cell: Cell<'_>) {
        match cell {
            Cell::Missing => self.add(3),
            Cell::Int(value) => self.int(Some(value)),
            Cell::Text(text) => self.text(Some(text)),
        }
    }
}

/// Rows by columns: numbers, and texts with their offsets.
#[derive(Debug, Default)]
pub struct Batch {
    pub ints: Vec<Vec<i64>>,
    pub offsets: Vec<u64>,
    pub bytes: Vec<u8>,
}

/// A table under test.
pub trait Program {
    fn open(kinds: &[Kind], group: u32) -> Self;
    fn insert(&mut self, row: &[Cell<'_>]);
    /// Loads rows. The columns of numbers are first, and then at most one of texts.
    fn load(&mut self, batch: &Batch);
    fn set(&mut self, column: usize, place: u32, value: i64);
    fn remove(&mut self, place: u32);
    /// Registers an aggregate, and builds all rows into it.
    fn watch(&mut self, spec: &PlainSpec) -> usize;
    /// The same, if all rows are away.
    fn watch_far(&mut self, spec: &PlainSpec) -> usize {
        self.watch(spec)
    }
    fn unwatch(&mut self, number: usize);
    fn ask(&mut self, number: usize, digest: &mut Digest);
    fn recount(&mut self, number: usize, digest: &mut Digest);
    fn read_ints(&mut self, column: usize, from: u32, to: u32, digest: &mut Digest);
    fn read_texts(&mut self, column: usize, from: u32, to: u32, digest: &mut Digest);
    fn dump(&mut self, digest: &mut Digest);
    fn evict(&mut self, column: usize, group: u32);
    fn fetch(&mut self, column: usize, group: u32);
}
