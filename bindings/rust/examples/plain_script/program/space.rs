//! The space that objects need at least, by which a script with a refusal for space is noticed.

use super::column::{Column, Kind};
use super::moving::Object;
use super::opening::Limits;
use super::record::Field;
use super::refusal::Refusal;

/// The length of the far form of no texts, and what each text takes besides its bytes.
const HEAD: u64 = 6;
const END: u64 = 4;

/// What the local objects need, and what there is. The least need is counted, without gaps.
pub struct Space {
    objects: u64,
    most_objects: u64,
    bytes: u64,
    most_bytes: u64,
    /// Bytes of a segment, which is the most for the texts of an object.
    segment: u64,
}

impl Space {
    /// The space of an empty table.
    pub fn new(limits: &Limits) -> Space {
        Space {
            objects: 0,
            most_objects: limits.number_segments * (limits.number_size / limits.group),
            bytes: 0,
            most_bytes: limits.text_segments * limits.text_size,
            segment: limits.text_size,
        }
    }

    /// Takes the space of local objects that begin or come back.
    pub fn take<'a>(
        &mut self,
        objects: impl Iterator<Item = (&'a Column, &'a Object)>,
    ) -> Result<(), Refusal> {
        for (column, object) in objects {
            match column.kind() {
                Kind::Number => self.objects += 1,
                Kind::Text => self.bytes += HEAD + object.bytes,
            }
        }
        let is_enough = self.objects <= self.most_objects && self.bytes <= self.most_bytes;
        is_enough.then_some(()).ok_or(Refusal::Space)
    }

    /// Gives the space of an object that leaves.
    pub fn give(&mut self, column: &Column, object: &Object) {
        match column.kind() {
            Kind::Number => self.objects -= 1,
            Kind::Text => self.bytes -= HEAD + object.bytes,
        }
    }

    /// Takes the space of a cell, after that of the cell before it is given.
    #[inline]
    pub fn replace(&mut self, object: &mut Object, old: u64, new: u64) -> Result<(), Refusal> {
        object.bytes = object.bytes + new - old;
        self.bytes = self.bytes + new - old;
        let is_enough = HEAD + object.bytes <= self.segment && self.bytes <= self.most_bytes;
        is_enough.then_some(()).ok_or(Refusal::Space)
    }
}

/// What a cell of texts takes.
pub fn bytes_of(field: &Field<'_>) -> u64 {
    match field {
        Field::Text(text) => END + text.len() as u64,
        _ => END,
    }
}

/// What the text of a cell takes.
pub fn bytes_at(column: &Column, place: usize) -> u64 {
    END + column.text(place).map_or(0, <[u8]>::len) as u64
}
