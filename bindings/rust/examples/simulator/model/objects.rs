//! Objects: which are local, and the state that their jobs depend on.

use fullercoral::{Kind, Refusal};

use super::Model;
use super::region::Part;

/// The cells of one row group of one column.
#[derive(Debug, Clone)]
pub struct Object {
    pub local: bool,
    /// Its part of local memory, if it is local and the part is known.
    pub part: Option<Part>,
    /// Whether the far side lacks its current content, if that is known.
    pub dirty: Option<bool>,
    pub hot: bool,
    pub pins: u32,
    /// How often it was written, and how often it went away.
    pub version: u64,
    pub leavings: u64,
}

impl Default for Object {
    fn default() -> Object {
        Object {
            local: true,
            part: None,
            dirty: Some(true),
            hot: true,
            pins: 0,
            version: 0,
            leavings: 0,
        }
    }
}

impl Object {
    pub fn write(&mut self) {
        self.dirty = Some(true);
        self.hot = true;
        self.version += 1;
    }

    /// The state that a job of it depends on.
    pub fn state(&self) -> (u64, u64) {
        (self.version, self.leavings)
    }
}

impl Model {
    /// The object of a column and a row group. Refuses one that does not exist.
    pub fn object(&self, column: usize, group: u32) -> Result<&Object, Refusal> {
        self.column(column)?;
        let object = self.objects[column].get(group as usize);
        object.ok_or(self.no_group(group))
    }

    /// The refusal of a row group that does not exist.
    pub fn no_group(&self, group: u32) -> Refusal {
        let groups = self.groups();
        Refusal::NoGroup { group, groups }
    }

    pub fn object_mut(&mut self, column: usize, group: u32) -> &mut Object {
        &mut self.objects[column][group as usize]
    }

    /// Refuses a job if no job is left.
    pub fn begin_refusal(&self) -> Result<(), Refusal> {
        if self.is_counted && self.begun >= self.most_edits {
            return Err(Refusal::EditsUsedUp);
        }
        Ok(())
    }

    /// Whether no number is left for the next content, as far as that is known.
    pub fn may_be_full(&self) -> bool {
        self.contents >= self.capacity || !self.is_counted && self.capacity < super::MOST_CONTENTS
    }

    /// Evicts an object.
    pub fn leave(&mut self, column: usize, group: u32) {
        let object = self.object_mut(column, group);
        object.local = false;
        object.dirty = Some(false);
        object.leavings += 1;
        if let Some(part) = object.part.take() {
            self.region_mut(column).drop(part);
        }
    }

    /// Whether there is space to fetch an object, as far as that is known.
    pub fn has_space_for(&mut self, column: usize, group: u32) -> bool {
        let len = self.len(column, group);
        if !self.is_placed {
            return true;
        }
        let part = self.region_mut(column).place(len);
        part.into_iter()
            .map(|part| self.region_mut(column).drop(part))
            .count()
            == 1
    }

    /// Fetches an object. Returns false if the parts are known and there is no space.
    pub fn arrive(&mut self, column: usize, group: u32) -> bool {
        let len = self.len(column, group);
        let part = if self.is_placed {
            self.region_mut(column).place(len)
        } else {
            None
        };
        let fits = part.is_some() || !self.is_placed;
        let object = self.object_mut(column, group);
        object.local = true;
        object.hot = true;
        object.part = part;
        fits
    }

    /// Records that the table renewed its content numbers.
    pub fn migrated(&mut self) {
        let objects = self.objects.iter_mut().flatten();
        objects.for_each(|object| object.dirty = Some(object.local));
        self.contents = self.away();
    }

    /// How many objects are away.
    pub fn away(&self) -> u64 {
        let objects = self.objects.iter().flatten();
        objects.filter(|object| !object.local).count() as u64
    }

    /// Compacts all segments of both kinds, as far as there is an empty one. Returns how many bytes it
    /// freed.
    pub fn compact(&mut self) -> u64 {
        let ints = if self.kinds.contains(&Kind::Int) {
            16 * self.compact_kind(Kind::Int)
        } else {
            0
        };
        let texts = if self.kinds.contains(&Kind::Text) {
            self.compact_kind(Kind::Text)
        } else {
            0
        };
        ints + texts
    }

    fn compact_kind(&mut self, kind: Kind) -> u64 {
        let columns: Vec<usize> = (0..self.kinds.len())
            .filter(|column| self.kinds[*column] == kind)
            .collect();
        let before = self.region(columns[0]).used();
        for segment in 0..self.region(columns[0]).segments() {
            let Some(free) = self.region(columns[0]).other_free(segment) else {
                break;
            };
            self.compact_segment(&columns, segment, free);
        }
        before.saturating_sub(self.region(columns[0]).used())
    }

    // Moves the parts of a segment into an empty one: hot objects first, otherwise in their order.
    fn compact_segment(&mut self, columns: &[usize], segment: usize, free: usize) {
        let mut moved = Vec::new();
        for column in columns {
            for (group, object) in self.objects[*column].iter().enumerate() {
                if let Some(part) = object.part.filter(|part| part.segment == segment) {
                    moved.push((!object.hot, part.offset, *column, group, part));
                }
            }
        }
        moved.sort_by_key(|(cold, offset, ..)| (*cold, *offset));
        for (_, _, column, group, part) in moved {
            self.region_mut(column).drop(part);
            let part = self.region_mut(column).append(free, part.len);
            let object = &mut self.objects[column][group];
            object.part = Some(part);
            object.hot = false;
        }
    }

    /// Forgets the parts of objects.
    pub fn lose_places(&mut self) {
        self.is_placed = false;
        let objects = self.objects.iter_mut().flatten();
        objects.for_each(|object| object.part = None);
    }
}
