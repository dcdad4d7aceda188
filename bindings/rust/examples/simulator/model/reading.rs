//! Reads of the plain table, as the texts of replies.

use fullercoral::{Cell, Kind, Refusal};

use super::Model;

/// A refusal as the text of a reply.
pub fn refused(refusal: &Refusal) -> String {
    format!("refused {} {refusal}", refusal.number())
}

impl Model {
    /// The cells of a place, and whether it is alive.
    pub fn row(&self, place: u32) -> String {
        let cells = self.rows[place as usize].iter().map(|cell| cell.cell());
        let row = (self.alive[place as usize], cells.collect::<Vec<Cell<'_>>>());
        format!("{row:?}")
    }

    /// Why a part of a column cannot be read, whatever is local.
    pub fn part_refusal(&self, column: usize, from: u32, to: u32) -> Result<(), Refusal> {
        self.column(column)?;
        let places = self.places();
        if from > to || to > places {
            return Err(Refusal::OutOfRange { from, to, places });
        }
        Ok(())
    }

    /// The row groups of a part.
    pub fn groups_of(&self, from: u32, to: u32) -> std::ops::Range<u32> {
        if from == to {
            return 0..0;
        }
        from / self.group..(to - 1) / self.group + 1
    }

    /// The piece of a row group of a part.
    pub fn piece(&self, column: usize, group: u32, from: u32, to: u32) -> String {
        let places = self.places_of(group);
        let places = places.start.max(from as usize)..places.end.min(to as usize);
        let cells = places.clone().map(|place| self.rows[place][column].cell());
        let cells: Vec<Cell<'_>> = cells.collect();
        let alive = &self.alive[places.clone()];
        format!("{} {cells:?} {alive:?}\n", places.start)
    }

    /// Records that a row group of a column was read.
    pub fn was_read(&mut self, column: usize, group: u32) {
        self.object_mut(column, group).hot = true;
        let lent = &mut self.lent[column];
        lent.push(group);
        if lent.len() > 4 {
            lent.remove(0);
        }
    }

    /// The row groups to prefetch: the next ones of the stride, if the last four reads have one.
    pub fn proposals(&self, column: usize) -> Vec<u32> {
        let lent: Vec<i64> = self.lent[column]
            .iter()
            .map(|group| i64::from(*group))
            .collect();
        let strides: Vec<i64> = lent.windows(2).map(|pair| pair[1] - pair[0]).collect();
        let (Some(last), Some(stride)) = (lent.last(), strides.first()) else {
            return Vec::new();
        };
        if lent.len() < 4 || *stride == 0 || strides.iter().any(|other| other != stride) {
            return Vec::new();
        }
        let next = [last + stride, last + 2 * stride].into_iter();
        let there = next.filter(|group| (0..i64::from(self.groups())).contains(group));
        there.map(|group| group as u32).collect()
    }

    /// Whether each kind has segments for all objects of a row group and all pinned ones, and for texts
    /// twice as many, since an edit writes new texts before it frees the old ones. An automatic policy
    /// then finds space for whatever a call needs.
    pub fn is_spacious(&self) -> bool {
        let spacious = |(kind, beside): (Kind, usize)| {
            let of_kind = |column: &usize| self.kinds[*column] == kind;
            let columns: Vec<usize> = (0..self.kinds.len()).filter(of_kind).collect();
            let Some(first) = columns.first() else {
                return true;
            };
            let objects = columns.iter().flat_map(|column| &self.objects[*column]);
            let pinned = objects.filter(|object| object.pins > 0).count();
            self.region(*first).segments() >= beside * columns.len() + pinned
        };
        [(Kind::Int, 1), (Kind::Text, 2)].into_iter().all(spacious)
    }
}
