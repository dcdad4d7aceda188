//! Makes space in local memory by evictions and compactions.

use super::Table;
use crate::library::{Code, Library};
use crate::sys::{FC_INT, FC_TEXT, fc_limits};
use crate::{Cell, Engine, Error, Kind, Refusal, Schema};

/// How many elements of local memory belong to objects, as far as the table knows. All other elements in
/// use are gaps, which a compaction frees.
#[derive(Debug)]
pub(super) struct Live {
    int_columns: u64,
    group: u64,
    /// Whether a segment holds several row groups of numbers, so that evictions leave gaps.
    ints_have_gaps: bool,
    has_texts: bool,
    /// The number of objects of numbers that are away.
    away_ints: u64,
    /// An estimate, in bytes. A compaction corrects it.
    texts: u64,
}

impl Live {
    pub fn new(schema: &Schema, limits: &fc_limits) -> Live {
        Live {
            int_columns: schema.count(Kind::Int) as u64,
            group: u64::from(limits.group),
            ints_have_gaps: limits.int_size >= 2 * limits.group,
            has_texts: schema.count(Kind::Text) > 0,
            away_ints: 0,
            texts: 0,
        }
    }

    pub fn add_row(&mut self, row: &[Cell<'_>]) {
        if self.has_texts {
            let texts = row.iter().filter_map(|cell| cell.text());
            self.texts += texts.map(|text| text.len() as u64 + 4).sum::<u64>();
        }
    }

    pub fn add_texts(&mut self, bytes: u64) {
        self.texts += bytes;
    }

    /// Records the eviction of an object, whose content has this length.
    pub fn evicted(&mut self, kind: Option<Kind>, len: u32) {
        match kind {
            Some(Kind::Int) => self.away_ints += 1,
            _ => self.texts = self.texts.saturating_sub(u64::from(len)),
        }
    }

    /// Records the fetch of an object.
    pub fn fetched(&mut self, kind: Option<Kind>, len: u32) {
        match kind {
            Some(Kind::Int) => self.away_ints = self.away_ints.saturating_sub(1),
            _ => self.texts += u64::from(len),
        }
    }

    fn of_kind(&self, code: u32, places: u32) -> u64 {
        if code == FC_TEXT {
            return self.texts;
        }
        let objects = self.int_columns * u64::from(places).div_ceil(self.group);
        objects.saturating_sub(self.away_ints) * self.group
    }

    fn may_have_gaps(&self, code: u32) -> bool {
        if code == FC_INT {
            self.ints_have_gaps
        } else {
            self.has_texts
        }
    }
}

// How many elements of a kind are free, and how many there are in all.
fn free_of(library: &mut Library, code: u32) -> (u64, u64) {
    let space = library.space(code);
    (
        space.free,
        u64::from(space.segments) * u64::from(space.size),
    )
}

impl<E: Engine> Table<E> {
    /// Takes one step towards more space: compacts the segments of a kind if an eighth of them are gaps,
    /// else evicts the coldest object, else compacts segments with any gaps. Refuses with `RegionFull` if
    /// there is no such step.
    pub(super) fn make_space(&mut self) -> Result<(), Error<E::Error>> {
        if self.compact_gaps(8) {
            return Ok(());
        }
        if self.evict_coldest()?.is_some() {
            return Ok(());
        }
        if self.compact_gaps(u64::MAX) {
            return Ok(());
        }
        Err(Refusal::RegionFull.into())
    }

    // Compacts the kinds with at least one in `one_in` elements in a gap. Returns whether that freed some.
    fn compact_gaps(&mut self, one_in: u64) -> bool {
        let mut freed = false;
        for code in [FC_INT, FC_TEXT] {
            if self.live.may_have_gaps(code) {
                let (free, all) = free_of(&mut self.library, code);
                let live = self.live.of_kind(code, self.library.places());
                let gaps = (all - free).saturating_sub(live);
                if gaps > 0 && gaps >= all / one_in {
                    freed |= self.compact_kind(code) > 0;
                }
            }
        }
        freed
    }

    // Compacts the segments of a kind. Returns how many elements it freed.
    fn compact_kind(&mut self, code: u32) -> u64 {
        let (before, all) = free_of(&mut self.library, code);
        let mut whole = true;
        for segment in 0..self.library.space(code).segments {
            match self.library.compact(code, segment) {
                Ok(()) => self.stats.compactions += 1,
                Err(Code(_)) => {
                    whole = false;
                    break;
                }
            }
        }
        let (after, _) = free_of(&mut self.library, code);
        if code == FC_TEXT && whole {
            self.live.texts = all - after;
        }
        after.saturating_sub(before)
    }

    /// Compacts local memory: frees the gaps that evicted objects and rewritten texts leave. Returns how
    /// many bytes it freed. An automatic policy calls it by itself. It needs one empty segment, and does
    /// nothing without.
    ///
    /// ```
    /// # use fullercoral::{Limits, Memory, Schema, Table, row};
    /// let mut table = Table::open(Schema::new().text("sku"), Limits::new(), Memory::new())?;
    /// table.extend([row!["rye"], row!["bread"]])?;
    /// assert!(table.compact() > 0);
    /// # Ok::<(), Box<dyn std::error::Error>>(())
    /// ```
    pub fn compact(&mut self) -> u64 {
        let ints = if self.live.int_columns > 0 {
            16 * self.compact_kind(FC_INT)
        } else {
            0
        };
        let texts = if self.live.has_texts {
            self.compact_kind(FC_TEXT)
        } else {
            0
        };
        ints + texts
    }
}
