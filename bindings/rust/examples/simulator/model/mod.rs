//! A plain table, with the state that decides refusals: which objects are local and where they are, pins,
//! and the counts of edits, jobs and contents. It was written independently of the library and shares no
//! code with it.

use fullercoral::{Kind, Refusal};

use crate::call::{Folding, Owned, Setup, name};

mod edits;
mod folds;
mod objects;
mod reading;
mod region;

pub use objects::Object;
pub use reading::refused;
pub use region::Region;

/// The longest text.
const LONGEST: usize = 4_096;
/// The default limit of edits and jobs.
const MOST_EDITS: u64 = 1 << 40;
/// The default limit of content numbers.
const MOST_CONTENTS: u64 = 1 << 32;

/// The plain table.
#[derive(Debug)]
pub struct Model {
    pub kinds: Vec<Kind>,
    pub group: u32,
    places: u32,
    pub most_edits: u64,
    pub capacity: u64,
    pub rows: Vec<Vec<Owned>>,
    pub alive: Vec<bool>,
    /// By column and row group.
    pub objects: Vec<Vec<Object>>,
    pub ints: Region,
    pub texts: Region,
    /// The row groups of each column that were read last.
    pub lent: Vec<Vec<u32>>,
    pub edits: u64,
    pub begun: u64,
    pub contents: u64,
    /// Whether `begun` and `contents` are known: not after the table moved objects by itself.
    pub is_counted: bool,
    /// Whether the parts of objects are known: not after the table moved objects by itself.
    pub is_placed: bool,
    /// Whether it is known which objects are hot.
    pub is_heat_known: bool,
}

impl Model {
    pub fn new(setup: &Setup) -> Model {
        let (ints, texts) = regions(setup);
        Model {
            kinds: setup.kinds.clone(),
            group: setup.group,
            places: setup.places,
            most_edits: setup.edits.unwrap_or(MOST_EDITS),
            capacity: setup.contents.unwrap_or(MOST_CONTENTS),
            rows: Vec::new(),
            alive: Vec::new(),
            objects: vec![Vec::new(); setup.kinds.len()],
            ints,
            texts,
            lent: vec![Vec::new(); setup.kinds.len()],
            edits: 0,
            begun: 0,
            contents: 0,
            is_counted: setup.policy == fullercoral::Policy::Manual,
            is_placed: true,
            is_heat_known: true,
        }
    }

    pub fn places(&self) -> u32 {
        self.rows.len() as u32
    }

    pub fn groups(&self) -> u32 {
        self.places().div_ceil(self.group)
    }

    /// The used places of a row group.
    pub fn places_of(&self, group: u32) -> std::ops::Range<usize> {
        let from = group * self.group;
        from as usize..self.places().min(from + self.group) as usize
    }

    pub fn region(&self, column: usize) -> &Region {
        match self.kinds[column] {
            Kind::Int => &self.ints,
            _ => &self.texts,
        }
    }

    pub fn region_mut(&mut self, column: usize) -> &mut Region {
        match self.kinds[column] {
            Kind::Int => &mut self.ints,
            _ => &mut self.texts,
        }
    }

    /// Refuses a column that does not exist.
    pub fn column(&self, column: usize) -> Result<(), Refusal> {
        if column < self.kinds.len() {
            return Ok(());
        }
        Err(Refusal::NoColumnAt {
            index: column,
            columns: self.kinds.len(),
        })
    }

    /// Refuses a row group if one of its objects in these columns is away.
    pub fn all_local(
        &self,
        mut columns: impl Iterator<Item = usize>,
        group: u32,
    ) -> Result<(), Refusal> {
        match columns.find(|column| !self.objects[*column][group as usize].local) {
            None => Ok(()),
            Some(column) => Err(Refusal::Absent {
                column: name(column).into(),
                group,
            }),
        }
    }

    /// The refusal of a value, a constant or a question of the wrong kind for a column.
    pub fn wrong_kind(&self, column: usize) -> Refusal {
        let kind = self.kinds[column];
        let column = name(column).into();
        Refusal::WrongKind { column, kind }
    }

    /// Why an aggregate is refused, apart from the limit of aggregates.
    pub fn folding_refusal(&self, folding: &Folding) -> Result<(), Refusal> {
        use fullercoral::Constant::{Int, Text};
        let is_long = |constant: &fullercoral::Constant| matches!(constant, Text(text) if text.len() > LONGEST);
        if folding.tests.len() > 4 {
            let rule = "it has at most 4 tests";
            return Err(Refusal::BadSpec { rule });
        }
        if folding.tests.iter().any(|(_, _, it)| is_long(it)) {
            let rule = "a text constant has at most 4,096 bytes";
            return Err(Refusal::BadSpec { rule });
        }
        for column in folding.columns() {
            if column >= self.kinds.len() {
                let column = name(column).into();
                return Err(Refusal::NoColumn { column });
            }
        }
        if self.kinds[folding.value] != Kind::Int {
            return Err(self.wrong_kind(folding.value));
        }
        for (column, op, constant) in &folding.tests {
            use fullercoral::Op::{Begins, Eq, Is};
            let (kind, suits) = match constant {
                Int(_) => (Kind::Int, !matches!(op, Begins)),
                Text(_) => (Kind::Text, matches!(op, Eq | Is | Begins)),
            };
            if self.kinds[*column] != kind {
                return Err(self.wrong_kind(*column));
            }
            if !suits {
                let (column, op) = (name(*column).into(), *op);
                return Err(Refusal::WrongOp { column, op, kind });
            }
        }
        Ok(())
    }
}

/// The regions that the crate makes from the limits of a table.
fn regions(setup: &Setup) -> (Region, Region) {
    let columns = setup.kinds.len();
    let of_texts = setup
        .kinds
        .iter()
        .filter(|kind| **kind == Kind::Text)
        .count();
    let texts = match of_texts {
        0 => 0,
        all if all == columns => setup.memory,
        some => setup
            .text_memory
            .unwrap_or(setup.memory / columns * some)
            .min(setup.memory),
    };
    let group = setup.group as usize;
    let objects = ((setup.memory - texts) / 16 / group).max(1);
    let in_one = objects.div_ceil(1_024).clamp(1, (1 << 20) / group);
    let segments = (objects / in_one).clamp(1, 1_024);
    let ints = Region::new(segments as u32, (in_one * group) as u32);
    let size = (texts / 256).max((group * 512).min(texts / 8));
    let size = size.clamp(64, 1 << 24);
    let segments = (texts / size).clamp(1, 1_024);
    (ints, Region::new(segments as u32, size as u32))
}
