//! Why a command is refused.

use std::fmt;

/// A refusal of `docs/SCRIPT.md`. `Space` stands for those for space. It is not written: it ends the script.
#[derive(Debug, Clone, Copy, PartialEq, Eq)]
pub enum Refusal {
    BadSchema,
    BadSpec,
    NoColumn,
    WrongKind,
    RowWidth,
    TextTooLong,
    NoRow,
    RemovedRow,
    TableFull,
    NoAggregate,
    TooManyAggregates,
    OutOfRange,
    /// How many row groups are pending.
    Building(usize),
    /// The column and the row group of the object that is away.
    Absent(usize, usize),
    NotPinned,
    Pinned,
    StaleJob,
    FarFull,
    EditsUsedUp,
    Space,
}

impl Refusal {
    /// Its number in replies.
    pub fn number(self) -> u32 {
        match self {
            Refusal::BadSchema => 2,
            Refusal::BadSpec => 3,
            Refusal::NoColumn => 4,
            Refusal::WrongKind => 5,
            Refusal::RowWidth => 6,
            Refusal::TextTooLong => 7,
            Refusal::NoRow => 8,
            Refusal::RemovedRow => 9,
            Refusal::TableFull => 10,
            Refusal::NoAggregate => 12,
            Refusal::TooManyAggregates => 13,
            Refusal::OutOfRange => 14,
            Refusal::Building(_) => 15,
            Refusal::Absent(..) => 16,
            Refusal::Space => 17,
            Refusal::NotPinned => 18,
            Refusal::Pinned => 19,
            Refusal::StaleJob => 20,
            Refusal::FarFull => 22,
            Refusal::EditsUsedUp => 24,
        }
    }
}

/// Its name, and the numbers after it.
impl fmt::Display for Refusal {
    fn fmt(&self, to: &mut fmt::Formatter<'_>) -> fmt::Result {
        match self {
            Refusal::Building(left) => write!(to, "Building {left}"),
            Refusal::Absent(column, group) => write!(to, "Absent {column} {group}"),
            other => write!(to, "{other:?}"),
        }
    }
}
