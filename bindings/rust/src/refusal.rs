use std::error::Error;
use std::fmt;
use std::sync::Arc;

use crate::{Kind, Op};

/// Why a table refused a call. A refused call changes no row, no aggregate and no object.
///
/// [`number`](Refusal::number) is the same in every language. `Display` writes a sentence, which names
/// the column if a column is the cause.
///
/// ```
/// use fullercoral::{Error, Kind, Limits, Memory, Refusal, Schema, Table, row};
///
/// let schema = Schema::new().text("sku").int("quantity");
/// let mut table = Table::open(schema, Limits::new(), Memory::new())?;
/// let Err(Error::Refused(refusal)) = table.insert(row!["rye", "five"]) else { panic!() };
/// assert_eq!(refusal, Refusal::WrongKind { column: "quantity".into(), kind: Kind::Int });
/// assert_eq!(refusal.number(), 5);
/// assert_eq!(refusal.to_string(), "column `quantity` holds numbers, not texts");
/// # Ok::<(), Box<dyn std::error::Error>>(())
/// ```
#[derive(Debug, Clone, PartialEq, Eq)]
#[non_exhaustive]
pub enum Refusal {
    /// 1: an allocation failed.
    NoMemory,
    /// 2: the columns or the limits are outside what a table may have, or two columns have one name.
    BadSchema {
        /// The rule that they break.
        rule: &'static str,
    },
    /// 3: an aggregate has more than 4 tests, or a text constant of more than 4,096 bytes.
    BadSpec {
        /// The rule that it breaks.
        rule: &'static str,
    },
    /// 4: no column has this name.
    NoColumn {
        /// The name.
        column: Arc<str>,
    },
    /// 4: no column has this index.
    NoColumnAt {
        /// The index.
        index: usize,
        /// How many columns the table has.
        columns: usize,
    },
    /// 5: a cell, a constant or a column has the wrong kind.
    WrongKind {
        /// The column's name.
        column: Arc<str>,
        /// The kind that the column holds.
        kind: Kind,
    },
    /// 5: a comparison is not one for constants of this kind.
    WrongOp {
        /// The name of the column that is tested.
        column: Arc<str>,
        /// The comparison.
        op: Op,
        /// The kind of the column and of the constant.
        kind: Kind,
    },
    /// 5: an ask names a key, but the aggregate has no key column; or the other way round.
    WrongKey {
        /// The key column's name, if there is one.
        column: Option<Arc<str>>,
    },
    /// 6: a row does not have one cell for each column.
    RowWidth {
        /// How many cells the row has.
        cells: usize,
        /// How many columns the table has.
        columns: usize,
    },
    /// 7: a text has more than 4,096 bytes.
    TextTooLong {
        /// The column's name.
        column: Arc<str>,
    },
    /// 8: there is no such place.
    NoRow {
        /// The place.
        place: u32,
        /// How many places the table has.
        places: u32,
    },
    /// 9: the row of the place was removed.
    RemovedRow {
        /// The place.
        place: u32,
    },
    /// 10: the limit of places is reached.
    TableFull,
    /// 11: the texts of a row group would not fit a segment of the local region. Smaller row groups
    /// or more memory for texts help: see [`Limits`](crate::Limits).
    ChunkFull,
    /// 12: the table does not have this aggregate.
    NoAggregate,
    /// 13: 32 aggregates are registered.
    TooManyAggregates,
    /// 14: a range of places is not within the table, or ends before it begins.
    OutOfRange {
        /// Where it begins.
        from: u32,
        /// Where it ends: the place after the last one.
        to: u32,
        /// How many places the table has.
        places: u32,
    },
    /// 14: there is no such row group.
    NoGroup {
        /// The row group.
        group: u32,
        /// How many row groups the table has.
        groups: u32,
    },
    /// 15: row groups are pending in the aggregate.
    Building {
        /// How many row groups are pending.
        pending: u32,
    },
    /// 16: an object that the call needs is not local.
    Absent {
        /// The object's column, by name.
        column: Arc<str>,
        /// The object's row group.
        group: u32,
    },
    /// 17: no segment of the local region has the space, and nothing else can be evicted.
    RegionFull,
    /// 18: the object has no pin.
    NotPinned,
    /// 19: the object has a pin.
    Pinned,
    /// 20: the job is out of date, since its object was written or moved; or the row group is not
    /// pending.
    StaleJob,
    /// 20: the object to fetch is local already.
    IsLocal {
        /// The object's column, by name.
        column: Arc<str>,
        /// The object's row group.
        group: u32,
    },
    /// 21: the storage returned other bytes than were put.
    FarFault {
        /// The column of the object whose bytes are wrong, by name.
        column: Arc<str>,
        /// The object's row group.
        group: u32,
    },
    /// 22: the content numbers are used up: see [`Limits::contents`](crate::Limits::contents).
    FarFull,
    /// 24: the limit of edits, of jobs or of pins is reached.
    EditsUsedUp,
    /// 102: a text is not valid UTF-8. Only [`Column::texts`](crate::Column::texts) can have such a text.
    NoUtf8 {
        /// The column's name.
        column: Arc<str>,
        /// The row among the rows to insert.
        row: usize,
    },
    /// 103: columns have different lengths, or their offsets or bits are invalid.
    BadArgument {
        /// The column's name.
        column: Arc<str>,
        /// The first invalid row among the rows to insert.
        row: usize,
        /// The rule that the column breaks.
        rule: &'static str,
    },
    /// 106: 2^62 faults were counted. The table can be read, but not carry jobs.
    UsedUp,
    /// Any other code. No call is known to return one.
    Other(u32),
}

impl Refusal {
    /// The refusal's number.
    ///
    /// ```
    /// assert_eq!(fullercoral::Refusal::RegionFull.number(), 17);
    /// ```
    #[must_use]
    pub fn number(&self) -> u32 {
        match self {
            Refusal::NoMemory => 1,
            Refusal::BadSchema { .. } => 2,
            Refusal::BadSpec { .. } => 3,
            Refusal::NoColumn { .. } | Refusal::NoColumnAt { .. } => 4,
            Refusal::WrongKind { .. } | Refusal::WrongOp { .. } | Refusal::WrongKey { .. } => 5,
            Refusal::RowWidth { .. } => 6,
            Refusal::TextTooLong { .. } => 7,
            Refusal::NoRow { .. } => 8,
            Refusal::RemovedRow { .. } => 9,
            Refusal::TableFull => 10,
            Refusal::ChunkFull => 11,
            Refusal::NoAggregate => 12,
            Refusal::TooManyAggregates => 13,
            Refusal::OutOfRange { .. } | Refusal::NoGroup { .. } => 14,
            Refusal::Building { .. } => 15,
            Refusal::Absent { .. } => 16,
            Refusal::RegionFull => 17,
            Refusal::NotPinned => 18,
            Refusal::Pinned => 19,
            Refusal::StaleJob | Refusal::IsLocal { .. } => 20,
            Refusal::FarFault { .. } => 21,
            Refusal::FarFull => 22,
            Refusal::EditsUsedUp => 24,
            Refusal::NoUtf8 { .. } => 102,
            Refusal::BadArgument { .. } => 103,
            Refusal::UsedUp => 106,
            Refusal::Other(code) => *code,
        }
    }

    /// The refusal of a code without details, or [`Refusal::Other`].
    pub(crate) fn of_code(code: u32) -> Refusal {
        match code {
            1 => Refusal::NoMemory,
            2 => Refusal::BadSchema {
                rule: "a limit is out of its bounds",
            },
            10 => Refusal::TableFull,
            11 => Refusal::ChunkFull,
            12 => Refusal::NoAggregate,
            13 => Refusal::TooManyAggregates,
            17 => Refusal::RegionFull,
            18 => Refusal::NotPinned,
            19 => Refusal::Pinned,
            20 => Refusal::StaleJob,
            22 => Refusal::FarFull,
            24 => Refusal::EditsUsedUp,
            106 => Refusal::UsedUp,
            other => Refusal::Other(other),
        }
    }
}

impl fmt::Display for Refusal {
    fn fmt(&self, f: &mut fmt::Formatter<'_>) -> fmt::Result {
        match self {
            Refusal::BadSchema { rule } => write!(f, "invalid columns or limits: {rule}"),
            Refusal::BadSpec { rule } => write!(f, "invalid aggregate: {rule}"),
            Refusal::RowWidth { cells, columns } => {
                write!(
                    f,
                    "the row has {cells} cells, but the table has {columns} columns"
                )
            }
            Refusal::Building { pending } => write!(
                f,
                "{pending} row groups are pending in the aggregate: call scan or build"
            ),
            Refusal::Other(code) => write!(f, "the library refused with code {code}"),
            Refusal::NoRow { .. }
            | Refusal::RemovedRow { .. }
            | Refusal::OutOfRange { .. }
            | Refusal::NoGroup { .. }
            | Refusal::Absent { .. }
            | Refusal::IsLocal { .. }
            | Refusal::FarFault { .. } => self.fmt_place(f),
            Refusal::WrongKind { .. } | Refusal::WrongOp { .. } | Refusal::WrongKey { .. } => {
                self.fmt_kind(f)
            }
            Refusal::NoColumn { .. }
            | Refusal::NoColumnAt { .. }
            | Refusal::TextTooLong { .. }
            | Refusal::NoUtf8 { .. }
            | Refusal::BadArgument { .. } => self.fmt_column(f),
            plain => f.write_str(plain.sentence()),
        }
    }
}

impl Refusal {
    // The sentence of a refusal about a place or a row group.
    fn fmt_place(&self, f: &mut fmt::Formatter<'_>) -> fmt::Result {
        match self {
            Refusal::NoRow { place, places } => {
                write!(f, "there is no place {place} (the table has {places})")
            }
            Refusal::RemovedRow { place } => write!(f, "the row at place {place} was removed"),
            Refusal::OutOfRange { from, to, places } => {
                write!(f, "the places {from}..{to} are not within 0..{places}")
            }
            Refusal::NoGroup { group, groups } => {
                write!(f, "there is no row group {group} (the table has {groups})")
            }
            Refusal::Absent { column, group } => {
                write!(f, "row group {group} of column `{column}` is not local")
            }
            Refusal::IsLocal { column, group } => {
                write!(f, "row group {group} of column `{column}` is local already")
            }
            Refusal::FarFault { column, group } => write!(
                f,
                "the storage returned other bytes than were put for row group {group} of column `{column}`"
            ),
            plain => f.write_str(plain.sentence()),
        }
    }

    // The sentence of a refusal about a kind.
    fn fmt_kind(&self, f: &mut fmt::Formatter<'_>) -> fmt::Result {
        match self {
            Refusal::WrongKind { column, kind } => {
                let (own, other) = (of_kind(*kind), of_other_kind(*kind));
                write!(f, "column `{column}` holds {own}, not {other}")
            }
            Refusal::WrongOp { column, op, kind } => {
                let (own, other) = (of_kind(*kind), of_other_kind(*kind));
                let ops = match kind {
                    Kind::Int => "Eq, Ne, Lt, Le, Gt and Ge",
                    Kind::Text => "Eq, Is and Begins",
                };
                write!(
                    f,
                    "`{op:?}` compares {other}, but column `{column}` holds {own}: use {ops}"
                )
            }
            Refusal::WrongKey { column: None } => {
                f.write_str("the aggregate has no key column: ask for Key::None")
            }
            Refusal::WrongKey {
                column: Some(column),
            } => write!(
                f,
                "the aggregate has a line for each key of column `{column}`: ask for one"
            ),
            plain => f.write_str(plain.sentence()),
        }
    }

    // The sentence of a refusal about a column.
    fn fmt_column(&self, f: &mut fmt::Formatter<'_>) -> fmt::Result {
        match self {
            Refusal::NoColumn { column } => write!(f, "there is no column `{column}`"),
            Refusal::NoColumnAt { index, columns } => {
                write!(
                    f,
                    "there is no column with index {index} (the table has {columns})"
                )
            }
            Refusal::TextTooLong { column } => {
                write!(f, "the text for column `{column}` has more than 4096 bytes")
            }
            Refusal::NoUtf8 { column, row } => {
                write!(
                    f,
                    "the text for column `{column}` at row {row} is not valid UTF-8"
                )
            }
            Refusal::BadArgument { column, row, rule } => {
                write!(f, "column `{column}` is invalid at row {row}: {rule}")
            }
            plain => f.write_str(plain.sentence()),
        }
    }
}

fn of_kind(kind: Kind) -> &'static str {
    match kind {
        Kind::Int => "numbers",
        Kind::Text => "texts",
    }
}

fn of_other_kind(kind: Kind) -> &'static str {
    match kind {
        Kind::Int => "texts",
        Kind::Text => "numbers",
    }
}

impl Refusal {
    /// The sentence of a refusal without details.
    fn sentence(&self) -> &'static str {
        match self {
            Refusal::NoMemory => "an allocation failed",
            Refusal::TableFull => "the limit of places is reached: see Limits::places",
            Refusal::ChunkFull => {
                "the texts of the row group would not fit a segment: see Limits::text_memory"
            }
            Refusal::NoAggregate => "the table does not have this aggregate",
            Refusal::TooManyAggregates => "32 aggregates are registered: unwatch one first",
            Refusal::RegionFull => "local memory is full: see Limits::local_memory",
            Refusal::NotPinned => "the object has no pin",
            Refusal::Pinned => "the object has a pin",
            Refusal::StaleJob => {
                "the object was written or moved since, or the row group is not pending"
            }
            Refusal::FarFull => "the content numbers are used up: see Limits::contents",
            Refusal::EditsUsedUp => {
                "the limit of edits, of jobs or of pins is reached: see Limits::edits"
            }
            Refusal::UsedUp => "too many faults were counted: the table carries no more jobs",
            _ => "the call was refused",
        }
    }
}

impl Error for Refusal {}
