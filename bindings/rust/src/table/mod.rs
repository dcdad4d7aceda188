use std::fmt;
use std::sync::Arc;

use crate::answer::Answer;
use crate::library::{Buffers, Code, Library};
use crate::spec::Resolved;
use crate::sys::{FC_INT, FC_TEXT, fc_limits};
use crate::{
    Cell, Column, ColumnRef, Engine, Error, Files, Kind, Limits, Policy, Refusal, Schema, Stats,
};

mod aggregates;
mod building;
mod columns;
mod copies;
mod edits;
mod jobs;
mod movement;
mod persist;
mod phases;
mod pieces;
mod pin;
mod reading;
mod renewal;
mod row;
mod space;
mod work;

pub use jobs::{Incoming, Outgoing, Stored};
pub use pieces::{IntPiece, Ints, TextPiece, Texts};
pub use pin::Pinned;
pub use row::{Row, RowIter};

use copies::Copies;
use jobs::Abandoned;
use space::Live;

/// A columnar table with live aggregates, whose columns may be larger than its local memory.
///
/// Its rows have places 0, 1, 2, .. in the order of insertion; a removed row's place is never reused. A
/// column's chunk of a row group is an *object*: it is local, or its bytes are away in the table's
/// [`Engine`]. Aggregates answer as before while objects are away. The table moves objects by itself, or
/// leaves that to the program, as its [`Policy`] says.
///
/// A table is `Send` if its engine is, but not `Sync`: threads share it under a lock, as in the
/// [crate's documentation](crate#threads). Calls that only read need a `&mut` too, since the library
/// serves one call at a time. Dropping a table closes it, and drops its engine.
///
/// Without a parameter, `Table` is a table over [`Files`], whose calls return [`Error`] without one:
///
/// ```
/// use fullercoral::{Error, Files, Limits, Schema, Table, row};
///
/// fn insert(table: &mut Table) -> Result<u32, Error> {
///     table.insert(row!["rye", 3])
/// }
///
/// fn run() -> Result<(), Error> {
///     let schema = Schema::new().text("sku").int("quantity");
///     let engine = Files::create(std::env::temp_dir())?;
///     let mut table = Table::open(schema, Limits::new(), engine)?;
///     insert(&mut table)?;
///     Ok(())
/// }
/// # run().unwrap();
/// ```
///
/// A table over any engine:
///
/// ```
/// use fullercoral::{Limits, Memory, Schema, Table, row, totals};
///
/// let schema = Schema::new().text("sku").int("quantity");
/// let mut table = Table::open(schema, Limits::new(), Memory::new())?;
/// let sold = table.watch(totals("quantity").by("sku"))?;
/// table.extend([row!["bread", 5], row!["rye", 3], row!["bread", 2]])?;
/// for line in table.ask(sold)? {
///     println!("{}: {} sales, {} sold", line.key, line.count, line.sum);
/// }
/// # Ok::<(), Box<dyn std::error::Error>>(())
/// ```
pub struct Table<E: Engine = Files> {
    library: Library,
    engine: E,
    schema: Schema,
    limits: fc_limits,
    capacity: u64,
    policy: Policy,
    /// The aggregates by number.
    watched: Vec<Option<Watched>>,
    copies: Copies,
    live: Live,
    answer: Answer,
    buffers: Buffers,
    /// The buffer for a content from the engine.
    content: Vec<u8>,
    bits: Vec<Vec<u8>>,
    stats: Stats,
    abandoned: Arc<Abandoned>,
    /// The number of the content that the engine is putting, or was putting when it panicked.
    putting: Option<u64>,
}

/// A registered aggregate.
#[derive(Debug)]
struct Watched {
    stamp: u64,
    /// The kind of its keys, if it has a key column.
    key: Option<Kind>,
    spec: Resolved,
}

/// The arguments of a refused call, to name the column or place at fault.
#[derive(Debug, Clone, Copy)]
enum Given<'a> {
    Nothing,
    Row(&'a [Cell<'a>]),
    /// A row of columns, by its index.
    RowOf(&'a [Column<'a>], usize),
    Cell {
        column: u32,
        place: u32,
    },
    Place(u32),
    Group(u32),
}

/// Why a step failed: a code of the library, or a complete error.
#[derive(Debug)]
enum Failure<E> {
    Code(Code),
    Error(Error<E>),
}

impl<E> From<Code> for Failure<E> {
    fn from(code: Code) -> Failure<E> {
        Failure::Code(code)
    }
}

impl<E> From<Error<E>> for Failure<E> {
    fn from(error: Error<E>) -> Failure<E> {
        Failure::Error(error)
    }
}

impl<E> From<Refusal> for Failure<E> {
    fn from(refusal: Refusal) -> Failure<E> {
        Failure::Error(refusal.into())
    }
}

impl<E: Engine> Table<E> {
    /// Opens an empty table over an engine.
    ///
    /// ```
    /// use fullercoral::{Files, Limits, Schema, Table};
    ///
    /// let schema = Schema::new().text("sku").int("quantity");
    /// let limits = Limits::new().local_memory(16 << 20);
    /// let table = Table::open(schema, limits, Files::create(std::env::temp_dir())?)?;
    /// # let _ = table;
    /// # Ok::<(), Box<dyn std::error::Error>>(())
    /// ```
    ///
    /// # Errors
    /// - `BadSchema`: there is no column, or more than 16, or two with one name; or a limit is out of its
    ///   bounds. Its `rule` says which.
    /// - `NoMemory`.
    pub fn open(schema: Schema, limits: Limits, engine: E) -> Result<Table<E>, Error<E::Error>> {
        if let Some(rule) = limits.broken_rule(&schema) {
            return Err(Refusal::BadSchema { rule }.into());
        }
        let kinds: Vec<u32> = schema.iter().map(|(_, kind)| kind.code()).collect();
        let (raw, capacity) = (limits.for_schema(&schema), limits.capacity());
        let opened = Library::open(&kinds, &raw, capacity);
        let library = opened.map_err(|Code(code)| Refusal::of_code(code))?;
        Ok(Table {
            library,
            engine,
            limits: raw,
            capacity,
            policy: Policy::default(),
            watched: Vec::new(),
            copies: Copies::new(schema.len()),
            live: Live::new(&schema, &raw),
            answer: Answer::default(),
            buffers: Buffers::default(),
            content: Vec::new(),
            bits: vec![Vec::new(); schema.len()],
            stats: Stats::default(),
            abandoned: Arc::default(),
            putting: None,
            schema,
        })
    }

    /// The columns. A clone of the schema copies no names, and does not borrow the table.
    ///
    /// ```
    /// # use fullercoral::{Cell, Limits, Memory, Schema, Table, row};
    /// let mut table = Table::open(Schema::new().int("price"), Limits::new(), Memory::new())?;
    /// assert_eq!(table.schema().name(0), Some("price"));
    /// table.insert(row![5])?;
    /// let schema = table.schema().clone();
    /// for (name, _) in schema.iter() {
    ///     table.set(name, 0, Cell::Missing)?;
    /// }
    /// # Ok::<(), Box<dyn std::error::Error>>(())
    /// ```
    pub fn schema(&self) -> &Schema {
        &self.schema
    }

    /// The engine.
    ///
    /// ```
    /// # use fullercoral::{Limits, Memory, Schema, Table};
    /// let table = Table::open(Schema::new().int("price"), Limits::new(), Memory::new())?;
    /// assert!(table.engine().is_empty());
    /// # Ok::<(), Box<dyn std::error::Error>>(())
    /// ```
    #[must_use]
    pub fn engine(&self) -> &E {
        &self.engine
    }

    /// The engine, mutably. The table's contents must stay in it, or fetches fail.
    ///
    /// ```
    /// # use fullercoral::{Fault, Faulty, Limits, Memory, Schema, Table};
    /// let engine = Faulty::new(Memory::new(), 1);
    /// let mut table = Table::open(Schema::new().int("price"), Limits::new(), engine)?;
    /// table.engine_mut().set(Fault::Fail, 100);
    /// # Ok::<(), Box<dyn std::error::Error>>(())
    /// ```
    pub fn engine_mut(&mut self) -> &mut E {
        &mut self.engine
    }

    /// The policy: how the table moves its objects.
    ///
    /// ```
    /// # use fullercoral::{Limits, Memory, Policy, Schema, Table};
    /// let table = Table::open(Schema::new().int("price"), Limits::new(), Memory::new())?;
    /// assert_eq!(table.policy(), Policy::Prefetch);
    /// # Ok::<(), Box<dyn std::error::Error>>(())
    /// ```
    #[must_use]
    pub fn policy(&self) -> Policy {
        self.policy
    }

    /// Sets the policy: how the table moves its objects from now on.
    ///
    /// ```
    /// # use fullercoral::{Limits, Memory, Policy, Schema, Table};
    /// let mut table = Table::open(Schema::new().int("price"), Limits::new(), Memory::new())?;
    /// table.set_policy(Policy::Manual);
    /// # Ok::<(), Box<dyn std::error::Error>>(())
    /// ```
    pub fn set_policy(&mut self, policy: Policy) {
        self.policy = policy;
    }

    /// The number of places, with those of removed rows. The next row gets this place. To count the live
    /// rows, ask an aggregate: [`totals`](crate::totals) of a column without missing cells.
    ///
    /// ```
    /// # use fullercoral::{Limits, Memory, Schema, Table, row};
    /// let mut table = Table::open(Schema::new().int("price"), Limits::new(), Memory::new())?;
    /// table.insert(row![5])?;
    /// assert_eq!(table.places(), 1);
    /// # Ok::<(), Box<dyn std::error::Error>>(())
    /// ```
    #[must_use]
    #[doc(alias = "len")]
    pub fn places(&mut self) -> u32 {
        self.library.places()
    }

    /// The number of places of a row group.
    ///
    /// ```
    /// # use fullercoral::{Limits, Memory, Schema, Table};
    /// let limits = Limits::new().group(1_024);
    /// let table = Table::open(Schema::new().int("price"), limits, Memory::new())?;
    /// assert_eq!(table.group(), 1_024);
    /// # Ok::<(), Box<dyn std::error::Error>>(())
    /// ```
    #[must_use]
    pub fn group(&self) -> u32 {
        self.limits.group
    }

    /// The number of row groups.
    ///
    /// ```
    /// # use fullercoral::{Limits, Memory, Schema, Table, row};
    /// let limits = Limits::new().group(4);
    /// let mut table = Table::open(Schema::new().int("price"), limits, Memory::new())?;
    /// table.extend((0..9).map(|price| row![price]))?;
    /// assert_eq!(table.groups(), 3);
    /// # Ok::<(), Box<dyn std::error::Error>>(())
    /// ```
    #[must_use]
    pub fn groups(&mut self) -> u32 {
        self.places().div_ceil(self.limits.group)
    }

    /// Whether an object is local.
    ///
    /// ```
    /// # use fullercoral::{Limits, Memory, Schema, Table, row};
    /// let mut table = Table::open(Schema::new().int("price"), Limits::new(), Memory::new())?;
    /// table.insert(row![5])?;
    /// table.evict("price", 0)?;
    /// assert!(!table.is_local("price", 0)?);
    /// # Ok::<(), Box<dyn std::error::Error>>(())
    /// ```
    ///
    /// # Errors
    /// `NoColumn`, and `NoGroup` if there is no such row group.
    pub fn is_local(
        &mut self,
        column: impl ColumnRef,
        group: u32,
    ) -> Result<bool, Error<E::Error>> {
        let column = column.index_in(&self.schema)?;
        let object = self.library.object(column, group);
        self.outcome_of(Given::Group(group), object)
            .map(|object| object.local)
    }

    /// Counts of what the table did since it was opened, and how full its local memory is.
    ///
    /// ```
    /// # use fullercoral::{Limits, Memory, Schema, Table};
    /// let mut table = Table::open(Schema::new().int("price"), Limits::new(), Memory::new())?;
    /// assert_eq!(table.stats().evictions, 0);
    /// # Ok::<(), Box<dyn std::error::Error>>(())
    /// ```
    #[must_use]
    pub fn stats(&mut self) -> Stats {
        let mut stats = self.stats;
        stats.faults = self.library.faults();
        for (kind, code, bytes) in [(Kind::Int, FC_INT, 16), (Kind::Text, FC_TEXT, 1)] {
            if self.schema.count(kind) > 0 {
                let space = self.library.space(code);
                let all = u64::from(space.segments) * u64::from(space.size);
                stats.local_used += (all - space.free) * bytes;
                stats.local_memory += all * bytes;
            }
        }
        stats
    }

    /// Closes the table and returns its engine.
    ///
    /// ```
    /// # use fullercoral::{Limits, Memory, Schema, Table};
    /// let table = Table::open(Schema::new().int("price"), Limits::new(), Memory::new())?;
    /// assert!(table.into_engine().is_empty());
    /// # Ok::<(), Box<dyn std::error::Error>>(())
    /// ```
    #[must_use]
    #[doc(alias = "close")]
    pub fn into_engine(self) -> E {
        self.engine
    }

    // The refusal of a code, with the column or the place at fault.
    #[cold]
    fn refused(&mut self, code: Code, given: Given<'_>) -> Error<E::Error> {
        let details = self.library.last_refusal();
        let refusal = match (code.0, given) {
            (15, _) => Refusal::Building {
                pending: details.pending,
            },
            (16, _) => Refusal::Absent {
                column: self.schema.label(details.column),
                group: details.group,
            },
            (4, Given::Cell { column, .. }) => Refusal::NoColumn {
                column: self.schema.label(column),
            },
            (5, Given::Cell { column, .. }) => self.schema.wrong_kind(column),
            (5, Given::Row(row)) => self.wrong_kind_in(row),
            (6, Given::Row(row)) => Refusal::RowWidth {
                cells: row.len(),
                columns: self.schema.len(),
            },
            (7, Given::Cell { column, .. }) => Refusal::TextTooLong {
                column: self.schema.label(column),
            },
            (7, Given::Row(row)) => Refusal::TextTooLong {
                column: self.too_long_in(row),
            },
            (7 | 102 | 103, Given::RowOf(columns, row)) => self.refused_row(code, columns, row),
            (8, Given::Place(place) | Given::Cell { place, .. }) => Refusal::NoRow {
                place,
                places: self.places(),
            },
            (9, Given::Place(place) | Given::Cell { place, .. }) => Refusal::RemovedRow { place },
            (14, Given::Group(group)) => Refusal::NoGroup {
                group,
                groups: self.groups(),
            },
            (code, _) => Refusal::of_code(code),
        };
        refusal.into()
    }

    // The result of a step, for the caller.
    fn outcome<T>(
        &mut self,
        result: Result<T, impl Into<Failure<E::Error>>>,
    ) -> Result<T, Error<E::Error>> {
        self.outcome_of(Given::Nothing, result)
    }

    // The result of a step with these arguments.
    fn outcome_of<T>(
        &mut self,
        given: Given<'_>,
        result: Result<T, impl Into<Failure<E::Error>>>,
    ) -> Result<T, Error<E::Error>> {
        result.map_err(|failure| match failure.into() {
            Failure::Code(code) => self.refused(code, given),
            Failure::Error(error) => error,
        })
    }

    fn wrong_kind_in(&self, row: &[Cell<'_>]) -> Refusal {
        let wrong = |(i, cell): (usize, &Cell<'_>)| {
            cell.kind()
                .is_some_and(|kind| self.schema.kind_at(i) != Some(kind))
        };
        let wrong = row.iter().enumerate().position(wrong);
        self.schema.wrong_kind(wrong.unwrap_or(0) as u32)
    }

    fn too_long_in(&self, row: &[Cell<'_>]) -> Arc<str> {
        let long = |cell: &Cell<'_>| cell.text().is_some_and(|text| text.len() > 4_096);
        self.schema
            .label(row.iter().position(long).unwrap_or(0) as u32)
    }

    // Why a row of columns is refused, with the column at fault.
    fn refused_row(&self, Code(code): Code, columns: &[Column<'_>], row: usize) -> Refusal {
        let is_at_fault = |column: &Column<'_>| match code {
            7 => column.text_len(row) > 4_096,
            102 => column.has_no_utf8(row),
            _ => column.has_bad_offsets(row),
        };
        let index = columns.iter().position(is_at_fault).unwrap_or(0);
        let column = self.schema.label(index as u32);
        match code {
            7 => Refusal::TextTooLong { column },
            102 => Refusal::NoUtf8 { column, row },
            _ => Refusal::BadArgument {
                column,
                row,
                rule: "offsets must ascend, up to the length of the bytes",
            },
        }
    }
}

impl<E: Engine> fmt::Debug for Table<E> {
    fn fmt(&self, f: &mut fmt::Formatter<'_>) -> fmt::Result {
        let table = &mut f.debug_struct("Table");
        table
            .field("schema", &self.schema)
            .field("policy", &self.policy);
        table.finish_non_exhaustive()
    }
}
