use super::{Given, Table};
use crate::{Cell, ColumnRef, Engine, Error};

impl<E: Engine> Table<E> {
    /// Appends a row, and returns its place. [`row!`](crate::row!) makes the cells.
    ///
    /// ```
    /// # use fullercoral::{Limits, Memory, Schema, Table, row};
    /// let schema = Schema::new().text("sku").int("quantity");
    /// let mut table = Table::open(schema, Limits::new(), Memory::new())?;
    /// assert_eq!(table.insert(row!["bread", 5])?, 0);
    /// assert_eq!(table.insert(row!["rye", None::<i64>])?, 1);
    /// # Ok::<(), Box<dyn std::error::Error>>(())
    /// ```
    ///
    /// # Errors
    /// - `WrongKind`, `RowWidth`, `TextTooLong`: the row does not match the columns.
    /// - `TableFull`, `EditsUsedUp`: a limit is reached.
    /// - `ChunkFull`: the row group's texts are too long.
    /// - `Absent`: by [`Policy::Manual`](crate::Policy::Manual), an object of the last row group is away.
    /// - `RegionFull`: there is no local memory for it.
    /// - `NoMemory`.
    #[doc(alias("append", "push"))]
    #[inline]
    pub fn insert<'a>(&mut self, row: impl AsRef<[Cell<'a>]>) -> Result<u32, Error<E::Error>> {
        let row = row.as_ref();
        let place = self.persist(Given::Row(row), |library| library.insert(row))?;
        self.live.add_row(row);
        Ok(place)
    }

    /// Appends rows until one is refused. Returns how many it appended. If a row is refused, the rows
    /// before it stay: [`places`](Table::places) says how many there are. Cells borrow their texts: if you
    /// make texts on the way, call [`insert`](Table::insert) for each row, or push them to a
    /// [`TextBuffer`](crate::TextBuffer) for [`extend_columns`](Table::extend_columns).
    ///
    /// ```
    /// # use fullercoral::{Limits, Memory, Schema, Table, row};
    /// let schema = Schema::new().int("n").int("square");
    /// let mut table = Table::open(schema, Limits::new(), Memory::new())?;
    /// let rows = (0..1_000).map(|n| row![n, n * n]);
    /// assert_eq!(table.extend(rows)?, 1_000);
    /// # Ok::<(), Box<dyn std::error::Error>>(())
    /// ```
    ///
    /// # Errors
    /// The errors of [`insert`](Table::insert).
    pub fn extend<'a, R: AsRef<[Cell<'a>]>>(
        &mut self,
        rows: impl IntoIterator<Item = R>,
    ) -> Result<usize, Error<E::Error>> {
        let mut inserted = 0;
        for row in rows {
            self.insert(row)?;
            inserted += 1;
        }
        Ok(inserted)
    }

    /// Sets the cell of a column at a place. Like every edit, it needs all objects of the place's row
    /// group: an automatic policy first fetches those that are away.
    ///
    /// ```
    /// # use fullercoral::{Cell, Limits, Memory, Schema, Table, row};
    /// let schema = Schema::new().text("sku").int("quantity");
    /// let mut table = Table::open(schema, Limits::new(), Memory::new())?;
    /// table.insert(row!["bread", 5])?;
    /// table.set("quantity", 0, 6)?;
    /// table.set("sku", 0, Cell::Missing)?;
    /// assert_eq!(table.row(0)?.get("quantity"), Some(Cell::Int(6)));
    /// # Ok::<(), Box<dyn std::error::Error>>(())
    /// ```
    ///
    /// # Errors
    /// - `NoColumn`, `WrongKind`, `TextTooLong`: the cell does not match the column.
    /// - `NoRow`, `RemovedRow`: there is no row at the place.
    /// - `Absent`, `ChunkFull`, `RegionFull`, `EditsUsedUp`, `NoMemory`: as for [`insert`](Table::insert).
    #[doc(alias = "update")]
    #[inline]
    pub fn set<'a>(
        &mut self,
        column: impl ColumnRef,
        place: u32,
        cell: impl Into<Cell<'a>>,
    ) -> Result<(), Error<E::Error>> {
        let column = column.index_in(&self.schema)?;
        let (given, cell) = (Given::Cell { column, place }, cell.into());
        self.persist(given, |library| library.set(column, place, cell))
    }

    /// Removes the row of a place. The place is never reused.
    ///
    /// ```
    /// # use fullercoral::{Limits, Memory, Schema, Table, row};
    /// let mut table = Table::open(Schema::new().int("price"), Limits::new(), Memory::new())?;
    /// table.insert(row![5])?;
    /// table.remove(0)?;
    /// assert!(!table.is_alive(0)?);
    /// assert!(table.remove(0).is_err());
    /// # Ok::<(), Box<dyn std::error::Error>>(())
    /// ```
    ///
    /// # Errors
    /// - `NoRow`, `RemovedRow`: there is no row at the place.
    /// - `Absent`, `EditsUsedUp`, `NoMemory`: as for [`insert`](Table::insert).
    #[doc(alias = "delete")]
    #[inline]
    pub fn remove(&mut self, place: u32) -> Result<(), Error<E::Error>> {
        self.persist(Given::Place(place), |library| library.remove(place))
    }
}
