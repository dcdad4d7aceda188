use std::ops::{Bound, RangeBounds};

use super::pieces::{IntPiece, Ints, TextPiece, Texts};
use super::{Given, Row, Table};
use crate::cell::text_of;
use crate::library::{Buffers, Coded, Library};
use crate::{ColumnRef, Engine, Error, Kind, Policy, Refusal};

impl<E: Engine> Table<E> {
    /// Reads the row of a place, removed or not.
    ///
    /// ```
    /// # use fullercoral::{Cell, Limits, Memory, Schema, Table, row};
    /// let schema = Schema::new().text("sku").int("quantity");
    /// let mut table = Table::open(schema, Limits::new(), Memory::new())?;
    /// table.insert(row!["rye", 3])?;
    /// assert_eq!(table.row(0)?.get("sku"), Some(Cell::Text("rye")));
    /// # Ok::<(), Box<dyn std::error::Error>>(())
    /// ```
    ///
    /// # Errors
    /// - `NoRow`: there is no such place.
    /// - `Absent`: by [`Policy::Manual`](crate::Policy::Manual), an object of its row group is away.
    /// - `RegionFull`: there is no local memory to fetch it.
    #[doc(alias = "get")]
    pub fn row(&mut self, place: u32) -> Result<Row<'_>, Error<E::Error>> {
        let columns = self.schema.len();
        let alive = self.is_alive(place)?;
        self.persist_lending(Given::Place(place), |library| library.row(place, columns))?;
        // SAFETY: rule 3, the last call wrote them, and the result borrows the table.
        Ok(unsafe { Row::new(self.library.cells(), &self.schema, alive) })
    }

    /// Whether the row of a place is alive, that is, not removed. It needs no object.
    ///
    /// ```
    /// # use fullercoral::{Limits, Memory, Schema, Table, row};
    /// let mut table = Table::open(Schema::new().int("price"), Limits::new(), Memory::new())?;
    /// table.insert(row![5])?;
    /// assert!(table.is_alive(0)?);
    /// # Ok::<(), Box<dyn std::error::Error>>(())
    /// ```
    ///
    /// # Errors
    /// `NoRow`: there is no such place.
    #[inline]
    pub fn is_alive(&mut self, place: u32) -> Result<bool, Error<E::Error>> {
        let alive = self.library.is_alive(place);
        alive.map_err(|code| self.refused(code, Given::Place(place)))
    }

    /// Reads the number of a place, removed or not; `None` if it is missing. It needs only the object of
    /// this column; [`row`](Table::row) needs those of all columns.
    ///
    /// ```
    /// # use fullercoral::{Limits, Memory, Schema, Table, row};
    /// let mut table = Table::open(Schema::new().int("price"), Limits::new(), Memory::new())?;
    /// table.insert(row![5])?;
    /// assert_eq!(table.int("price", 0)?, Some(5));
    /// # Ok::<(), Box<dyn std::error::Error>>(())
    /// ```
    ///
    /// # Errors
    /// - `NoColumn`, `WrongKind`, `NoRow`: there is no such column of numbers, or no such place.
    /// - `Absent`: by [`Policy::Manual`](crate::Policy::Manual), its object is away.
    /// - `RegionFull`: there is no local memory to fetch it.
    pub fn int(
        &mut self,
        column: impl ColumnRef,
        place: u32,
    ) -> Result<Option<i64>, Error<E::Error>> {
        let column = column.index_in(&self.schema)?;
        if self.schema.kind_at(column as usize) != Some(Kind::Int) {
            return Err(self.schema.wrong_kind(column).into());
        }
        self.is_alive(place)?;
        self.persist(Given::Nothing, |library| library.number(column, place))
    }

    /// Reads the text of a place, removed or not, without a copy; `None` if it is missing.
    ///
    /// ```
    /// # use fullercoral::{Limits, Memory, Schema, Table, row};
    /// let mut table = Table::open(Schema::new().text("sku"), Limits::new(), Memory::new())?;
    /// table.insert(row!["rye"])?;
    /// assert_eq!(table.text("sku", 0)?, Some("rye"));
    /// # Ok::<(), Box<dyn std::error::Error>>(())
    /// ```
    ///
    /// # Errors
    /// - `NoColumn`, `WrongKind`, `NoRow`: there is no such column of texts, or no such place.
    /// - `Absent`: by [`Policy::Manual`](crate::Policy::Manual), its object is away.
    /// - `RegionFull`: there is no local memory to fetch it.
    pub fn text(
        &mut self,
        column: impl ColumnRef,
        place: u32,
    ) -> Result<Option<&str>, Error<E::Error>> {
        let column = column.index_in(&self.schema)?;
        let given = Given::Cell { column, place };
        let text = self.persist_lending(given, |library| library.text(column, place))?;
        // SAFETY: rule 3, that was the last call, and the result borrows the table.
        Ok(text.map(|text| unsafe { text_of(text) }))
    }

    /// Reads the numbers of a range of places piece by piece, one for each row group, into a buffer of
    /// the table.
    ///
    /// ```
    /// # use fullercoral::{Limits, Memory, Schema, Table, row};
    /// let mut table = Table::open(Schema::new().int("price"), Limits::new(), Memory::new())?;
    /// table.extend([row![5], row![None::<i64>], row![7]])?;
    /// let mut sum = 0;
    /// let mut prices = table.ints("price", ..)?;
    /// while let Some(piece) = prices.next_piece()? {
    ///     sum += piece.rows().filter_map(|(_, price)| price).sum::<i64>();
    /// }
    /// assert_eq!(sum, 12);
    /// // Or, in one call, of some places:
    /// table.ints("price", 1..3)?.for_each(|_, price| sum += price.unwrap_or(0))?;
    /// assert_eq!(sum, 19);
    /// # Ok::<(), Box<dyn std::error::Error>>(())
    /// ```
    ///
    /// # Errors
    /// `NoColumn`, `WrongKind`, and `OutOfRange` if the range is not within the table.
    pub fn ints(
        &mut self,
        column: impl ColumnRef,
        places: impl RangeBounds<u32>,
    ) -> Result<Ints<'_, E>, Error<E::Error>> {
        let (column, from, to) = self.part(column, Kind::Int, places)?;
        Ok(Ints::new(self, column, from, to))
    }

    /// Reads the texts of a range of places piece by piece, one for each row group, into a buffer of the
    /// table; [`text`](Table::text) borrows one text without a copy.
    ///
    /// ```
    /// # use fullercoral::{Limits, Memory, Schema, Table, row};
    /// let mut table = Table::open(Schema::new().text("sku"), Limits::new(), Memory::new())?;
    /// table.extend([row!["rye"], row![None::<&str>], row!["bread"]])?;
    /// let mut skus = table.texts("sku", ..)?;
    /// while let Some(piece) = skus.next_piece()? {
    ///     for (place, sku) in piece.rows() {
    ///         println!("{place}: {}", sku.unwrap_or("none"));
    ///     }
    /// }
    /// // Or, in one call:
    /// let mut lengths = Vec::new();
    /// table.texts("sku", ..)?.for_each(|_, sku| lengths.push(sku.map(str::len)))?;
    /// assert_eq!(lengths, [Some(3), None, Some(5)]);
    /// # Ok::<(), Box<dyn std::error::Error>>(())
    /// ```
    ///
    /// # Errors
    /// `NoColumn`, `WrongKind`, and `OutOfRange` if the range is not within the table.
    pub fn texts(
        &mut self,
        column: impl ColumnRef,
        places: impl RangeBounds<u32>,
    ) -> Result<Texts<'_, E>, Error<E::Error>> {
        let (column, from, to) = self.part(column, Kind::Text, places)?;
        Ok(Texts::new(self, column, from, to))
    }

    // The column and the range of places.
    fn part(
        &mut self,
        column: impl ColumnRef,
        kind: Kind,
        range: impl RangeBounds<u32>,
    ) -> Result<(u32, u32, u32), Refusal> {
        let column = column.index_in(&self.schema)?;
        if self.schema.kind_at(column as usize) != Some(kind) {
            return Err(self.schema.wrong_kind(column));
        }
        let places = self.library.places();
        let from = match range.start_bound() {
            Bound::Included(from) => Some(*from),
            Bound::Excluded(before) => before.checked_add(1),
            Bound::Unbounded => Some(0),
        };
        let to = match range.end_bound() {
            Bound::Included(last) => last.checked_add(1),
            Bound::Excluded(to) => Some(*to),
            Bound::Unbounded => Some(places),
        };
        match (from, to) {
            (Some(from), Some(to)) if from <= to && to <= places => Ok((column, from, to)),
            (from, to) => Err(Refusal::OutOfRange {
                from: from.unwrap_or(u32::MAX),
                to: to.unwrap_or(u32::MAX),
                places,
            }),
        }
    }

    /// The end of the row group of a place.
    pub(super) fn group_end(&self, place: u32) -> u32 {
        let group = self.limits.group;
        (place / group + 1).saturating_mul(group)
    }

    pub(super) fn int_piece(
        &mut self,
        column: u32,
        from: u32,
        to: u32,
    ) -> Result<IntPiece<'_>, Error<E::Error>> {
        self.read(column, |library, buffers| {
            library.numbers(column, from, to, buffers)
        })?;
        Ok(IntPiece {
            first: from,
            values: &self.buffers.values,
            valid: &self.buffers.valid,
            alive: &self.buffers.alive,
        })
    }

    pub(super) fn text_piece(
        &mut self,
        column: u32,
        from: u32,
        to: u32,
    ) -> Result<TextPiece<'_>, Error<E::Error>> {
        self.read(column, |library, buffers| {
            library.texts(column, from, to, buffers)
        })?;
        // SAFETY: the library wrote whole texts there, which are UTF-8.
        let text = unsafe { std::str::from_utf8_unchecked(&self.buffers.bytes) };
        Ok(TextPiece {
            first: from,
            text,
            offsets: &self.buffers.offsets,
            valid: &self.buffers.valid,
            alive: &self.buffers.alive,
        })
    }

    // Reads from a column to the buffers; if it had to fetch, it prefetches the proposals.
    fn read(
        &mut self,
        column: u32,
        mut call: impl FnMut(&mut Library, &mut Buffers) -> Coded<()>,
    ) -> Result<(), Error<E::Error>> {
        let fetches = self.stats.fetches;
        let mut buffers = std::mem::take(&mut self.buffers);
        let read = self.persist(Given::Nothing, |library| call(library, &mut buffers));
        self.buffers = buffers;
        read?;
        if self.policy == Policy::Prefetch && self.stats.fetches > fetches {
            self.prefetch(column);
        }
        Ok(())
    }
}
