use super::Table;
use crate::{Engine, Error};

/// The numbers of a range of places, piece by piece. [`Table::ints`] returns it.
///
/// It is not an `Iterator`, since the next piece reuses the buffer of the last one.
///
/// ```
/// use fullercoral::{Limits, Memory, Schema, Table, row};
///
/// let limits = Limits::new().group(4);
/// let mut table = Table::open(Schema::new().int("price"), limits, Memory::new())?;
/// table.extend((0..10).map(|price| row![price]))?;
/// let mut prices = table.ints("price", 2..9)?;
/// let mut lengths = Vec::new();
/// while let Some(piece) = prices.next_piece()? {
///     lengths.push(piece.values.len());
/// }
/// assert_eq!(lengths, [2, 4, 1]);
/// # Ok::<(), Box<dyn std::error::Error>>(())
/// ```
#[derive(Debug)]
#[must_use]
pub struct Ints<'t, E: Engine> {
    part: Part<'t, E>,
}

/// The texts of a range of places, piece by piece. [`Table::texts`] returns it.
///
/// It is not an `Iterator`, since the next piece reuses the buffer of the last one.
///
/// ```
/// use fullercoral::{Limits, Memory, Schema, Table, row};
///
/// let mut table = Table::open(Schema::new().text("sku"), Limits::new(), Memory::new())?;
/// table.extend([row!["rye"], row!["bread"]])?;
/// let mut skus = table.texts("sku", ..)?;
/// while let Some(piece) = skus.next_piece()? {
///     assert_eq!(piece.get(1), Some("bread"));
/// }
/// # Ok::<(), Box<dyn std::error::Error>>(())
/// ```
#[derive(Debug)]
#[must_use]
pub struct Texts<'t, E: Engine> {
    part: Part<'t, E>,
}

/// The part of a range that is still to be read.
#[derive(Debug)]
struct Part<'t, E: Engine> {
    table: &'t mut Table<E>,
    column: u32,
    from: u32,
    to: u32,
}

impl<E: Engine> Part<'_, E> {
    // The range of the next piece.
    fn next(&self) -> Option<(u32, u32)> {
        let end = self.to.min(self.table.group_end(self.from));
        (self.from < end).then_some((self.from, end))
    }
}

impl<'t, E: Engine> Ints<'t, E> {
    pub(super) fn new(table: &'t mut Table<E>, column: u32, from: u32, to: u32) -> Ints<'t, E> {
        let part = Part {
            table,
            column,
            from,
            to,
        };
        Ints { part }
    }

    /// Reads the next piece. After an error it may be called again, for the same piece.
    ///
    /// ```
    /// # use fullercoral::{Limits, Memory, Schema, Table, row};
    /// let mut table = Table::open(Schema::new().int("price"), Limits::new(), Memory::new())?;
    /// table.insert(row![5])?;
    /// let mut prices = table.ints("price", ..)?;
    /// assert_eq!(prices.next_piece()?.unwrap().values, [5]);
    /// assert!(prices.next_piece()?.is_none());
    /// # Ok::<(), Box<dyn std::error::Error>>(())
    /// ```
    ///
    /// # Errors
    /// - `Absent`: by [`Policy::Manual`](crate::Policy::Manual), the object is away.
    /// - `RegionFull`: there is no local memory to fetch it.
    /// - `FarFault`, or the engine's error: it could not be fetched.
    pub fn next_piece(&mut self) -> Result<Option<IntPiece<'_>>, Error<E::Error>> {
        let Some((from, to)) = self.part.next() else {
            return Ok(None);
        };
        let piece = self.part.table.int_piece(self.part.column, from, to)?;
        self.part.from = to;
        Ok(Some(piece))
    }

    /// Calls a function with the place and the number of each live row.
    ///
    /// ```
    /// # use fullercoral::{Limits, Memory, Schema, Table, row};
    /// # let mut table = Table::open(Schema::new().int("price"), Limits::new(), Memory::new())?;
    /// table.extend([row![5], row![None::<i64>], row![7]])?;
    /// let mut prices = Vec::new();
    /// table.ints("price", ..)?.for_each(|_, price| prices.extend(price))?;
    /// assert_eq!(prices, [5, 7]);
    /// # Ok::<(), Box<dyn std::error::Error>>(())
    /// ```
    ///
    /// # Errors
    /// The errors of [`next_piece`](Ints::next_piece).
    pub fn for_each(
        mut self,
        mut each: impl FnMut(u32, Option<i64>),
    ) -> Result<(), Error<E::Error>> {
        while let Some(piece) = self.next_piece()? {
            piece.rows().for_each(|(place, number)| each(place, number));
        }
        Ok(())
    }
}

impl<'t, E: Engine> Texts<'t, E> {
    pub(super) fn new(table: &'t mut Table<E>, column: u32, from: u32, to: u32) -> Texts<'t, E> {
        let part = Part {
            table,
            column,
            from,
            to,
        };
        Texts { part }
    }

    /// Reads the next piece. After an error it may be called again, for the same piece.
    ///
    /// ```
    /// # use fullercoral::{Limits, Memory, Schema, Table, row};
    /// let mut table = Table::open(Schema::new().text("sku"), Limits::new(), Memory::new())?;
    /// table.insert(row!["rye"])?;
    /// let mut skus = table.texts("sku", ..)?;
    /// assert_eq!(skus.next_piece()?.unwrap().get(0), Some("rye"));
    /// assert!(skus.next_piece()?.is_none());
    /// # Ok::<(), Box<dyn std::error::Error>>(())
    /// ```
    ///
    /// # Errors
    /// - `Absent`: by [`Policy::Manual`](crate::Policy::Manual), the object is away.
    /// - `RegionFull`: there is no local memory to fetch it.
    /// - `FarFault`, or the engine's error: it could not be fetched.
    pub fn next_piece(&mut self) -> Result<Option<TextPiece<'_>>, Error<E::Error>> {
        let Some((from, to)) = self.part.next() else {
            return Ok(None);
        };
        let piece = self.part.table.text_piece(self.part.column, from, to)?;
        self.part.from = to;
        Ok(Some(piece))
    }

    /// Calls a function with the place and the text of each live row.
    ///
    /// ```
    /// # use fullercoral::{Limits, Memory, Schema, Table, row};
    /// # let mut table = Table::open(Schema::new().text("sku"), Limits::new(), Memory::new())?;
    /// table.extend([row!["rye"], row![None::<&str>], row!["bread"]])?;
    /// let mut skus = Vec::new();
    /// table.texts("sku", ..)?.for_each(|_, sku| skus.extend(sku.map(str::to_owned)))?;
    /// assert_eq!(skus, ["rye", "bread"]);
    /// # Ok::<(), Box<dyn std::error::Error>>(())
    /// ```
    ///
    /// # Errors
    /// The errors of [`next_piece`](Texts::next_piece).
    pub fn for_each(
        mut self,
        mut each: impl FnMut(u32, Option<&str>),
    ) -> Result<(), Error<E::Error>> {
        while let Some(piece) = self.next_piece()? {
            piece.rows().for_each(|(place, text)| each(place, text));
        }
        Ok(())
    }
}

/// The numbers of adjacent places, with their flags.
///
/// ```
/// use fullercoral::{Limits, Memory, Schema, Table, row};
///
/// let mut table = Table::open(Schema::new().int("price"), Limits::new(), Memory::new())?;
/// table.extend([row![5], row![None::<i64>], row![7]])?;
/// table.remove(2)?;
/// let mut prices = table.ints("price", ..)?;
/// let piece = prices.next_piece()?.unwrap();
/// assert_eq!(piece.values, [5, 0, 7]);
/// assert_eq!(piece.valid, [true, false, true]);
/// assert_eq!(piece.alive, [true, true, false]);
/// # Ok::<(), Box<dyn std::error::Error>>(())
/// ```
#[derive(Debug, Clone, Copy)]
pub struct IntPiece<'t> {
    /// The first place.
    pub first: u32,
    /// The numbers, with 0 for missing ones.
    pub values: &'t [i64],
    /// Whether each place has a number.
    pub valid: &'t [bool],
    /// Whether each row is alive.
    pub alive: &'t [bool],
}

impl<'t> IntPiece<'t> {
    /// The live rows: their places and numbers.
    ///
    /// ```
    /// # use fullercoral::{Limits, Memory, Schema, Table, row};
    /// let mut table = Table::open(Schema::new().int("price"), Limits::new(), Memory::new())?;
    /// table.extend([row![5], row![None::<i64>], row![7]])?;
    /// table.remove(0)?;
    /// let mut prices = table.ints("price", ..)?;
    /// let piece = prices.next_piece()?.unwrap();
    /// assert_eq!(piece.rows().collect::<Vec<_>>(), [(1, None), (2, Some(7))]);
    /// # Ok::<(), Box<dyn std::error::Error>>(())
    /// ```
    pub fn rows(&self) -> impl Iterator<Item = (u32, Option<i64>)> + use<'t> {
        let cells = self.values.iter().zip(self.valid);
        let cells = cells.map(|(value, valid)| valid.then_some(*value));
        let rows = (self.first..).zip(cells).zip(self.alive);
        rows.filter_map(|(row, alive)| alive.then_some(row))
    }
}

/// The texts of adjacent places, with their flags.
///
/// ```
/// use fullercoral::{Limits, Memory, Schema, Table, row};
///
/// let mut table = Table::open(Schema::new().text("sku"), Limits::new(), Memory::new())?;
/// table.extend([row!["rye"], row![None::<&str>]])?;
/// let mut skus = table.texts("sku", ..)?;
/// let piece = skus.next_piece()?.unwrap();
/// assert_eq!((piece.len(), piece.get(0), piece.get(1)), (2, Some("rye"), None));
/// # Ok::<(), Box<dyn std::error::Error>>(())
/// ```
#[derive(Debug, Clone, Copy)]
pub struct TextPiece<'t> {
    /// The first place.
    pub first: u32,
    pub(super) text: &'t str,
    pub(super) offsets: &'t [u64],
    /// Whether each place has a text.
    pub valid: &'t [bool],
    /// Whether each row is alive.
    pub alive: &'t [bool],
}

impl<'t> TextPiece<'t> {
    /// The number of places.
    ///
    /// ```
    /// # use fullercoral::{Limits, Memory, Schema, Table, row};
    /// # let mut table = Table::open(Schema::new().text("sku"), Limits::new(), Memory::new())?;
    /// # table.insert(row!["rye"])?;
    /// assert_eq!(table.texts("sku", ..)?.next_piece()?.unwrap().len(), 1);
    /// # Ok::<(), Box<dyn std::error::Error>>(())
    /// ```
    #[must_use]
    pub fn len(&self) -> usize {
        self.valid.len()
    }

    /// Whether it has no places. A table returns no empty piece.
    ///
    /// ```
    /// # use fullercoral::{Limits, Memory, Schema, Table, row};
    /// # let mut table = Table::open(Schema::new().text("sku"), Limits::new(), Memory::new())?;
    /// # table.insert(row!["rye"])?;
    /// assert!(!table.texts("sku", ..)?.next_piece()?.unwrap().is_empty());
    /// # Ok::<(), Box<dyn std::error::Error>>(())
    /// ```
    #[must_use]
    pub fn is_empty(&self) -> bool {
        self.valid.is_empty()
    }

    /// The text at an index, counted from the piece's first place. `None` if it is missing, or there is no
    /// such place.
    ///
    /// ```
    /// # use fullercoral::{Limits, Memory, Schema, Table, row};
    /// # let mut table = Table::open(Schema::new().text("sku"), Limits::new(), Memory::new())?;
    /// # table.insert(row!["rye"])?;
    /// assert_eq!(table.texts("sku", ..)?.next_piece()?.unwrap().get(0), Some("rye"));
    /// # Ok::<(), Box<dyn std::error::Error>>(())
    /// ```
    #[must_use]
    pub fn get(&self, index: usize) -> Option<&'t str> {
        if !*self.valid.get(index)? {
            return None;
        }
        let (from, to) = (*self.offsets.get(index)?, *self.offsets.get(index + 1)?);
        self.text.get(from as usize..to as usize)
    }

    /// The live rows: their places and texts.
    ///
    /// ```
    /// # use fullercoral::{Limits, Memory, Schema, Table, row};
    /// # let mut table = Table::open(Schema::new().text("sku"), Limits::new(), Memory::new())?;
    /// table.extend([row!["rye"], row!["bread"]])?;
    /// table.remove(0)?;
    /// let mut skus = table.texts("sku", ..)?;
    /// let piece = skus.next_piece()?.unwrap();
    /// assert_eq!(piece.rows().collect::<Vec<_>>(), [(1, Some("bread"))]);
    /// # Ok::<(), Box<dyn std::error::Error>>(())
    /// ```
    pub fn rows(&self) -> impl Iterator<Item = (u32, Option<&'t str>)> + use<'t> {
        let piece = *self;
        let alive = (0..piece.len()).filter(move |index| piece.alive[*index]);
        alive.map(move |index| (piece.first + index as u32, piece.get(index)))
    }
}
