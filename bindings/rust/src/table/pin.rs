use std::ops::{Deref, DerefMut};

use super::{Given, Table};
use crate::{ColumnRef, Engine, Error};

impl<E: Engine> Table<E> {
    /// Pins an object: it stays local as long as the guard lives, unless [`unpin`](Table::unpin) is called
    /// through the guard. An automatic policy first fetches an object that is away.
    ///
    /// ```
    /// # use fullercoral::{Limits, Memory, Refusal, Schema, Table, row};
    /// let mut table = Table::open(Schema::new().int("price"), Limits::new(), Memory::new())?;
    /// table.insert(row![5])?;
    /// let mut pinned = table.pin("price", 0)?;
    /// let error = pinned.evict("price", 0).unwrap_err();
    /// assert_eq!(error.refusal(), Some(&Refusal::Pinned));
    /// drop(pinned);
    /// table.evict("price", 0)?;
    /// # Ok::<(), Box<dyn std::error::Error>>(())
    /// ```
    ///
    /// # Errors
    /// - `NoColumn`, `NoGroup`: there is no such object.
    /// - `Absent`: by [`Policy::Manual`](crate::Policy::Manual), it is away.
    /// - `RegionFull`: by an automatic policy, it has to be fetched, and pins leave no space for it.
    /// - `EditsUsedUp`: it has 65,535 pins.
    pub fn pin(
        &mut self,
        column: impl ColumnRef,
        group: u32,
    ) -> Result<Pinned<'_, E>, Error<E::Error>> {
        let column = column.index_in(&self.schema)?;
        self.persist(Given::Group(group), |library| library.pin(column, group))?;
        Ok(Pinned {
            table: self,
            column,
            group,
        })
    }

    /// Removes a pin that [`Pinned::keep`] kept.
    ///
    /// ```
    /// # use fullercoral::{Limits, Memory, Schema, Table, row};
    /// let mut table = Table::open(Schema::new().int("price"), Limits::new(), Memory::new())?;
    /// table.insert(row![5])?;
    /// table.pin("price", 0)?.keep();
    /// assert!(table.evict("price", 0).is_err());
    /// table.unpin("price", 0)?;
    /// table.evict("price", 0)?;
    /// # Ok::<(), Box<dyn std::error::Error>>(())
    /// ```
    ///
    /// # Errors
    /// `NoColumn`, `NoGroup`, and `NotPinned` if it has no pin.
    pub fn unpin(&mut self, column: impl ColumnRef, group: u32) -> Result<(), Error<E::Error>> {
        let column = column.index_in(&self.schema)?;
        let unpinned = self.library.unpin(column, group);
        self.outcome_of(Given::Group(group), unpinned)
    }
}

/// A guard of a pinned object. It dereferences to the table; dropping it removes the pin.
///
/// An object counts its pins, but does not know whose they are. So calls through the guard may remove the
/// pin: [`unpin`](Table::unpin) of the same object removes one, and then the guard's drop removes another,
/// if there is one, even a [kept](Pinned::keep) one. If you `std::mem::swap` the table with another, the
/// pin stays with its table, and the guard's drop unpins the other.
///
/// ```
/// # use fullercoral::{Limits, Memory, Schema, Table, row};
/// let mut table = Table::open(Schema::new().int("price"), Limits::new(), Memory::new())?;
/// table.insert(row![5])?;
/// let mut pinned = table.pin("price", 0)?;
/// pinned.set("price", 0, 6)?;
/// # Ok::<(), Box<dyn std::error::Error>>(())
/// ```
#[derive(Debug)]
#[must_use]
pub struct Pinned<'t, E: Engine> {
    table: &'t mut Table<E>,
    column: u32,
    group: u32,
}

impl<E: Engine> Pinned<'_, E> {
    /// Keeps the pin until [`Table::unpin`] removes it.
    ///
    /// ```
    /// # use fullercoral::{Limits, Memory, Schema, Table, row};
    /// let mut table = Table::open(Schema::new().int("price"), Limits::new(), Memory::new())?;
    /// table.insert(row![5])?;
    /// table.pin("price", 0)?.keep();
    /// # Ok::<(), Box<dyn std::error::Error>>(())
    /// ```
    pub fn keep(self) {
        std::mem::forget(self);
    }
}

impl<E: Engine> Drop for Pinned<'_, E> {
    fn drop(&mut self) {
        // A call of `unpin` may have removed the pin: then there is nothing to do.
        let _ = self.table.library.unpin(self.column, self.group);
    }
}

impl<E: Engine> Deref for Pinned<'_, E> {
    type Target = Table<E>;

    fn deref(&self) -> &Table<E> {
        self.table
    }
}

impl<E: Engine> DerefMut for Pinned<'_, E> {
    fn deref_mut(&mut self) -> &mut Table<E> {
        self.table
    }
}
