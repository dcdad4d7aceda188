//! Repeats calls after moving what they need.

use super::{Given, Table};
use crate::library::{Code, Coded, Library};
use crate::sys::{FC_ABSENT, FC_REGION_FULL};
use crate::{Engine, Error, Policy};

impl<E: Engine> Table<E> {
    /// Makes a call, and moves what it needs if the policy says so.
    #[inline]
    pub(super) fn persist<T>(
        &mut self,
        given: Given<'_>,
        mut call: impl FnMut(&mut Library) -> Coded<T>,
    ) -> Result<T, Error<E::Error>> {
        match call(&mut self.library) {
            Ok(value) => Ok(value),
            Err(code) => self.persist_after(code, given, call),
        }
    }

    /// The same for a call that lends. By rule 3 of the header, it must be the last one made.
    #[inline]
    pub(super) fn persist_lending<T>(
        &mut self,
        given: Given<'_>,
        mut call: impl FnMut(&mut Library) -> Coded<T>,
    ) -> Result<T, Error<E::Error>> {
        match call(&mut self.library) {
            Ok(value) => Ok(value),
            Err(code) => {
                self.persist_after(code, given, |library| call(library).map(drop))?;
                call(&mut self.library).map_err(|code| self.refused(code, given))
            }
        }
    }

    #[cold]
    fn persist_after<T>(
        &mut self,
        code: Code,
        given: Given<'_>,
        call: impl FnMut(&mut Library) -> Coded<T>,
    ) -> Result<T, Error<E::Error>> {
        let table = self;
        let held = Vec::new();
        Trial { table, held }.try_again(code, given, call)
    }
}

/// The tries of a call, with the objects that they pin, so that fetching one does not evict another. Each
/// try pins one more object or evicts one of the others, so the tries end. Dropping it removes the pins,
/// also if the engine panics.
struct Trial<'t, E: Engine> {
    table: &'t mut Table<E>,
    held: Vec<(u32, u32)>,
}

impl<E: Engine> Trial<'_, E> {
    fn try_again<T>(
        mut self,
        mut code: Code,
        given: Given<'_>,
        mut call: impl FnMut(&mut Library) -> Coded<T>,
    ) -> Result<T, Error<E::Error>> {
        loop {
            self.remedy(code, given)?;
            match call(&mut self.table.library) {
                Ok(value) => return Ok(value),
                Err(next) => code = next,
            }
        }
    }

    // Removes the cause of a refusal, or returns it.
    fn remedy(&mut self, code: Code, given: Given<'_>) -> Result<(), Error<E::Error>> {
        let table = &mut *self.table;
        match code.0 {
            _ if table.policy == Policy::Manual => Err(table.refused(code, given)),
            FC_ABSENT => {
                let details = table.library.last_refusal();
                table.fetch_object(details.column, details.group)?;
                let pinned = table.library.pin(details.column, details.group);
                table.outcome(pinned)?;
                self.held.push((details.column, details.group));
                Ok(())
            }
            FC_REGION_FULL => table.make_space(),
            _ => Err(table.refused(code, given)),
        }
    }
}

impl<E: Engine> Drop for Trial<'_, E> {
    fn drop(&mut self) {
        for (column, group) in &self.held {
            // It was pinned here.
            let _ = self.table.library.unpin(*column, *group);
        }
    }
}
