//! Renews the content numbers.

use super::Table;
use crate::{Engine, Error, Refusal};

impl<E: Engine> Table<E> {
    /// Renews the content numbers, and frees the notes of the old ones: some 56 bytes for each content
    /// ever put. It reads all contents that are away, and holds them in memory meanwhile. The engine's
    /// contents stay unchanged. Local objects need a put again at their next eviction.
    ///
    /// The table does so by itself when the numbers of [`Limits::contents`](crate::Limits::contents) are
    /// used up, if the contents that are away fit half of the local memory.
    ///
    /// ```
    /// # use fullercoral::{Limits, Memory, Schema, Table, row};
    /// let mut table = Table::open(Schema::new().int("price"), Limits::new(), Memory::new())?;
    /// table.insert(row![5])?;
    /// table.evict("price", 0)?;
    /// table.migrate()?;
    /// table.fetch("price", 0)?;
    /// # Ok::<(), Box<dyn std::error::Error>>(())
    /// ```
    ///
    /// # Errors
    /// Nothing changes then.
    /// - `FarFault`, or the engine's error: a content that is away could not be read.
    /// - `FarFull`: there are fewer numbers than objects that are away.
    /// - `NoMemory`.
    pub fn migrate(&mut self) -> Result<(), Error<E::Error>> {
        for (column, group, _) in self.away() {
            self.deliver_copy_of(column, group)?;
        }
        let migrated = self.library.migrate(self.capacity);
        self.outcome(migrated)?;
        self.stats.migrations += 1;
        self.forget_local_copies();
        Ok(())
    }

    /// Migrates when the numbers are used up. Refuses with `FarFull` if that would take more than half of
    /// the local memory, or free no number.
    pub(super) fn renew(&mut self) -> Result<(), Error<E::Error>> {
        let away = self.away();
        let bytes: u64 = away.iter().map(|(_, _, len)| u64::from(*len)).sum();
        if bytes > self.local_bytes() / 2 || away.len() as u64 >= self.capacity {
            return Err(Refusal::FarFull.into());
        }
        self.migrate()
    }

    fn local_bytes(&self) -> u64 {
        let of = |segments: u32, size: u32| u64::from(segments) * u64::from(size);
        let limits = &self.limits;
        16 * of(limits.int_segments, limits.int_size) + of(limits.text_segments, limits.text_size)
    }

    // The objects that are away, and the lengths of their contents.
    fn away(&mut self) -> Vec<(u32, u32, u32)> {
        let mut away = Vec::new();
        for (column, group, copy) in self.copies.all() {
            if self
                .library
                .object(column, group)
                .is_ok_and(|object| !object.local)
            {
                away.push((column, group, copy.len));
            }
        }
        away
    }

    fn deliver_copy_of(&mut self, column: u32, group: u32) -> Result<(), Error<E::Error>> {
        let Some(copy) = self.copies.get(column, group) else {
            return Err(self.far_fault(column, group).into());
        };
        self.content.clear();
        if let Err(error) = self.engine.get(copy.number, &mut self.content) {
            self.stats.engine_errors += 1;
            return Err(Error::Engine(error));
        }
        self.stats.gets += 1;
        self.stats.bytes_got += self.content.len() as u64;
        let delivered = self.library.deliver_copy(column, group, &self.content);
        let delivered = self.delivered(delivered, (column, group));
        self.outcome(delivered)
    }

    // Forgets the copies of local objects, which are useless after a migration.
    fn forget_local_copies(&mut self) {
        for (column, group, copy) in self.copies.all() {
            if self
                .library
                .object(column, group)
                .is_ok_and(|object| object.local)
            {
                self.copies.remove(column, group);
                self.engine.forget(copy.number);
            }
        }
    }
}
