//! Scans row groups into aggregates, or builds them from far copies.

use super::copies::Copy;
use super::{Failure, Given, Table};
use crate::library::Code;
use crate::spec::Aggregate;
use crate::sys::{FC_ABSENT, FC_STALE_JOB};
use crate::{Engine, Error, Refusal};

impl<E: Engine> Table<E> {
    /// Scans a row group into an aggregate.
    ///
    /// ```
    /// # use fullercoral::{Limits, Memory, Schema, Table, row, totals};
    /// let mut table = Table::open(Schema::new().int("price"), Limits::new(), Memory::new())?;
    /// table.insert(row![5])?;
    /// let total = table.watch(totals("price"))?;
    /// table.scan(total, 0)?;
    /// # Ok::<(), Box<dyn std::error::Error>>(())
    /// ```
    ///
    /// # Errors
    /// - `NoAggregate`, `NoGroup`: there is no such aggregate or row group.
    /// - `StaleJob`: the row group is not pending.
    /// - `Absent`: by [`Policy::Manual`](crate::Policy::Manual), an object that it needs is away.
    /// - `RegionFull`: by an automatic policy, an object has to be fetched, and pins leave no space for it.
    /// - `NoMemory`.
    pub fn scan<A: Aggregate>(&mut self, aggregate: A, group: u32) -> Result<(), Error<E::Error>> {
        let number = self.number_of(aggregate.id())?;
        self.persist(Given::Group(group), |library| library.scan(number, group))?;
        self.stats.scans += 1;
        Ok(())
    }

    /// Builds a row group into an aggregate from the far copies of its columns, without fetching them.
    ///
    /// ```
    /// # use fullercoral::{Limits, Memory, Schema, Table, row, totals};
    /// let mut table = Table::open(Schema::new().int("price"), Limits::new(), Memory::new())?;
    /// table.insert(row![5])?;
    /// table.evict("price", 0)?;
    /// let total = table.watch(totals("price"))?;
    /// table.build(total, 0)?;
    /// assert_eq!(table.ask(total)?.next().unwrap().sum, 5);
    /// assert!(!table.is_local("price", 0)?);
    /// # Ok::<(), Box<dyn std::error::Error>>(())
    /// ```
    ///
    /// # Errors
    /// - `NoAggregate`, `NoGroup`: there is no such aggregate or row group.
    /// - `StaleJob`: the row group is not pending, or a column that the aggregate needs has no current far
    ///   copy.
    /// - `FarFault`, or the engine's error: a copy could not be read.
    /// - `NoMemory`.
    pub fn build<A: Aggregate>(&mut self, aggregate: A, group: u32) -> Result<(), Error<E::Error>> {
        let number = self.number_of(aggregate.id())?;
        let built = self.build_from_copies(number, group);
        self.outcome_of(Given::Group(group), built)
    }

    // Builds all pending row groups into an aggregate, each by a scan or from copies.
    pub(super) fn build_pending(&mut self, number: u32) -> Result<(), Error<E::Error>> {
        loop {
            let pending = self.library.pending(number);
            let (left, group) = self.outcome(pending)?;
            if left == 0 {
                return Ok(());
            }
            match self.library.scan(number, group) {
                Ok(()) => self.stats.scans += 1,
                Err(Code(FC_ABSENT)) => self.build_absent(number, group)?,
                Err(code) => return Err(self.refused(code, Given::Nothing)),
            }
        }
    }

    // Builds a row group with an object that is away: from copies, or by a scan if an object was written
    // since its copy was put.
    fn build_absent(&mut self, number: u32, group: u32) -> Result<(), Error<E::Error>> {
        match self.build_from_copies(number, group) {
            Err(Failure::Code(Code(FC_STALE_JOB))) => {
                self.persist(Given::Nothing, |library| library.scan(number, group))?;
                self.stats.scans += 1;
                Ok(())
            }
            built => self.outcome(built),
        }
    }

    fn build_from_copies(&mut self, number: u32, group: u32) -> Result<(), Failure<E::Error>> {
        self.give_up_abandoned();
        let job = self.library.begin_offload(number, group)?;
        self.work(job, |table| table.end_build(job, number, group))
    }

    fn end_build(&mut self, job: u64, number: u32, group: u32) -> Result<(), Failure<E::Error>> {
        let mut index = 0;
        while let Some(content) = self.library.wanted(job, index)? {
            let (column, copy) = self.copy_for(number, group, content)?;
            self.get_and_deliver(job, content, (column, group), copy)?;
            index += 1;
        }
        self.library.carry(job)?;
        self.library.merge(job)?;
        self.stats.builds += 1;
        Ok(())
    }

    // The copy with this library number among the columns that an aggregate needs, and its column.
    pub(super) fn copy_for(
        &mut self,
        number: u32,
        group: u32,
        content: u64,
    ) -> Result<(u32, Copy), Refusal> {
        for column in self.columns_of(number) {
            let object = self.library.object(column, group);
            if object.is_ok_and(|object| object.has_copy && object.copy == content) {
                let copy = self.copies.get(column, group).ok_or(Refusal::StaleJob)?;
                return Ok((column, copy));
            }
        }
        Err(Refusal::StaleJob)
    }

    pub(super) fn columns_of(&self, number: u32) -> Vec<u32> {
        let Some(Some(watched)) = self.watched.get(number as usize) else {
            return Vec::new();
        };
        let spec = &watched.spec;
        let tests = spec.tests.iter().map(|(column, _, _)| *column);
        [spec.value]
            .into_iter()
            .chain(spec.key)
            .chain(tests)
            .collect()
    }
}
