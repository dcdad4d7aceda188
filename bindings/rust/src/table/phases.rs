//! Moves objects in phases, with any other calls between.

use super::copies::Copy;
use super::jobs::{Incoming, Job, Outgoing, Stored, Target, Wanted};
use super::{Given, Table};
use crate::library::Code;
use crate::spec::Aggregate;
use crate::sys::FC_FAR_FULL;
use crate::{ColumnRef, Engine, Error, Refusal};

impl<E: Engine> Table<E> {
    /// Begins to evict an object. [`Outgoing::put`] then calls the engine, without the table, and
    /// [`commit`](Table::commit) takes its result and ends the eviction.
    ///
    /// ```
    /// # use fullercoral::{Limits, Memory, Schema, Table, row};
    /// let mut table = Table::open(Schema::new().int("price"), Limits::new(), Memory::new())?;
    /// table.insert(row![5])?;
    /// let outgoing = table.begin_evict("price", 0)?;
    /// let stored = outgoing.put(table.engine_mut())?;
    /// table.commit(stored)?;
    /// # Ok::<(), Box<dyn std::error::Error>>(())
    /// ```
    ///
    /// # Errors
    /// - `NoColumn`, `NoGroup`: there is no such object.
    /// - `Absent`: it is away already.
    /// - `FarFull`: the content numbers are used up.
    /// - `EditsUsedUp`, `NoMemory`.
    pub fn begin_evict(
        &mut self,
        column: impl ColumnRef,
        group: u32,
    ) -> Result<Outgoing, Error<E::Error>> {
        let column = column.index_in(&self.schema)?;
        self.give_up_abandoned();
        match self.outgoing_of(column, group) {
            Err(Code(FC_FAR_FULL)) => self.renew()?,
            begun => return self.outcome_of(Given::Group(group), begun),
        }
        let begun = self.outgoing_of(column, group);
        self.outcome_of(Given::Group(group), begun)
    }

    /// Begins to evict the coldest object without a pin. Returns `None` if there is no such object.
    ///
    /// ```
    /// # use fullercoral::{Limits, Memory, Schema, Table, row};
    /// let mut table = Table::open(Schema::new().int("price"), Limits::new(), Memory::new())?;
    /// table.insert(row![5])?;
    /// if let Some(outgoing) = table.begin_evict_coldest()? {
    ///     let stored = outgoing.put(table.engine_mut())?;
    ///     table.commit(stored)?;
    /// }
    /// assert!(table.begin_evict_coldest()?.is_none());
    /// # Ok::<(), Box<dyn std::error::Error>>(())
    /// ```
    ///
    /// # Errors
    /// `FarFull`, `EditsUsedUp`, `NoMemory`.
    pub fn begin_evict_coldest(&mut self) -> Result<Option<Outgoing>, Error<E::Error>> {
        self.give_up_abandoned();
        let job = self.library.begin_coldest();
        let Some(job) = self.outcome(job)? else {
            return Ok(None);
        };
        let about = self.library.job(job);
        self.library.give_up(job);
        let about = self.outcome(about)?;
        self.begin_evict(about.column as usize, about.group)
            .map(Some)
    }

    fn outgoing_of(&mut self, column: u32, group: u32) -> Result<Outgoing, Code> {
        let number = self.library.begin_evict(column, group)?;
        // From here on a failure gives the job up.
        let mut job = Job::new(number, column, group, &self.abandoned);
        self.library.carry(number)?;
        let bytes = self.library.outgoing(number)?.map(<[u8]>::to_vec);
        let content = bytes.map(|bytes| (self.copies.draw(), bytes));
        job.put = content.as_ref().map(|(number, _)| *number);
        Ok(Outgoing { job, content })
    }

    /// Ends an eviction whose bytes were put: the object is away then.
    ///
    /// ```
    /// # use fullercoral::{Limits, Memory, Refusal, Schema, Table, row};
    /// let mut table = Table::open(Schema::new().int("price"), Limits::new(), Memory::new())?;
    /// table.insert(row![5])?;
    /// let outgoing = table.begin_evict("price", 0)?;
    /// let stored = outgoing.put(table.engine_mut())?;
    /// table.set("price", 0, 6)?;
    /// let error = table.commit(stored).unwrap_err();
    /// assert_eq!(error.refusal(), Some(&Refusal::StaleJob));
    /// # Ok::<(), Box<dyn std::error::Error>>(())
    /// ```
    ///
    /// # Errors
    /// The object stays local then.
    /// - `StaleJob`: the object was written or moved since the eviction began, or belongs to another table.
    /// - `Pinned`: it has a pin.
    pub fn commit(&mut self, stored: Stored) -> Result<(), Error<E::Error>> {
        self.check_job(&stored.job)?;
        let Stored { mut job, copy } = stored;
        let committed = self.library.commit(job.number);
        self.outcome(committed)?;
        job.end();
        if let Some(copy) = copy {
            self.stats.puts += 1;
            self.stats.bytes_put += u64::from(copy.len);
        }
        self.committed(job.column, job.group, copy);
        Ok(())
    }

    /// Begins to fetch an object. [`Incoming::get`] then calls the engine, without the table, and
    /// [`install`](Table::install) ends the fetch.
    ///
    /// ```
    /// # use fullercoral::{Limits, Memory, Schema, Table, row};
    /// let mut table = Table::open(Schema::new().int("price"), Limits::new(), Memory::new())?;
    /// table.insert(row![5])?;
    /// table.evict("price", 0)?;
    /// let mut incoming = table.begin_fetch("price", 0)?;
    /// incoming.get(table.engine_mut())?;
    /// table.install(incoming)?;
    /// # Ok::<(), Box<dyn std::error::Error>>(())
    /// ```
    ///
    /// # Errors
    /// - `NoColumn`, `NoGroup`: there is no such object.
    /// - `IsLocal`: it is local.
    /// - `EditsUsedUp`, `NoMemory`.
    pub fn begin_fetch(
        &mut self,
        column: impl ColumnRef,
        group: u32,
    ) -> Result<Incoming, Error<E::Error>> {
        let column = column.index_in(&self.schema)?;
        self.give_up_abandoned();
        let number = self.begin_fetch_of(column, group)?;
        let job = Job::new(number, column, group, &self.abandoned);
        let copy = self.copies.get(column, group).ok_or(Refusal::StaleJob)?;
        let target = Target::Object { column, group };
        self.incoming(job, target, |_, _| Ok((column, copy)))
    }

    /// Begins to build a row group into an aggregate from the far copies of its columns, without fetching
    /// them. [`Incoming::get`] then calls the engine, without the table, and
    /// [`install`](Table::install) ends the build.
    ///
    /// ```
    /// # use fullercoral::{Limits, Memory, Schema, Table, row, totals};
    /// let mut table = Table::open(Schema::new().int("price"), Limits::new(), Memory::new())?;
    /// table.insert(row![5])?;
    /// table.evict("price", 0)?;
    /// let total = table.watch(totals("price"))?;
    /// let mut incoming = table.begin_build(total, 0)?;
    /// incoming.get(table.engine_mut())?;
    /// table.install(incoming)?;
    /// assert_eq!(table.pending(total)?, 0);
    /// # Ok::<(), Box<dyn std::error::Error>>(())
    /// ```
    ///
    /// # Errors
    /// - `NoAggregate`, `NoGroup`: there is no such aggregate or row group.
    /// - `StaleJob`: the row group is not pending, or a column that the aggregate needs has no current far
    ///   copy.
    /// - `EditsUsedUp`, `NoMemory`.
    pub fn begin_build<A: Aggregate>(
        &mut self,
        aggregate: A,
        group: u32,
    ) -> Result<Incoming, Error<E::Error>> {
        let aggregate = self.number_of(aggregate.id())?;
        self.give_up_abandoned();
        let number = self.library.begin_offload(aggregate, group);
        let number = self.outcome_of(Given::Group(group), number)?;
        let column = self.columns_of(aggregate).first().copied().unwrap_or(0);
        let job = Job::new(number, column, group, &self.abandoned);
        self.incoming(job, Target::Aggregate, |table, content| {
            table.copy_for(aggregate, group, content)
        })
    }

    // Lists the contents that a job needs.
    fn incoming(
        &mut self,
        job: Job,
        target: Target,
        mut copy: impl FnMut(&mut Self, u64) -> Result<(u32, Copy), Refusal>,
    ) -> Result<Incoming, Error<E::Error>> {
        let mut wanted = Vec::new();
        loop {
            let next = self.library.wanted(job.number, wanted.len());
            let Some(number) = self.outcome(next)? else {
                return Ok(Incoming {
                    job,
                    wanted,
                    target,
                });
            };
            let (column, copy) = copy(self, number)?;
            wanted.push(Wanted {
                number,
                column,
                copy,
                bytes: Vec::new(),
            });
        }
    }

    /// Ends a fetch or a build that has its bytes: the object is local then, or the row group built.
    /// An automatic policy evicts other objects if a fetched one has no space.
    ///
    /// ```
    /// # use fullercoral::{Error, Limits, Memory, Refusal, Schema, Table, row};
    /// let mut table = Table::open(Schema::new().int("price"), Limits::new(), Memory::new())?;
    /// table.insert(row![5])?;
    /// table.evict("price", 0)?;
    /// let mut incoming = table.begin_fetch("price", 0)?;
    /// for (_, bytes) in incoming.contents() {
    ///     bytes.extend(*b"other bytes");
    /// }
    /// let Err(Error::Refused(refusal)) = table.install(incoming) else { panic!() };
    /// assert_eq!(refusal, Refusal::FarFault { column: "price".into(), group: 0 });
    /// # Ok::<(), Box<dyn std::error::Error>>(())
    /// ```
    ///
    /// # Errors
    /// - `FarFault`: the bytes differ from those that were put.
    /// - `StaleJob`: the job's data changed since it began, or it belongs to another table.
    /// - `NoAggregate`: the aggregate was forgotten.
    /// - `RegionFull`: there is no local memory for the object.
    /// - `NoMemory`.
    pub fn install(&mut self, incoming: Incoming) -> Result<(), Error<E::Error>> {
        self.check_job(&incoming.job)?;
        let Incoming {
            mut job,
            wanted,
            target,
        } = incoming;
        for content in &wanted {
            self.stats.gets += 1;
            self.stats.bytes_got += content.bytes.len() as u64;
            let (number, bytes) = (content.number, &content.bytes);
            let delivered = self.library.deliver(job.number, number, bytes);
            let delivered = self.delivered(delivered, (content.column, job.group));
            self.outcome(delivered)?;
        }
        let carried = self.library.carry(job.number);
        let carried = self.delivered(carried, (job.column, job.group));
        self.outcome(carried)?;
        self.end_incoming(&job, target)?;
        job.end();
        Ok(())
    }

    // Ends a carried fetch or build.
    fn end_incoming(&mut self, job: &Job, target: Target) -> Result<(), Error<E::Error>> {
        match target {
            Target::Object { column, group } => {
                let installed = self.install_job(job.number);
                self.outcome(installed)?;
                self.fetched(column, group);
            }
            Target::Aggregate => {
                let merged = self.library.merge(job.number);
                self.outcome(merged)?;
                self.stats.builds += 1;
            }
        }
        Ok(())
    }
}
