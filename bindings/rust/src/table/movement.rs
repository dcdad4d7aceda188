//! Evicts and fetches objects, each in one call.

use super::copies::Copy;
use super::{Failure, Given, Table};
use crate::library::{Code, Coded};
use crate::sys::{FC_FAR_FAULT, FC_FAR_FULL, FC_REGION_FULL, FC_STALE_JOB};
use crate::{ColumnRef, Engine, Error, Kind, Policy, Refusal};

impl<E: Engine> Table<E> {
    /// Evicts an object: its bytes go to the engine, and its local memory is freed.
    ///
    /// ```
    /// # use fullercoral::{Limits, Memory, Schema, Table, row};
    /// let mut table = Table::open(Schema::new().int("price"), Limits::new(), Memory::new())?;
    /// table.insert(row![5])?;
    /// table.evict("price", 0)?;
    /// assert_eq!(table.engine().len(), 1);
    /// # Ok::<(), Box<dyn std::error::Error>>(())
    /// ```
    ///
    /// # Errors
    /// - `NoColumn`, `NoGroup`: there is no such object.
    /// - `Absent`: it is away already.
    /// - `Pinned`: it has a pin.
    /// - `FarFull`: the content numbers are used up.
    /// - `EditsUsedUp`, `NoMemory`.
    /// - The engine's error. The object stays local.
    pub fn evict(&mut self, column: impl ColumnRef, group: u32) -> Result<(), Error<E::Error>> {
        let column = column.index_in(&self.schema)?;
        self.give_up_abandoned();
        match self.try_evict(column, group) {
            Err(Failure::Code(Code(FC_FAR_FULL))) => self.renew()?,
            evicted => return self.outcome_of(Given::Group(group), evicted),
        }
        let evicted = self.try_evict(column, group);
        self.outcome_of(Given::Group(group), evicted)
    }

    fn try_evict(&mut self, column: u32, group: u32) -> Result<(), Failure<E::Error>> {
        let job = self.library.begin_evict(column, group)?;
        self.work(job, |table| table.end_evict(job, column, group))
    }

    /// Evicts the coldest object without a pin, of the kind with less space. Returns its column and row
    /// group, or none if there is no such object.
    ///
    /// ```
    /// # use fullercoral::{Limits, Memory, Schema, Table, row};
    /// let mut table = Table::open(Schema::new().int("price"), Limits::new(), Memory::new())?;
    /// assert_eq!(table.evict_coldest()?, None);
    /// table.insert(row![5])?;
    /// assert_eq!(table.evict_coldest()?, Some((0, 0)));
    /// # Ok::<(), Box<dyn std::error::Error>>(())
    /// ```
    ///
    /// # Errors
    /// - `FarFull`: the content numbers are used up.
    /// - `EditsUsedUp`, `NoMemory`.
    /// - The engine's error. The object stays local.
    pub fn evict_coldest(&mut self) -> Result<Option<(usize, u32)>, Error<E::Error>> {
        self.give_up_abandoned();
        match self.try_evict_coldest() {
            Err(Failure::Code(Code(FC_FAR_FULL))) => self.renew()?,
            result => return self.outcome(result),
        }
        let evicted = self.try_evict_coldest();
        self.outcome(evicted)
    }

    fn try_evict_coldest(&mut self) -> Result<Option<(usize, u32)>, Failure<E::Error>> {
        let Some(job) = self.library.begin_coldest()? else {
            return Ok(None);
        };
        self.work(job, |table| {
            let about = table.library.job(job)?;
            table.end_evict(job, about.column, about.group)?;
            Ok(Some((about.column as usize, about.group)))
        })
    }

    // Carries and commits an eviction that was begun. The bytes go to the engine without a copy.
    fn end_evict(&mut self, job: u64, column: u32, group: u32) -> Result<(), Failure<E::Error>> {
        let put = self.carry_and_put(job)?;
        if let Err(code) = self.library.commit(job) {
            self.forget(put);
            return Err(code.into());
        }
        self.committed(column, group, put);
        Ok(())
    }

    // Returns the copy that was put, if the engine did not have it already.
    fn carry_and_put(&mut self, job: u64) -> Result<Option<Copy>, Failure<E::Error>> {
        self.library.carry(job)?;
        let Some(bytes) = self.library.outgoing(job)? else {
            return Ok(None);
        };
        let (number, len) = (self.copies.draw(), bytes.len() as u32);
        self.putting = Some(number);
        let put = self.engine.put(number, bytes);
        self.putting = None;
        if let Err(error) = put {
            self.engine_failed(job);
            // The engine may have kept it nevertheless.
            self.engine.forget(number);
            return Err(Error::Engine(error).into());
        }
        self.stats.puts += 1;
        self.stats.bytes_put += u64::from(len);
        Ok(Some(Copy { number, len }))
    }

    fn forget(&mut self, copy: Option<Copy>) {
        if let Some(copy) = copy {
            self.engine.forget(copy.number);
        }
    }

    // Records that an object is away, with a new copy or its previous one.
    pub(super) fn committed(&mut self, column: u32, group: u32, put: Option<Copy>) {
        let before = put.and_then(|copy| self.copies.replace(column, group, copy));
        let len = self.copies.get(column, group).map_or(0, |copy| copy.len);
        let kind = self.schema.kind_at(column as usize);
        self.live.evicted(kind, len);
        self.stats.evictions += 1;
        self.forget(before);
    }

    fn engine_failed(&mut self, job: u64) {
        self.stats.engine_errors += 1;
        self.library.fault(job);
    }

    /// Fetches an object. An automatic policy evicts others if there is no space.
    ///
    /// ```
    /// # use fullercoral::{Limits, Memory, Schema, Table, row};
    /// let mut table = Table::open(Schema::new().int("price"), Limits::new(), Memory::new())?;
    /// table.insert(row![5])?;
    /// table.evict("price", 0)?;
    /// table.fetch("price", 0)?;
    /// assert!(table.is_local("price", 0)?);
    /// # Ok::<(), Box<dyn std::error::Error>>(())
    /// ```
    ///
    /// # Errors
    /// - `NoColumn`, `NoGroup`: there is no such object.
    /// - `IsLocal`: it is local.
    /// - `RegionFull`: there is no local memory for it.
    /// - `FarFault`: the engine returned other bytes than were put. The object stays away, and a later
    ///   fetch may succeed.
    /// - `EditsUsedUp`, `NoMemory`.
    /// - The engine's error. The object stays away.
    pub fn fetch(&mut self, column: impl ColumnRef, group: u32) -> Result<(), Error<E::Error>> {
        let column = column.index_in(&self.schema)?;
        self.fetch_object(column, group)
    }

    pub(super) fn fetch_object(&mut self, column: u32, group: u32) -> Result<(), Error<E::Error>> {
        self.give_up_abandoned();
        loop {
            let migrations = self.stats.migrations;
            let job = self.begin_fetch_of(column, group)?;
            match self.work(job, |table| table.end_fetch(job, column, group)) {
                // An eviction that made space renewed the numbers, which ended all jobs. Begins again, with
                // that space.
                Err(Failure::Code(Code(FC_STALE_JOB))) if self.stats.migrations > migrations => {}
                ended => return self.outcome(ended),
            }
        }
    }

    pub(super) fn begin_fetch_of(
        &mut self,
        column: u32,
        group: u32,
    ) -> Result<u64, Error<E::Error>> {
        match self.library.begin_fetch(column, group) {
            Err(Code(FC_STALE_JOB)) => {
                let column = self.schema.label(column);
                Err(Refusal::IsLocal { column, group }.into())
            }
            begun => self.outcome_of(Given::Group(group), begun),
        }
    }

    fn end_fetch(&mut self, job: u64, column: u32, group: u32) -> Result<(), Failure<E::Error>> {
        let content = self.library.wanted(job, 0)?;
        if let (Some(content), Some(copy)) = (content, self.copies.get(column, group)) {
            self.get_and_deliver(job, content, (column, group), copy)?;
        }
        let carried = self.library.carry(job);
        self.delivered(carried, (column, group))?;
        self.install_job(job)?;
        self.fetched(column, group);
        Ok(())
    }

    // Records that an object is local again.
    pub(super) fn fetched(&mut self, column: u32, group: u32) {
        let len = self.copies.get(column, group).map_or(0, |copy| copy.len);
        self.live.fetched(self.schema.kind_at(column as usize), len);
        self.stats.fetches += 1;
    }

    /// Gets the content of an object from the engine and delivers it to a job.
    pub(super) fn get_and_deliver(
        &mut self,
        job: u64,
        content: u64,
        object: (u32, u32),
        copy: Copy,
    ) -> Result<(), Failure<E::Error>> {
        self.content.clear();
        if let Err(error) = self.engine.get(copy.number, &mut self.content) {
            self.engine_failed(job);
            return Err(Error::Engine(error).into());
        }
        self.stats.gets += 1;
        self.stats.bytes_got += self.content.len() as u64;
        let delivered = self.library.deliver(job, content, &self.content);
        self.delivered(delivered, object)
    }

    /// The result of a call that takes the content of an object: a fault names the object.
    pub(super) fn delivered(
        &self,
        outcome: Coded<()>,
        (column, group): (u32, u32),
    ) -> Result<(), Failure<E::Error>> {
        match outcome {
            Err(Code(FC_FAR_FAULT)) => Err(self.far_fault(column, group).into()),
            outcome => Ok(outcome?),
        }
    }

    /// The refusal of bytes that differ from those put for an object.
    pub(super) fn far_fault(&self, column: u32, group: u32) -> Refusal {
        let column = self.schema.label(column);
        Refusal::FarFault { column, group }
    }

    /// Ends a carried fetch. An automatic policy evicts other objects if there is no space.
    pub(super) fn install_job(&mut self, job: u64) -> Result<(), Failure<E::Error>> {
        loop {
            match self.library.install(job) {
                Err(Code(FC_REGION_FULL)) if self.policy != Policy::Manual => self.make_space()?,
                ended => return Ok(ended?),
            }
        }
    }

    /// The row groups of a column to prefetch, by the stride of the last four reads: at most two.
    ///
    /// ```
    /// # use fullercoral::{Limits, Memory, Schema, Table, row};
    /// let limits = Limits::new().group(4);
    /// let mut table = Table::open(Schema::new().int("price"), limits, Memory::new())?;
    /// table.extend((0..40).map(|price| row![price]))?;
    /// let mut prices = table.ints("price", 0..16)?;
    /// while prices.next_piece()?.is_some() {}
    /// assert_eq!(table.proposals("price")?, [4, 5]);
    /// # Ok::<(), Box<dyn std::error::Error>>(())
    /// ```
    ///
    /// # Errors
    /// `NoColumn`, `NoMemory`.
    pub fn proposals(&mut self, column: impl ColumnRef) -> Result<Vec<u32>, Error<E::Error>> {
        let column = column.index_in(&self.schema)?;
        let proposals = self.library.proposals(column);
        self.outcome(proposals)
            .map(|(groups, count)| groups[..count].to_vec())
    }

    // Fetches the proposals for a column. Ignores errors, since no call needs these objects yet: a call
    // that does will report them.
    pub(super) fn prefetch(&mut self, column: u32) {
        let Ok((groups, count)) = self.library.proposals(column) else {
            return;
        };
        for group in &groups[..count] {
            let away = self
                .library
                .object(column, *group)
                .is_ok_and(|object| !object.local);
            if away && self.is_small(column, *group) && self.fetch_object(column, *group).is_ok() {
                self.stats.prefetches += 1;
            }
        }
    }

    // Whether local memory has space for eight such objects, so that prefetching one does not evict what
    // was just read.
    fn is_small(&self, column: u32, group: u32) -> bool {
        let limits = &self.limits;
        let (len, segments, size) = match self.schema.kind_at(column as usize) {
            Some(Kind::Int) => (limits.group, limits.int_segments, limits.int_size),
            _ => {
                let len = self.copies.get(column, group).map_or(0, |copy| copy.len);
                (len, limits.text_segments, limits.text_size)
            }
        };
        8 * u64::from(len) <= u64::from(segments) * u64::from(size)
    }

    /// Gives up the jobs whose values were dropped, and forgets the content of a put that panicked.
    pub(super) fn give_up_abandoned(&mut self) {
        if let Some(number) = self.putting.take() {
            self.engine.forget(number);
        }
        while let Some((job, put)) = self.abandoned.pop() {
            self.library.give_up(job);
            if let Some(number) = put {
                self.engine.forget(number);
            }
        }
    }

    pub(super) fn check_job(&self, job: &super::jobs::Job) -> Result<(), Refusal> {
        if job.is_of(&self.abandoned) {
            Ok(())
        } else {
            Err(Refusal::StaleJob)
        }
    }
}
