use super::{Coded, Library, done, some};
use crate::sys::*;

impl Library {
    pub fn begin_evict(&mut self, column: u32, group: u32) -> Coded<u64> {
        let mut job = 0;
        // SAFETY: rules 1 and 2.
        done(unsafe { fc_begin_evict(&mut self.raw, column, group, &mut job) })?;
        Ok(job)
    }

    /// Begins to evict the coldest object, if there is one without a pin.
    pub fn begin_coldest(&mut self) -> Coded<Option<u64>> {
        let mut job = 0;
        // SAFETY: rules 1 and 2.
        let code = unsafe { fc_begin_coldest(&mut self.raw, &mut job) };
        some(code, job)
    }

    pub fn begin_fetch(&mut self, column: u32, group: u32) -> Coded<u64> {
        let mut job = 0;
        // SAFETY: rules 1 and 2.
        done(unsafe { fc_begin_fetch(&mut self.raw, column, group, &mut job) })?;
        Ok(job)
    }

    pub fn begin_offload(&mut self, aggregate: u32, group: u32) -> Coded<u64> {
        let mut job = 0;
        // SAFETY: rules 1 and 2.
        done(unsafe { fc_begin_offload(&mut self.raw, aggregate, group, &mut job) })?;
        Ok(job)
    }

    pub fn job(&mut self, job: u64) -> Coded<fc_job> {
        let mut about = fc_job::default();
        // SAFETY: rules 1 and 2.
        done(unsafe { fc_job_of(&mut self.raw, job, &mut about) })?;
        Ok(about)
    }

    /// The number of the content at an index of the contents that a job needs.
    pub fn wanted(&mut self, job: u64, index: usize) -> Coded<Option<u64>> {
        let mut number = 0;
        // SAFETY: rules 1 and 2.
        let code = unsafe { fc_wanted(&mut self.raw, job, index, &mut number) };
        some(code, number)
    }

    pub fn deliver(&mut self, job: u64, number: u64, bytes: &[u8]) -> Coded<()> {
        let (at, len) = (bytes.as_ptr(), bytes.len());
        // SAFETY: rules 1 and 2.
        done(unsafe { fc_deliver(&mut self.raw, job, number, at, len) })
    }

    pub fn carry(&mut self, job: u64) -> Coded<()> {
        // SAFETY: rule 2.
        done(unsafe { fc_carry(&mut self.raw, job) })
    }

    /// The bytes of a carried eviction to keep; none if they were kept before.
    pub fn outgoing(&mut self, job: u64) -> Coded<Option<&[u8]>> {
        let (mut number, mut bytes) = (0, fc_bytes::NONE);
        // SAFETY: rules 1, 2 and 4.
        let code = unsafe { fc_outgoing(&mut self.raw, job, &mut number, &mut bytes) };
        // SAFETY: rule 3, the result borrows the handle.
        Ok(some(code, bytes)?.map(|bytes| unsafe { bytes.get() }))
    }

    pub fn commit(&mut self, job: u64) -> Coded<()> {
        // SAFETY: rule 2.
        done(unsafe { fc_commit(&mut self.raw, job) })
    }

    pub fn install(&mut self, job: u64) -> Coded<()> {
        // SAFETY: rule 2.
        done(unsafe { fc_install(&mut self.raw, job) })
    }

    pub fn merge(&mut self, job: u64) -> Coded<()> {
        // SAFETY: rule 2.
        done(unsafe { fc_merge(&mut self.raw, job) })
    }

    /// Gives up a job. Does nothing if the job has ended.
    pub fn give_up(&mut self, job: u64) {
        // SAFETY: rule 2.
        unsafe { fc_give_up(&mut self.raw, job) };
    }

    /// Counts a fault of the storage.
    pub fn fault(&mut self, job: u64) {
        // SAFETY: rule 2.
        unsafe { fc_fault(&mut self.raw, job) };
    }

    pub fn deliver_copy(&mut self, column: u32, group: u32, bytes: &[u8]) -> Coded<()> {
        let (at, len) = (bytes.as_ptr(), bytes.len());
        // SAFETY: rules 1 and 2.
        done(unsafe { fc_deliver_copy(&mut self.raw, column, group, at, len) })
    }

    pub fn migrate(&mut self, capacity: u64) -> Coded<()> {
        // SAFETY: rule 2.
        done(unsafe { fc_migrate(&mut self.raw, capacity) })
    }
}
