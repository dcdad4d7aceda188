//! Safe wrappers of the calls of the header. The results that a call lends have the lifetime of the
//! borrow of the handle, and each `SAFETY` names the rule of the header that it keeps.
//!
//! All of them rely on this: a `Library` has the only handle on its table, open from `open` to `drop`,
//! and each call borrows it mutably (rule 2); references and slices are valid (rule 1).

use std::ptr::NonNull;

use crate::sys::*;

mod aggregates;
mod edits;
mod jobs;
mod reading;

pub use reading::Buffers;

/// The code of a refused call.
#[derive(Debug, Clone, Copy, PartialEq, Eq)]
pub struct Code(pub u32);

pub type Coded<T> = Result<T, Code>;

fn done(code: u32) -> Coded<()> {
    if code == FC_OK {
        Ok(())
    } else {
        Err(Code(code))
    }
}

// The value, or none if the code says that there is none.
fn some<T>(code: u32, value: T) -> Coded<Option<T>> {
    match code {
        FC_OK => Ok(Some(value)),
        FC_NOTHING => Ok(None),
        other => Err(Code(other)),
    }
}

/// The handle on a table.
pub struct Library {
    raw: fc_table,
    /// The cells of the last row inserted or read. Their texts may have been freed.
    cells: Vec<fc_cell>,
}

// SAFETY: rule 2, a handle may move between threads. The cells' pointers are not read before the cells
// are written again.
unsafe impl Send for Library {}

impl Library {
    pub fn open(kinds: &[u32], limits: &fc_limits, capacity: u64) -> Coded<Library> {
        let mut raw = fc_table::CLOSED;
        // SAFETY: rules 1 and 2, the handle is zeroed.
        done(unsafe { fc_open(&mut raw, kinds.as_ptr(), kinds.len(), limits, capacity) })?;
        let cells = Vec::with_capacity(kinds.len());
        Ok(Library { raw, cells })
    }

    /// The details of the last refusal.
    pub fn last_refusal(&mut self) -> fc_details {
        let mut details = fc_details::default();
        // SAFETY: rules 1 and 2.
        unsafe { fc_last_refusal(&mut self.raw, &mut details) };
        details
    }

    pub fn places(&mut self) -> u32 {
        let mut places = 0;
        // SAFETY: rules 1 and 2.
        unsafe { fc_places(&mut self.raw, &mut places) };
        places
    }

    pub fn object(&mut self, column: u32, group: u32) -> Coded<fc_object> {
        let mut object = fc_object::default();
        // SAFETY: rules 1 and 2.
        done(unsafe { fc_object_of(&mut self.raw, column, group, &mut object) })?;
        Ok(object)
    }

    pub fn space(&mut self, kind: u32) -> fc_space {
        let mut space = fc_space::default();
        // SAFETY: rules 1 and 2.
        unsafe { fc_space_of(&mut self.raw, kind, &mut space) };
        space
    }

    pub fn faults(&mut self) -> u64 {
        let mut faults = 0;
        // SAFETY: rules 1 and 2.
        unsafe { fc_faults(&mut self.raw, &mut faults) };
        faults
    }

    pub fn pin(&mut self, column: u32, group: u32) -> Coded<()> {
        // SAFETY: rule 2.
        done(unsafe { fc_pin(&mut self.raw, column, group) })
    }

    pub fn unpin(&mut self, column: u32, group: u32) -> Coded<()> {
        // SAFETY: rule 2.
        done(unsafe { fc_unpin(&mut self.raw, column, group) })
    }

    pub fn compact(&mut self, kind: u32, segment: u32) -> Coded<()> {
        // SAFETY: rule 2.
        done(unsafe { fc_compact(&mut self.raw, kind, segment) })
    }

    /// The row groups of a column to prefetch, and their number.
    pub fn proposals(&mut self, column: u32) -> Coded<([u32; 2], usize)> {
        let (mut groups, mut count) = ([0; 2], 0);
        let at = groups.as_mut_ptr();
        // SAFETY: rules 1 and 2, `groups` has a length of 2.
        done(unsafe { fc_proposals(&mut self.raw, column, at, 2, &mut count) })?;
        Ok((groups, count))
    }
}

impl Drop for Library {
    fn drop(&mut self) {
        // SAFETY: rule 2. No loan of the handle outlives it.
        unsafe { fc_close(&mut self.raw) };
    }
}

/// The address of a slice, which is never null.
fn at<T>(slice: &[T]) -> NonNull<T> {
    NonNull::from(slice).cast()
}
