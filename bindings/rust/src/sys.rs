//! The header `include/fullercoral.h`, declared for Rust. The header's comments say what each call does, and
//! list the five rules that comments here name.
#![allow(non_camel_case_types)]

use std::ptr::{NonNull, null_mut};

pub const FC_OK: u32 = 0;
pub const FC_BUILDING: u32 = 15;
pub const FC_ABSENT: u32 = 16;
pub const FC_REGION_FULL: u32 = 17;
pub const FC_STALE_JOB: u32 = 20;
pub const FC_FAR_FAULT: u32 = 21;
pub const FC_FAR_FULL: u32 = 22;
pub const FC_NOTHING: u32 = 104;

pub const FC_MISSING: u32 = 0;
pub const FC_INT: u32 = 1;
pub const FC_TEXT: u32 = 2;

pub const FC_TOTALS: u32 = 0;
pub const FC_EXTREMA: u32 = 1;

#[repr(C)]
pub struct fc_table {
    at: *mut u8,
}

impl fc_table {
    /// A closed handle.
    pub const CLOSED: fc_table = fc_table { at: null_mut() };
}

#[repr(C)]
#[derive(Clone, Copy)]
pub struct fc_bytes {
    pub at: NonNull<u8>,
    pub len: usize,
}

impl fc_bytes {
    /// No bytes, at a valid address.
    pub const NONE: fc_bytes = fc_bytes {
        at: NonNull::dangling(),
        len: 0,
    };

    pub fn of(bytes: &[u8]) -> fc_bytes {
        fc_bytes {
            at: NonNull::from(bytes).cast(),
            len: bytes.len(),
        }
    }

    /// The bytes as a slice.
    ///
    /// # Safety
    /// A call wrote `self`, and by rule 3 no other call with that handle is made within `'a`.
    pub unsafe fn get<'a>(self) -> &'a [u8] {
        // SAFETY: the caller keeps rule 3, and a lent address is never null.
        unsafe { std::slice::from_raw_parts(self.at.as_ptr(), self.len) }
    }
}

#[repr(C)]
#[derive(Clone, Copy)]
pub struct fc_cell {
    pub number: i64,
    pub text: fc_bytes,
    pub kind: u32,
}

impl fc_cell {
    pub const MISSING: fc_cell = fc_cell {
        number: 0,
        text: fc_bytes::NONE,
        kind: FC_MISSING,
    };
}

#[repr(C)]
#[derive(Clone, Copy, Debug, PartialEq, Eq)]
pub struct fc_limits {
    pub edits: u64,
    pub group: u32,
    pub places: u32,
    pub int_segments: u32,
    pub int_size: u32,
    pub text_segments: u32,
    pub text_size: u32,
}

#[repr(C)]
#[derive(Clone, Copy)]
pub struct fc_test {
    pub number: i64,
    pub text: fc_bytes,
    pub column: u32,
    pub op: u32,
}

#[repr(C)]
pub struct fc_spec {
    pub tests: NonNull<fc_test>,
    pub tests_len: usize,
    pub fold: u32,
    pub value: u32,
    pub key: u32,
    pub has_key: bool,
}

#[repr(C)]
#[derive(Clone, Copy)]
pub struct fc_column {
    pub numbers: NonNull<i64>,
    pub numbers_len: usize,
    pub offsets: NonNull<u64>,
    pub offsets_len: usize,
    pub bytes: NonNull<u8>,
    pub bytes_len: usize,
    pub valid: NonNull<u8>,
    pub valid_len: usize,
    pub kind: u32,
}

#[repr(C)]
#[derive(Clone, Copy)]
pub struct fc_line {
    pub key_text: fc_bytes,
    pub key_number: i64,
    pub count: u64,
    pub sum_low: u64,
    pub sum_high: i64,
    pub min: i64,
    pub max: i64,
    pub key_kind: u32,
    pub fold: u32,
}

impl fc_line {
    pub const BLANK: fc_line = fc_line {
        key_text: fc_bytes::NONE,
        key_number: 0,
        count: 0,
        sum_low: 0,
        sum_high: 0,
        min: 0,
        max: 0,
        key_kind: FC_MISSING,
        fold: FC_TOTALS,
    };
}

#[repr(C)]
#[derive(Default)]
pub struct fc_sum {
    pub count: u64,
    pub sum_low: u64,
    pub sum_high: i64,
}

#[repr(C)]
#[derive(Default, Clone, Copy)]
pub struct fc_details {
    pub code: u32,
    pub pending: u32,
    pub column: u32,
    pub group: u32,
}

#[repr(C)]
#[derive(Default)]
pub struct fc_object {
    pub copy: u64,
    pub version: u64,
    pub pins: u32,
    pub local: bool,
    pub dirty: bool,
    pub hot: bool,
    pub has_copy: bool,
}

#[repr(C)]
#[derive(Default)]
pub struct fc_space {
    pub used: u64,
    pub free: u64,
    pub segments: u32,
    pub size: u32,
}

/// Joins the two words of a number of 128 bits.
pub fn sum_of(low: u64, high: i64) -> i128 {
    i128::from(high) << 64 | i128::from(low)
}

unsafe extern "C" {
    pub fn fc_open(
        table: *mut fc_table,
        kinds: *const u32,
        kinds_len: usize,
        limits: *const fc_limits,
        capacity: u64,
    ) -> u32;
    pub fn fc_close(table: *mut fc_table) -> u32;
    pub fn fc_last_refusal(table: *mut fc_table, details: *mut fc_details) -> u32;

    pub fn fc_insert(
        table: *mut fc_table,
        cells: *const fc_cell,
        cells_len: usize,
        place: *mut u32,
    ) -> u32;
    pub fn fc_insert_columns(
        table: *mut fc_table,
        columns: *const fc_column,
        columns_len: usize,
        rows: usize,
        inserted: *mut usize,
    ) -> u32;
    pub fn fc_set(table: *mut fc_table, column: u32, place: u32, cell: *const fc_cell) -> u32;
    pub fn fc_remove(table: *mut fc_table, place: u32) -> u32;

    pub fn fc_watch(table: *mut fc_table, spec: *const fc_spec, aggregate: *mut u32) -> u32;
    pub fn fc_unwatch(table: *mut fc_table, aggregate: u32) -> u32;
    pub fn fc_scan(table: *mut fc_table, aggregate: u32, group: u32) -> u32;
    pub fn fc_pending(
        table: *mut fc_table,
        aggregate: u32,
        groups: *mut u32,
        first: *mut u32,
    ) -> u32;
    pub fn fc_ask(table: *mut fc_table, aggregate: u32, lines: *mut usize) -> u32;
    pub fn fc_recount(table: *mut fc_table, aggregate: u32, lines: *mut usize) -> u32;
    pub fn fc_lines(
        table: *mut fc_table,
        from: usize,
        lines: *mut fc_line,
        lines_len: usize,
        count: *mut usize,
    ) -> u32;
    pub fn fc_ask_key(
        table: *mut fc_table,
        aggregate: u32,
        key: *const fc_cell,
        line: *mut fc_line,
    ) -> u32;
    pub fn fc_plain(table: *mut fc_table, aggregate: u32, sum: *mut fc_sum) -> u32;

    pub fn fc_row(table: *mut fc_table, place: u32, cells: *mut fc_cell, cells_len: usize) -> u32;
    pub fn fc_is_alive(table: *mut fc_table, place: u32, alive: *mut bool) -> u32;
    pub fn fc_numbers(
        table: *mut fc_table,
        column: u32,
        from: u32,
        to: u32,
        values: *mut i64,
        values_len: usize,
        valid: *mut bool,
        valid_len: usize,
        alive: *mut bool,
        alive_len: usize,
    ) -> u32;
    pub fn fc_text(
        table: *mut fc_table,
        column: u32,
        place: u32,
        text: *mut fc_bytes,
        valid: *mut bool,
    ) -> u32;
    pub fn fc_texts_size(
        table: *mut fc_table,
        column: u32,
        from: u32,
        to: u32,
        size: *mut usize,
    ) -> u32;
    pub fn fc_texts(
        table: *mut fc_table,
        column: u32,
        from: u32,
        to: u32,
        offsets: *mut u64,
        offsets_len: usize,
        bytes: *mut u8,
        bytes_len: usize,
        valid: *mut bool,
        valid_len: usize,
        alive: *mut bool,
        alive_len: usize,
    ) -> u32;

    pub fn fc_pin(table: *mut fc_table, column: u32, group: u32) -> u32;
    pub fn fc_unpin(table: *mut fc_table, column: u32, group: u32) -> u32;
    pub fn fc_compact(table: *mut fc_table, kind: u32, segment: u32) -> u32;
    pub fn fc_proposals(
        table: *mut fc_table,
        column: u32,
        groups: *mut u32,
        groups_len: usize,
        count: *mut usize,
    ) -> u32;

    pub fn fc_begin_evict(table: *mut fc_table, column: u32, group: u32, job: *mut u64) -> u32;
    pub fn fc_begin_coldest(table: *mut fc_table, job: *mut u64) -> u32;
    pub fn fc_begin_fetch(table: *mut fc_table, column: u32, group: u32, job: *mut u64) -> u32;
    pub fn fc_begin_offload(table: *mut fc_table, aggregate: u32, group: u32, job: *mut u64)
    -> u32;
    pub fn fc_job_of(table: *mut fc_table, job: u64, about: *mut fc_job) -> u32;
    pub fn fc_wanted(table: *mut fc_table, job: u64, index: usize, number: *mut u64) -> u32;
    pub fn fc_deliver(
        table: *mut fc_table,
        job: u64,
        number: u64,
        bytes: *const u8,
        bytes_len: usize,
    ) -> u32;
    pub fn fc_carry(table: *mut fc_table, job: u64) -> u32;
    pub fn fc_outgoing(
        table: *mut fc_table,
        job: u64,
        number: *mut u64,
        bytes: *mut fc_bytes,
    ) -> u32;
    pub fn fc_commit(table: *mut fc_table, job: u64) -> u32;
    pub fn fc_install(table: *mut fc_table, job: u64) -> u32;
    pub fn fc_merge(table: *mut fc_table, job: u64) -> u32;
    pub fn fc_give_up(table: *mut fc_table, job: u64) -> u32;
    pub fn fc_fault(table: *mut fc_table, job: u64) -> u32;

    pub fn fc_deliver_copy(
        table: *mut fc_table,
        column: u32,
        group: u32,
        bytes: *const u8,
        bytes_len: usize,
    ) -> u32;
    pub fn fc_migrate(table: *mut fc_table, capacity: u64) -> u32;

    pub fn fc_places(table: *mut fc_table, places: *mut u32) -> u32;
    pub fn fc_object_of(
        table: *mut fc_table,
        column: u32,
        group: u32,
        object: *mut fc_object,
    ) -> u32;
    pub fn fc_space_of(table: *mut fc_table, kind: u32, space: *mut fc_space) -> u32;
    pub fn fc_faults(table: *mut fc_table, faults: *mut u64) -> u32;
}

#[repr(C)]
#[derive(Default)]
pub struct fc_job {
    pub kind: u32,
    pub carried: bool,
    pub column: u32,
    pub group: u32,
}

#[cfg(test)]
mod tests {
    use std::mem::{offset_of, size_of};

    use super::*;

    /// Compares sizes and offsets with those of a C compiler for the header.
    #[test]
    fn structs_lie_as_in_c() {
        let sizes = [
            size_of::<fc_table>(),
            size_of::<fc_bytes>(),
            size_of::<fc_cell>(),
            size_of::<fc_limits>(),
            size_of::<fc_test>(),
            size_of::<fc_spec>(),
            size_of::<fc_column>(),
            size_of::<fc_line>(),
            size_of::<fc_sum>(),
            size_of::<fc_details>(),
            size_of::<fc_job>(),
            size_of::<fc_object>(),
            size_of::<fc_space>(),
        ];
        assert_eq!(sizes, [8, 16, 32, 32, 32, 32, 72, 72, 24, 16, 16, 24, 24]);
        let offsets = [
            offset_of!(fc_cell, kind),
            offset_of!(fc_limits, text_size),
            offset_of!(fc_test, op),
            offset_of!(fc_spec, has_key),
            offset_of!(fc_column, kind),
            offset_of!(fc_line, sum_high),
            offset_of!(fc_line, fold),
            offset_of!(fc_job, group),
            offset_of!(fc_object, local),
            offset_of!(fc_object, has_copy),
            offset_of!(fc_space, size),
        ];
        assert_eq!(offsets, [24, 28, 28, 28, 64, 40, 68, 12, 20, 23, 20]);
    }
}
