use std::mem::MaybeUninit;

use super::{Coded, Library, at, done, some};
use crate::Key;
use crate::answer::{Answer, StoredLine};
use crate::spec::Resolved;
use crate::sys::*;

/// How many lines of an answer one call writes.
const LINES: usize = 256;

impl Library {
    pub fn watch(&mut self, spec: &Resolved) -> Coded<u32> {
        let tests = spec.raw_tests();
        let raw = fc_spec {
            tests: at(&tests),
            tests_len: tests.len(),
            fold: spec.fold,
            value: spec.value,
            key: spec.key.unwrap_or(0),
            has_key: spec.key.is_some(),
        };
        let mut aggregate = 0;
        // SAFETY: rules 1 and 2; the tests and their texts live until this call returns.
        done(unsafe { fc_watch(&mut self.raw, &raw, &mut aggregate) })?;
        Ok(aggregate)
    }

    pub fn unwatch(&mut self, aggregate: u32) -> Coded<()> {
        // SAFETY: rule 2.
        done(unsafe { fc_unwatch(&mut self.raw, aggregate) })
    }

    pub fn scan(&mut self, aggregate: u32, group: u32) -> Coded<()> {
        // SAFETY: rule 2.
        done(unsafe { fc_scan(&mut self.raw, aggregate, group) })
    }

    /// The number of pending row groups, and the first of them, if there is one.
    pub fn pending(&mut self, aggregate: u32) -> Coded<(u32, u32)> {
        let (mut groups, mut first) = (0, 0);
        // SAFETY: rules 1 and 2.
        done(unsafe { fc_pending(&mut self.raw, aggregate, &mut groups, &mut first) })?;
        Ok((groups, first))
    }

    /// Asks an aggregate, and copies the lines.
    pub fn ask(&mut self, aggregate: u32, answer: &mut Answer) -> Coded<()> {
        let mut lines = 0;
        // SAFETY: rules 1 and 2.
        done(unsafe { fc_ask(&mut self.raw, aggregate, &mut lines) })?;
        self.copy_lines(lines, answer)
    }

    /// Computes an answer from scratch, and copies the lines.
    pub fn recount(&mut self, aggregate: u32, answer: &mut Answer) -> Coded<()> {
        let mut lines = 0;
        // SAFETY: rules 1 and 2.
        done(unsafe { fc_recount(&mut self.raw, aggregate, &mut lines) })?;
        self.copy_lines(lines, answer)
    }

    fn copy_lines(&mut self, lines: usize, answer: &mut Answer) -> Coded<()> {
        answer.clear();
        let mut some = [MaybeUninit::uninit(); LINES];
        for from in (0..lines).step_by(LINES) {
            let (room, mut count) = (LINES.min(lines - from), 0);
            some[..room].fill(MaybeUninit::new(fc_line::BLANK));
            let at = some.as_mut_ptr().cast();
            // SAFETY: rules 1, 2 and 4.
            done(unsafe { fc_lines(&mut self.raw, from, at, room, &mut count) })?;
            for line in &some[..count] {
                // SAFETY: the call wrote at most `room` lines; and rule 3, no other call was made since.
                unsafe { answer.push(line.assume_init_ref()) };
            }
        }
        Ok(())
    }

    /// Asks an aggregate for one key: returns its line, or none if the answer has no line with it.
    #[inline]
    pub fn ask_key(&mut self, aggregate: u32, key: Key<'_>) -> Coded<Option<StoredLine>> {
        let key = key.raw();
        let mut line = fc_line::BLANK;
        // SAFETY: rules 1, 2 and 4; the text of the key lives until this call returns.
        let code = unsafe { fc_ask_key(&mut self.raw, aggregate, &key, &mut line) };
        some(code, StoredLine::of_numbers(&line))
    }

    /// The count and the sum of totals without a key; none for any other aggregate, or if row groups are
    /// pending.
    #[inline]
    pub fn plain(&mut self, aggregate: u32) -> Coded<Option<(u64, i128)>> {
        let mut sum = fc_sum::default();
        // SAFETY: rules 1 and 2.
        let code = unsafe { fc_plain(&mut self.raw, aggregate, &mut sum) };
        some(code, (sum.count, sum_of(sum.sum_low, sum.sum_high)))
    }
}
