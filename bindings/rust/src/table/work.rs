//! Jobs and aggregates of one call, which end with it, also if the engine panics.

use super::{Failure, Table};
use crate::Engine;

/// A job that one call begins and ends. Dropping it before its end gives the job up.
struct Work<'t, E: Engine> {
    table: &'t mut Table<E>,
    job: u64,
    ended: bool,
}

impl<E: Engine> Table<E> {
    /// Does the work of a job that was begun. If it fails or the engine panics, it gives the job up.
    pub(super) fn work<T>(
        &mut self,
        job: u64,
        work: impl FnOnce(&mut Table<E>) -> Result<T, Failure<E::Error>>,
    ) -> Result<T, Failure<E::Error>> {
        let mut begun = Work {
            table: self,
            job,
            ended: false,
        };
        let result = work(begun.table);
        begun.ended = result.is_ok();
        result
    }
}

impl<E: Engine> Drop for Work<'_, E> {
    fn drop(&mut self) {
        if !self.ended {
            self.table.library.give_up(self.job);
        }
    }
}

/// An aggregate that one call registers and forgets.
pub(super) struct Passing<'t, E: Engine> {
    pub table: &'t mut Table<E>,
    pub number: u32,
}

impl<E: Engine> Drop for Passing<'_, E> {
    fn drop(&mut self) {
        self.table.watched[self.number as usize] = None;
        // It was registered for this call.
        let _ = self.table.library.unwatch(self.number);
    }
}

#[cfg(test)]
mod tests {
    use std::convert::Infallible;
    use std::panic::{AssertUnwindSafe, catch_unwind, resume_unwind};

    use crate::{Engine, Limits, Memory, Schema, Table, row, totals};

    /// An engine that panics when it is told to.
    #[derive(Default)]
    struct Panics {
        kept: Memory,
        told: bool,
    }

    impl Panics {
        fn call(&mut self) -> &mut Memory {
            if self.told {
                resume_unwind(Box::new("the engine panics"));
            }
            &mut self.kept
        }
    }

    impl Engine for Panics {
        type Error = Infallible;

        fn put(&mut self, number: u64, bytes: &[u8]) -> Result<(), Infallible> {
            // The content stays in the engine.
            self.kept.put(number, bytes)?;
            self.call();
            Ok(())
        }

        fn get(&mut self, number: u64, buffer: &mut Vec<u8>) -> Result<(), Infallible> {
            self.call().get(number, buffer)
        }

        fn forget(&mut self, number: u64) {
            self.kept.forget(number);
        }
    }

    fn panics(table: &mut Table<Panics>, call: impl FnOnce(&mut Table<Panics>)) {
        table.engine_mut().told = true;
        assert!(catch_unwind(AssertUnwindSafe(|| call(table))).is_err());
        table.engine_mut().told = false;
        let waits = |job: &u64| table.library.job(*job).is_ok();
        assert_eq!((0..100).find(waits), None);
    }

    #[test]
    fn no_job_waits_after_a_panic_of_the_engine() -> Result<(), Box<dyn std::error::Error>> {
        let limits = Limits::new().group(4).local_memory(8 * 4 * 16);
        let schema = Schema::new().int("n").int("m");
        let mut table = Table::open(schema, limits, Panics::default())?;
        let total = table.watch(totals("n").by("m"))?;
        table.extend((0..12).map(|n| row![n, n % 2]))?;

        panics(&mut table, |table| drop(table.evict("n", 0)));
        panics(&mut table, |table| drop(table.evict_coldest()));
        // Beginning the next job forgets the content that was put in vain.
        assert_eq!(table.engine().kept.len(), 1);
        table.evict("n", 0)?;
        assert_eq!(table.engine().kept.len(), 1);

        panics(&mut table, |table| drop(table.fetch("n", 0)));
        panics(&mut table, |table| drop(table.set("m", 0, 1)));
        let late = table.watch(totals("n"))?;
        table.evict("m", 0)?;
        panics(&mut table, |table| drop(table.ask(late)));
        panics(&mut table, |table| drop(table.recount(total)));
        assert_eq!(table.watched.iter().flatten().count(), 2);

        let sums: Vec<i128> = table.ask(total)?.map(|line| line.sum).collect();
        assert_eq!(sums, [30, 36]);
        assert_eq!(table.ask(late)?.next().unwrap().sum, 66);
        table.set("n", 0, 100)?;
        assert_eq!(table.ask(late)?.next().unwrap().sum, 166);
        Ok(())
    }
}
