//! Engines that panic, at each of their calls in turn: the call of the table fails, and the table stays
//! usable.

use std::convert::Infallible;
use std::panic::{AssertUnwindSafe, catch_unwind, resume_unwind};

use fullercoral::{
    Cell, Engine, Limits, Lines, Memory, Schema, Table, Totals, extrema, row, totals,
};

type Outcome = Result<(), Box<dyn std::error::Error>>;

/// An engine whose n-th call panics, once.
struct Panics {
    kept: Memory,
    calls: u32,
    at: u32,
}

impl Panics {
    fn call(&mut self) {
        self.calls += 1;
        if self.calls == self.at {
            resume_unwind(Box::new("the engine panics"));
        }
    }
}

impl Engine for Panics {
    type Error = Infallible;

    fn put(&mut self, number: u64, bytes: &[u8]) -> Result<(), Infallible> {
        self.kept.put(number, bytes)?;
        self.call();
        Ok(())
    }

    fn get(&mut self, number: u64, buffer: &mut Vec<u8>) -> Result<(), Infallible> {
        self.call();
        self.kept.get(number, buffer)
    }

    fn forget(&mut self, number: u64) {
        self.kept.forget(number);
        self.call();
    }
}

type Panicky = Table<Panics>;

// Makes a call, and repeats it if the engine panics.
fn persist<T>(table: &mut Panicky, call: impl Fn(&mut Panicky) -> T) -> T {
    match catch_unwind(AssertUnwindSafe(|| call(table))) {
        Ok(value) => value,
        Err(_) => call(table),
    }
}

// Opens a table of 40 rows whose engine panics at its call number `at`. Every third `n` is 0.
fn filled(at: u32) -> Result<Panicky, Box<dyn std::error::Error>> {
    let (kept, calls) = (Memory::new(), 0);
    let limits = Limits::new().group(8).contents(40);
    let limits = limits.local_memory(6 * 8 * 16);
    let schema = Schema::new().int("n").int("m");
    let mut table = Table::open(schema, limits, Panics { kept, calls, at })?;
    for n in 0..40 {
        persist(&mut table, |table| table.insert(row![n, n % 3]).map(drop))?;
    }
    for place in (0..40).step_by(3) {
        persist(&mut table, |table| table.set("n", place, 0))?;
        // It may be away already.
        let _ = persist(&mut table, |table| table.evict("m", place / 8));
    }
    Ok(table)
}

fn sums(lines: Lines<'_, Totals>) -> Vec<i128> {
    lines.map(|line| line.sum).collect()
}

// Moves, asks and reads such a table. Returns whether its engine panicked.
fn run(at: u32) -> Result<bool, Box<dyn std::error::Error>> {
    let mut table = filled(at)?;
    let by_m = table.watch(totals("n").by("m"))?;
    let ends = table.watch(extrema("n"))?;
    let asked = persist(&mut table, |table| table.ask(by_m).map(sums))?;
    assert_eq!(asked, [0, 247, 260]);
    let asked = persist(&mut table, |table| {
        table.ask(ends).map(|lines| lines.map(|l| l.max).max())
    })?;
    assert_eq!(asked, Some(38));
    let recounted = persist(&mut table, |table| table.recount(by_m).map(sums))?;
    assert_eq!(recounted, [0, 247, 260]);
    persist(&mut table, Table::migrate)?;
    for place in 0..40 {
        let due = if place % 3 > 0 { place } else { 0 };
        let read = persist(&mut table, |table| {
            table.row(place).map(|row| row.get("n").and_then(Cell::int))
        })?;
        assert_eq!(read, Some(i64::from(due)));
    }
    // The panic may have left one content in the engine that belongs to no object.
    assert!(table.engine().kept.len() <= 10 + 1);
    Ok(table.engine().calls >= at)
}

#[test]
fn a_table_goes_on_after_a_panic_at_any_call_of_its_engine() -> Outcome {
    let mut at = 1;
    while run(at)? {
        at += 1;
    }
    assert!(at > 50);
    Ok(())
}
