//! Tables over an engine that panics: after the panic is caught, the table is unchanged.

use std::fmt::Debug;
use std::panic::{self, AssertUnwindSafe};

use fullercoral::{Engine, Limits, Memory, Op, Policy, Schema, Table, row, totals};

/// An engine that panics in each call while a switch is on.
#[derive(Default)]
struct Panicking {
    memory: Memory,
    panics: bool,
}

impl Engine for Panicking {
    type Error = std::convert::Infallible;

    fn put(&mut self, number: u64, bytes: &[u8]) -> Result<(), Self::Error> {
        assert!(!self.panics, "on purpose");
        self.memory.put(number, bytes)
    }

    fn get(&mut self, number: u64, buffer: &mut Vec<u8>) -> Result<(), Self::Error> {
        buffer.extend_from_slice(b"half");
        assert!(!self.panics, "on purpose");
        buffer.clear();
        self.memory.get(number, buffer)
    }
}

type Tried = Table<Panicking>;

/// Three row groups: the objects of the first column are away, those of the second are local and not in
/// the engine.
fn table() -> Tried {
    let schema = Schema::new().int("n").int("m").text("t");
    let limits = Limits::new().group(4).local_memory(1 << 14);
    let mut table = Table::open(schema, limits, Panicking::default()).unwrap();
    table.set_policy(Policy::Demand);
    table
        .extend((0..12).map(|n| row![n, n % 3, "rye"]))
        .unwrap();
    (0..3).for_each(|group| table.evict("n", group).unwrap());
    table
}

/// Makes a call that panics with the engine, and then makes it again without the panic.
fn panics_and_works<T: Debug>(table: &mut Tried, call: impl Fn(&mut Tried) -> T) -> T {
    let places = table.places();
    table.engine_mut().panics = true;
    let hook = panic::take_hook();
    panic::set_hook(Box::new(|_| {}));
    let caught = panic::catch_unwind(AssertUnwindSafe(|| call(table)));
    panic::set_hook(hook);
    assert!(caught.is_err(), "{caught:?}");
    table.engine_mut().panics = false;
    assert_eq!(table.places(), places);
    (0..3).for_each(|group| assert!(!table.is_local("n", group).unwrap()));
    call(table)
}

#[test]
fn a_call_works_after_its_engine_panicked() {
    let mut table = table();
    panics_and_works(&mut table, |table| table.evict("m", 0)).unwrap();
    table.fetch("m", 0).unwrap();
    panics_and_works(&mut table, |table| table.fetch("n", 0)).unwrap();
    table.evict("n", 0).unwrap();
    panics_and_works(&mut table, |table| table.set("n", 5, 7)).unwrap();
    table.evict("n", 1).unwrap();
    panics_and_works(&mut table, |table| table.remove(4)).unwrap();
    table.evict("n", 1).unwrap();
    let read = |table: &mut Tried| {
        let mut part = table.ints("n", ..).unwrap();
        let mut sum = 0;
        while let Some(piece) = part.next_piece().unwrap() {
            sum += piece.rows().filter_map(|(_, n)| n).sum::<i64>();
        }
        sum
    };
    assert_eq!(panics_and_works(&mut table, read), 66 + 2 - 4);
}

#[test]
fn no_number_is_lost_when_an_answer_is_computed_anew() {
    let mut table = table();
    let total = table.watch(totals("n").only("m", Op::Ge, 0)).unwrap();
    let ask = |table: &mut Tried| table.ask(total).unwrap().next().unwrap().sum;
    assert_eq!(panics_and_works(&mut table, ask), 66);
    let recount = |table: &mut Tried| table.recount(total).unwrap().next().unwrap().sum;
    for _ in 0..40 {
        (0..3).for_each(|group| drop(table.evict("n", group)));
        assert_eq!(panics_and_works(&mut table, recount), 66);
    }
    let others: Vec<_> = (0..31).map(|_| table.watch(totals("m"))).collect();
    assert!(others.iter().all(Result::is_ok));
    // No object has a pin of the call that fetched it.
    (0..3).for_each(|group| assert!(table.unpin("n", group).is_err()));
}
