//! Makes random operations on a table and on a plain one, and compares each reply.

use std::collections::HashSet;
use std::env;
use std::fmt::Debug;

use fullercoral::{
    Engine, Error, Fault, Faulty, Kind, Limits, Memory, Policy, Refusal, Schema, Table,
};

#[path = "../common/mod.rs"]
mod common;

mod aggregates;
mod edits;
mod movement;
mod reading;

use aggregates::due_lines;
use common::plain::Plain;
use common::{Handle, Random};

const GROUP: u32 = 16;

/// The operations of a run: 100,000, or as many as the environment says.
fn operations() -> u32 {
    let said = env::var("FULLERCORAL_OPERATIONS").ok();
    said.and_then(|said| said.parse().ok()).unwrap_or(100_000)
}

fn schema() -> Schema {
    Schema::new().int("a").text("b").int("c").text("d").int("e")
}

/// A table and a plain one, with the same operations.
struct Run<E: Engine> {
    table: Table<E>,
    plain: Plain,
    random: Random,
    /// The aggregates, by the plain table's numbers.
    watched: Vec<Option<Handle>>,
    /// The objects that are away, if the policy is manual, so that only this run moves them.
    away: HashSet<(u32, u32)>,
    /// Whether the engine may fail.
    faulty: bool,
    faults: u64,
}

/// The result of a call: a value, the number of a refusal, or a fault of the engine.
#[derive(Debug, PartialEq)]
enum Reply<T> {
    Value(T),
    Refused(u32),
    Fault,
}

impl<E: Engine> Run<E>
where
    E::Error: Debug,
{
    fn new(engine: E, policy: Policy, faulty: bool, seed: u64) -> Run<E> {
        let schema = schema();
        let kinds: Vec<Kind> = schema.iter().map(|(_, kind)| kind).collect();
        // Some 25 of 94 row groups can be local; with the manual policy all of them.
        let bytes = if policy == Policy::Manual {
            1 << 20
        } else {
            40 << 10
        };
        let limits = Limits::new().group(GROUP).places(1_500).local_memory(bytes);
        let mut table = Table::open(schema, limits, engine).unwrap();
        table.set_policy(policy);
        Run {
            table,
            plain: Plain::new(&kinds, 1_500),
            random: Random(seed),
            watched: Vec::new(),
            away: HashSet::new(),
            faulty,
            faults: 0,
        }
    }

    fn manual(&self) -> bool {
        self.table.policy() == Policy::Manual
    }

    /// The reply of a call. Only a faulty engine may fail.
    fn reply<T>(&mut self, result: Result<T, Error<E::Error>>) -> Reply<T> {
        match result {
            Ok(value) => Reply::Value(value),
            Err(Error::Refused(refusal)) if refusal.number() != 21 => {
                if let (Refusal::Absent { column, group }, true) = (&refusal, self.manual()) {
                    let column = schema().index(column).unwrap() as u32;
                    assert!(self.away.contains(&(column, *group)));
                }
                Reply::Refused(refusal.number())
            }
            Err(_) => {
                assert!(self.faulty);
                self.faults += 1;
                Reply::Fault
            }
        }
    }

    /// The refusal of an edit in a row group with an object that is away.
    fn absent(&self, group: u32) -> Option<u32> {
        let away = (0..5).any(|column| self.away.contains(&(column, group)));
        (self.manual() && away).then_some(16)
    }

    fn step(&mut self) {
        match self.random.below(100) {
            0..25 => self.insert(),
            25..27 => self.extend_columns(),
            27..55 => self.set(),
            55..60 => self.remove(),
            60..63 => self.watch(),
            63..70 => self.ask(false),
            70 => self.ask(true),
            71..74 => self.scan_or_build(),
            74..78 => self.read_row(),
            78..80 => self.read_cell(),
            80..84 => self.read_part(),
            84..88 => self.evict(),
            88..90 => self.evict_coldest(),
            90..96 => self.fetch(),
            96..99 => self.move_in_phases(),
            _ => drop(self.table.compact()),
        }
    }

    /// Reads all cells and asks all aggregates, over an engine without faults.
    fn compare_all(&mut self) {
        self.table.set_policy(Policy::Demand);
        for place in 0..self.plain.len() {
            let row = self.table.row(place as u32).unwrap();
            assert_eq!(row.is_alive(), self.plain.rows.alive[place]);
            let due = self
                .plain
                .rows
                .columns
                .iter()
                .map(|column| column.cell(place));
            assert!(row.iter().eq(due));
        }
        for number in 0..self.watched.len() {
            let due = due_lines(&mut self.plain, number);
            let lines = match self.watched[number] {
                Some(Handle::Totals(totals)) => self.lines(totals, true, |line| {
                    format!("{:?} {} {} 0 0", line.key, line.count, line.sum)
                }),
                Some(Handle::Extrema(extrema)) => self.lines(extrema, true, |line| {
                    format!("{:?} 0 0 {} {}", line.key, line.min, line.max)
                }),
                None => continue,
            };
            assert_eq!(lines, Reply::Value(due));
        }
    }
}

fn run<E: Engine>(engine: E, policy: Policy, seed: u64) -> Run<E>
where
    E::Error: Debug,
{
    let mut run = Run::new(engine, policy, false, seed);
    (0..operations()).for_each(|_| run.step());
    run.compare_all();
    run
}

/// An engine with each fault in 3 of a hundred calls, without delays.
fn faulty(seed: u64) -> Faulty<Memory> {
    let kinds = Fault::ALL
        .iter()
        .filter(|fault| ![Fault::Delay, Fault::Lose].contains(fault));
    kinds.fold(Faulty::new(Memory::new(), seed), |engine, fault| {
        engine.with(*fault, 30)
    })
}

fn run_faulty(policy: Policy, seed: u64) {
    let mut run = Run::new(faulty(seed), policy, true, seed);
    (0..operations()).for_each(|_| run.step());
    assert!(run.faults > 0 || operations() < 1_000);
    assert!(run.table.stats().faults > 0 || operations() < 1_000);
    Fault::ALL
        .iter()
        .for_each(|fault| run.table.engine_mut().set(*fault, 0));
    run.compare_all();
}

#[test]
fn moved_by_hand() {
    run(Memory::new(), Policy::Manual, 1);
}

#[test]
fn moved_on_demand() {
    let mut run = run(Memory::new(), Policy::Demand, 2);
    assert!(run.table.stats().evictions > 0 || operations() < 1_000);
}

#[test]
fn moved_with_prefetches() {
    let mut run = run(Memory::new(), Policy::Prefetch, 3);
    assert!(run.table.stats().evictions > 0 || operations() < 1_000);
}

#[test]
fn moved_by_hand_over_faults() {
    run_faulty(Policy::Manual, 4);
}

#[test]
fn moved_on_demand_over_faults() {
    run_faulty(Policy::Demand, 5);
}

#[test]
fn moved_with_prefetches_over_faults() {
    run_faulty(Policy::Prefetch, 6);
}
