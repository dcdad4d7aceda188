//! Sessions: threads that edit, read and ask.

use std::sync::atomic::Ordering;

use fullercoral::{Aggregate, Cell, Error, ExtremaLine, Key, Lines, Policy, Refusal, TotalsLine};

use crate::log::{Log, told};
use crate::movers::Mover;
use crate::random::Random;
use crate::setup::{Failure, Setup, Shared, Watched};

/// Cells of the column of texts.
const WORDS: [&str; 8] = [
    "fig",
    "pear",
    "plum",
    "quince",
    "é",
    "p",
    "plu",
    "date of a palm",
];
/// How often a call is tried.
const MOST_TRIES: u32 = 10_000;
/// How many objects a session evicts when local memory is full.
const EVICTED_AT_ONCE: u32 = 8;

/// Formats a cell as in a script.
fn cell_told(cell: Cell<'_>) -> String {
    match cell {
        Cell::Missing => "\\N".to_owned(),
        cell => cell.to_string(),
    }
}

fn row_told(cells: &[Cell<'_>]) -> String {
    let cells: Vec<String> = cells.iter().map(|cell| cell_told(*cell)).collect();
    cells.join(",")
}

// Formats an answer in one line.
fn answer_told<'a, A: Aggregate>(
    lines: Lines<'a, A>,
    told: impl Fn(A::Line<'a>) -> String,
) -> String {
    let lines: Vec<String> = lines.map(told).collect();
    if lines.is_empty() {
        return "none".to_owned();
    }
    lines.join("; ")
}

// The key before a line of an answer, if there is one.
fn key_told(key: Key<'_>) -> String {
    match key {
        Key::None => String::new(),
        key => format!("{key} "),
    }
}

fn totals_told(line: TotalsLine<'_>) -> String {
    let key = key_told(line.key);
    format!("{key}count {} sum {}", line.count, line.sum)
}

fn extrema_told(line: ExtremaLine<'_>) -> String {
    let key = key_told(line.key);
    format!("{key}min {} max {}", line.min, line.max)
}

impl Log {
    /// Asks an aggregate, by its name in the history, or recounts it.
    pub fn ask(
        &mut self,
        shared: &Shared,
        name: &str,
        of: Watched,
        anew: bool,
    ) -> Result<(), Failure> {
        let call = format!("{} {name}", if anew { "recount" } else { "ask" });
        self.call(shared, call, |table| {
            let reply = match (of, anew) {
                (Watched::Totals(of), false) => answer_told(table.ask(of)?, totals_told),
                (Watched::Totals(of), true) => answer_told(table.recount(of)?, totals_told),
                (Watched::Extrema(of), false) => answer_told(table.ask(of)?, extrema_told),
                (Watched::Extrema(of), true) => answer_told(table.recount(of)?, extrema_told),
            };
            Ok(((), reply))
        })
    }

    fn row(&mut self, shared: &Shared, place: u32) -> Result<(), Failure> {
        self.call(shared, format!("row {place}"), |table| {
            let row = table.row(place)?;
            let cells: Vec<Cell<'_>> = row.iter().collect();
            let mark = if row.is_alive() { '+' } else { '-' };
            Ok(((), format!("{mark} {}", row_told(&cells))))
        })
    }
}

/// A session.
pub struct Session<'t> {
    number: u32,
    random: Random,
    shared: &'t Shared,
    /// It moves objects too, since the movers run seldom on a busy machine.
    mover: Mover<'t>,
    log: Log,
}

impl<'t> Session<'t> {
    pub fn new(number: u32, setup: &Setup, shared: &'t Shared) -> Session<'t> {
        Session {
            number,
            random: Random(setup.seed.wrapping_mul(5) ^ u64::from(number) << 40),
            shared,
            mover: Mover::new(number, setup, shared),
            log: Log::new(number),
        }
    }

    /// Makes `edits` edits, with reads and asks between them.
    pub fn run(mut self, edits: u32) -> Log {
        let mut made = 0;
        while made < edits {
            if self.random.one_in(10) {
                self.mover.step(&mut self.log);
            }
            match self.random.below(100) {
                0..12 => self.read(),
                12..15 => self.ask(),
                _ => made += u32::from(self.edit()),
            }
        }
        self.log
    }

    /// Reads all rows, and asks and recounts all aggregates, after all other threads have ended.
    pub fn look_at_all(mut self) -> Log {
        self.shared.table().set_policy(Policy::Demand);
        self.shared.behave();
        let places = self.shared.table().places();
        for place in 0..places {
            self.persist(|me| me.log.row(me.shared, place));
        }
        for number in 0..self.shared.watched.len() {
            self.persist(|me| me.ask_one(number, false));
            self.persist(|me| me.ask_one(number, true));
        }
        self.log
    }

    // Repeats a call while it fails for a reason that may pass, and makes space for it. Returns whether it
    // succeeded.
    fn persist(&mut self, mut call: impl FnMut(&mut Self) -> Result<(), Failure>) -> bool {
        let mut last = None;
        for _ in 0..MOST_TRIES {
            let replied = call(self);
            last = replied.as_ref().err().map(told);
            match replied {
                Ok(()) => return true,
                Err(Error::Refused(Refusal::Absent { column, group })) => {
                    let column = ["who", "n", "word"].iter().position(|it| *it == &*column);
                    let fetched = self.shared.fetch(column.unwrap_or(0), group);
                    self.log.moved("fetch", &fetched);
                    if matches!(fetched, Err(Error::Refused(Refusal::RegionFull))) {
                        self.make_space();
                    }
                }
                Err(Error::Refused(Refusal::RegionFull)) => self.make_space(),
                Err(Error::Refused(Refusal::FarFault { .. }) | Error::Engine(_)) => {}
                Err(_) => return false,
            }
        }
        panic!("session {} gave up: {last:?}", self.number);
    }

    // With `Policy::Manual` nobody else closes the gaps of evicted objects. Closing many costs as much as
    // closing one, so this evicts several first.
    fn make_space(&mut self) {
        for _ in 0..EVICTED_AT_ONCE {
            let evicted = self.shared.evict(None);
            self.log.moved("evict the coldest", &evicted);
        }
        self.shared.table().compact();
    }

    // A random place: mostly one of the last, sometimes one that may not exist yet.
    fn place(&mut self) -> u32 {
        let places = self.shared.places.load(Ordering::Relaxed);
        match self.random.below(40) {
            0 => places + self.random.below(3),
            1..25 => places.saturating_sub(1 + self.random.below(300)),
            _ => self.random.below(places),
        }
    }

    fn number_cell(&mut self) -> Cell<'static> {
        if self.random.one_in(9) {
            return Cell::Missing;
        }
        Cell::Int(i64::from(self.random.below(81)) - 40)
    }

    fn word_cell(&mut self) -> Cell<'static> {
        if self.random.one_in(9) {
            return Cell::Missing;
        }
        Cell::Text(self.random.pick(&WORDS))
    }

    // Makes an edit. Returns whether it was accepted: it is refused if its row does not exist yet or was
    // removed.
    fn edit(&mut self) -> bool {
        match self.random.below(100) {
            0..55 => self.insert(),
            55..90 => self.set(),
            _ => self.remove(),
        }
    }

    fn insert(&mut self) -> bool {
        let row = [
            Cell::Int(i64::from(self.number)),
            self.number_cell(),
            self.word_cell(),
        ];
        let call = format!("insert {}", row_told(&row));
        self.persist(|me| {
            let place = me.log.call(me.shared, call.clone(), |table| {
                let place = table.insert(row)?;
                Ok((place, format!("place {place}")))
            })?;
            me.shared.places.fetch_max(place + 1, Ordering::Relaxed);
            Ok(())
        })
    }

    fn set(&mut self) -> bool {
        let (place, column) = (self.place(), self.random.below(3) as usize);
        let cell = match column {
            0 => Cell::Int(i64::from(self.number)),
            1 => self.number_cell(),
            _ => self.word_cell(),
        };
        let call = format!("set {place} {column} {}", cell_told(cell));
        self.persist(|me| {
            me.log.call(me.shared, call.clone(), |table| {
                Ok((table.set(column, place, cell)?, "ok".to_owned()))
            })
        })
    }

    fn remove(&mut self) -> bool {
        let place = self.place();
        self.persist(|me| {
            me.log.call(me.shared, format!("remove {place}"), |table| {
                Ok((table.remove(place)?, "ok".to_owned()))
            })
        })
    }

    fn read(&mut self) {
        let place = self.place();
        self.persist(|me| me.log.row(me.shared, place));
    }

    fn ask(&mut self) {
        let number = self.random.below(self.shared.watched.len() as u32) as usize;
        if self.random.one_in(50) {
            // (a recount reads all objects that are away, so over a failing far side it may never succeed)
            let _ = self.ask_one(number, true);
        } else {
            self.persist(|me| me.ask_one(number, false));
        }
    }

    fn ask_one(&mut self, number: usize, anew: bool) -> Result<(), Failure> {
        let of = self.shared.watched[number];
        self.log.ask(self.shared, &number.to_string(), of, anew)
    }
}
