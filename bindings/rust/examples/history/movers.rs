//! Movement in phases, and the threads that only move objects.

use std::sync::Arc;
use std::sync::atomic::{AtomicU32, Ordering};
use std::thread;

use fullercoral::{Error, totals};

use crate::log::Log;
use crate::random::Random;
use crate::setup::{Failure, Setup, Shared, Watched};

/// The number of columns.
pub const COLUMNS: u32 = 3;

impl Shared {
    /// Evicts an object, or the coldest.
    pub fn evict(&self, object: Option<(usize, u32)>) -> Result<(), Failure> {
        let mut far = Arc::clone(&self.far);
        let begun = match object {
            Some((column, group)) => self.table().begin_evict(column, group).map(Some),
            None => self.table().begin_evict_coldest(),
        };
        let Some(outgoing) = begun? else {
            return Ok(());
        };
        let stored = outgoing.put(&mut far).map_err(Error::Engine)?;
        self.table().commit(stored)
    }

    /// Fetches an object.
    pub fn fetch(&self, column: usize, group: u32) -> Result<(), Failure> {
        let mut far = Arc::clone(&self.far);
        let mut incoming = self.table().begin_fetch(column, group)?;
        incoming.get(&mut far).map_err(Error::Engine)?;
        self.table().install(incoming)
    }

    // Builds a row group into an aggregate, from far copies.
    fn build(&self, of: fullercoral::Totals, group: u32) -> Result<(), Failure> {
        let mut far = Arc::clone(&self.far);
        let mut incoming = self.table().begin_build(of, group)?;
        incoming.get(&mut far).map_err(Error::Engine)?;
        self.table().install(incoming)
    }
}

/// Moves objects: between the edits of a session, or as a thread of its own while sessions work.
pub struct Mover<'t> {
    number: u32,
    /// How many aggregates it registered.
    followed: u32,
    random: Random,
    shared: &'t Shared,
}

impl<'t> Mover<'t> {
    pub fn new(number: u32, setup: &Setup, shared: &'t Shared) -> Mover<'t> {
        Mover {
            number,
            followed: 0,
            random: Random(setup.seed ^ u64::from(number) << 32),
            shared,
        }
    }

    pub fn run(mut self, at_work: &AtomicU32) -> Log {
        let mut log = Log::new(self.number);
        while at_work.load(Ordering::Relaxed) > 0 {
            self.step(&mut log);
            thread::yield_now();
        }
        log
    }

    // A random object, if there is one.
    fn object(&mut self) -> Option<(usize, u32)> {
        let groups = self.shared.table().groups();
        (groups > 0).then(|| {
            let column = self.random.below(COLUMNS) as usize;
            (column, self.random.below(groups))
        })
    }

    /// Makes one random move, of one or more objects.
    pub fn step(&mut self, log: &mut Log) {
        let Some((column, group)) = self.object() else {
            return;
        };
        let shared = self.shared;
        match self.random.below(200) {
            0 => self.follow_anew(log),
            1 => {
                let renewed = shared.table().migrate();
                log.moved("renew", &renewed);
            }
            2..12 => self.pin(log, column, group),
            12..100 => log.moved("evict the coldest", &shared.evict(None)),
            100..150 => {
                let evicted = shared.evict(Some((column, group)));
                log.moved("evict", &evicted);
            }
            _ => log.moved("fetch", &shared.fetch(column, group)),
        }
    }

    // Pins an object while other threads run.
    fn pin(&mut self, log: &mut Log, column: usize, group: u32) {
        let pinned = self.shared.table().pin(column, group).map(|it| it.keep());
        log.moved("pin", &pinned);
        if pinned.is_ok() {
            (0..4).for_each(|_| thread::yield_now());
            let unpinned = self.shared.table().unpin(column, group);
            log.moved("unpin", &unpinned);
        }
    }

    // Registers an aggregate over existing rows, builds pending row groups, asks and forgets it.
    fn follow_anew(&mut self, log: &mut Log) {
        let shared = self.shared;
        self.followed += 1;
        let name = format!("{}-{}", self.number, self.followed);
        let call = format!("watch {name} totals 1 by 2");
        let watched = log.call(shared, call, |table| {
            Ok((table.watch(totals("n").by("word"))?, "ok".to_owned()))
        });
        let Ok(of) = watched else {
            return;
        };
        // (the loop does not hold the lock)
        let groups = shared.table().groups();
        for group in 0..groups {
            let mut built = shared.build(of, group);
            log.moved("build", &built);
            if built.is_err() {
                built = shared.table().scan(of, group);
                log.moved("scan", &built);
            }
        }
        let _ = log.ask(shared, &name, Watched::Totals(of), false);
        let _ = log.call(shared, format!("unwatch {name}"), |table| {
            Ok((table.unwatch(of)?, "ok".to_owned()))
        });
    }
}
