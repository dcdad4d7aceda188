//! The setup that a seed draws, and the table that threads share.

use std::convert::Infallible;
use std::fmt;
use std::sync::atomic::{AtomicU32, AtomicU64, Ordering};
use std::sync::{Arc, Mutex, MutexGuard, PoisonError};

use fullercoral::{
    Error, Extrema, Fault, Faulty, FaultyError, Limits, Memory, Op, Policy, Schema, Table, Totals,
    extrema, totals,
};

use crate::random::Random;

/// The far side, which movers call without the lock of the table.
pub type Far = Arc<Mutex<Faulty<Memory>>>;

/// Why a call failed.
pub type Failure = Error<FaultyError<Infallible>>;

/// An aggregate of either kind.
#[derive(Clone, Copy)]
pub enum Watched {
    Totals(Totals),
    Extrema(Extrema),
}

/// The setup that a seed draws.
#[derive(Clone)]
pub struct Setup {
    pub seed: u64,
    pub policy: Policy,
    pub group: u32,
    pub local_memory: usize,
    pub movers: u32,
    /// In how many of a thousand calls the far side fails, flips a bit of a content, or is slow.
    pub faults: [(Fault, u32); 3],
}

impl Setup {
    pub fn draw(seed: u64) -> Setup {
        let mut random = Random(seed);
        let policies = [Policy::Manual, Policy::Demand, Policy::Prefetch];
        let is_right = random.one_in(2);
        let rate = |random: &mut Random| if is_right { 0 } else { random.below(10) };
        Setup {
            seed,
            policy: random.pick(&policies),
            group: random.pick(&[16, 32, 64, 256]),
            local_memory: random.pick(&[160 << 10, 256 << 10, 512 << 10]),
            movers: random.within(1, 3),
            faults: [
                (Fault::Fail, rate(&mut random)),
                (Fault::Flip, rate(&mut random)),
                (Fault::Delay, random.pick(&[0, 0, 20])),
            ],
        }
    }

    /// Whether calls may fail because the far side fails.
    pub fn may_fail(&self) -> bool {
        self.faults[..2].iter().any(|(_, rate)| *rate > 0)
    }
}

impl fmt::Display for Setup {
    fn fmt(&self, f: &mut fmt::Formatter<'_>) -> fmt::Result {
        let far = if self.may_fail() { "faulty" } else { "right" };
        write!(
            f,
            "{:?}\t{far}\tgroup {} local {} movers {} faults {:?}",
            self.policy, self.group, self.local_memory, self.movers, self.faults
        )
    }
}

/// The table and the far side that it shares with the movers, and the clock of all threads.
pub struct Shared {
    table: Mutex<Table<Far>>,
    pub far: Far,
    pub watched: Vec<Watched>,
    clock: AtomicU64,
    /// A lower bound of the number of places.
    pub places: AtomicU32,
}

impl Shared {
    pub fn open(setup: &Setup) -> Shared {
        let mut engine = Faulty::new(Memory::new(), setup.seed);
        for (fault, rate) in setup.faults {
            engine.set(fault, rate);
        }
        let far = Arc::new(Mutex::new(engine));
        let limits = Limits::new()
            .group(setup.group)
            .local_memory(setup.local_memory);
        let schema = Schema::new().int("who").int("n").text("word");
        let mut table =
            Table::open(schema, limits, Arc::clone(&far)).expect("the limits are valid");
        table.set_policy(setup.policy);
        let watched = watch_all(&mut table).expect("they are few");
        Shared {
            table: Mutex::new(table),
            far,
            watched,
            clock: AtomicU64::new(0),
            places: AtomicU32::new(0),
        }
    }

    /// The table, under its lock.
    pub fn table(&self) -> MutexGuard<'_, Table<Far>> {
        self.table.lock().unwrap_or_else(PoisonError::into_inner)
    }

    /// Stops all faults of the far side.
    pub fn behave(&self) {
        let mut far = self.far.lock().unwrap_or_else(PoisonError::into_inner);
        Fault::ALL.iter().for_each(|fault| far.set(*fault, 0));
    }

    /// The next reading of the clock.
    pub fn now(&self) -> u64 {
        self.clock.fetch_add(1, Ordering::SeqCst)
    }
}

// The checker has the same list, in the words of scripts.
fn watch_all(table: &mut Table<Far>) -> Result<Vec<Watched>, Failure> {
    Ok(vec![
        Watched::Totals(table.watch(totals("n"))?),
        Watched::Totals(table.watch(totals("n").by("who"))?),
        Watched::Extrema(table.watch(extrema("n").by("who"))?),
        Watched::Totals(table.watch(totals("n").by("word").only("n", Op::Gt, 0))?),
        Watched::Extrema(table.watch(extrema("n").by("word").only("who", Op::Ne, 1))?),
    ])
}
