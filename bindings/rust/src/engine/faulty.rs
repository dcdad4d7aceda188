use std::error;
use std::fmt;
use std::thread;
use std::time::Duration;

use crate::Engine;

/// What a [`Faulty`] engine may do wrong.
///
/// ```
/// use fullercoral::{Fault, Faulty, Memory};
///
/// let engine = Fault::ALL.iter().fold(Faulty::new(Memory::new(), 1), |e, f| e.with(*f, 10));
/// # let _ = engine;
/// ```
#[derive(Debug, Clone, Copy, PartialEq, Eq, Hash)]
#[non_exhaustive]
pub enum Fault {
    /// A put or a get returns an error. The put may have been done or not.
    Fail,
    /// A put or a get takes a tenth of a millisecond.
    Delay,
    /// A put returns success and keeps nothing.
    Lose,
    /// A get returns the bytes with one bit flipped.
    Flip,
    /// A get returns a prefix of the bytes.
    Cut,
    /// A get returns the content of another number.
    Swap,
    /// A get returns a content that was replaced since.
    Old,
}

impl Fault {
    /// All of them.
    ///
    /// ```
    /// assert!(fullercoral::Fault::ALL.contains(&fullercoral::Fault::Flip));
    /// ```
    pub const ALL: [Fault; 7] = [
        Fault::Fail,
        Fault::Delay,
        Fault::Lose,
        Fault::Flip,
        Fault::Cut,
        Fault::Swap,
        Fault::Old,
    ];
}

/// An engine for tests, which injects faults into the calls of another one at random, by a seed.
///
/// A table over it returns errors, but never a wrong answer:
///
/// ```
/// use fullercoral::{Fault, Faulty, Limits, Memory, Schema, Table, row, totals};
///
/// let engine = Faulty::new(Memory::new(), 7).with(Fault::Flip, 500);
/// let mut table = Table::open(Schema::new().int("price"), Limits::new().group(1), engine)?;
/// let total = table.watch(totals("price"))?;
/// table.extend((0..100).map(|n| row![n]))?;
/// let mut faults = 0;
/// for place in 0..100 {
///     table.evict("price", place)?;
///     while table.fetch("price", place).is_err() {
///         faults += 1;
///     }
/// }
/// assert!(faults > 0);
/// assert_eq!(table.ask(total)?.next().unwrap().sum, 4950);
/// # Ok::<(), Box<dyn std::error::Error>>(())
/// ```
#[derive(Debug, Clone)]
pub struct Faulty<E> {
    engine: E,
    state: u64,
    rates: [u32; 7],
    kept: Vec<u64>,
    old: Vec<u64>,
    faults: u64,
}

impl<E> Faulty<E> {
    /// Wraps an engine, with no faults yet.
    ///
    /// ```
    /// use fullercoral::{Engine, Faulty, Memory};
    ///
    /// Faulty::new(Memory::new(), 1).put(0, b"bytes").unwrap();
    /// ```
    #[must_use]
    pub fn new(engine: E, seed: u64) -> Faulty<E> {
        Faulty {
            engine,
            state: seed,
            rates: [0; 7],
            kept: Vec::new(),
            old: Vec::new(),
            faults: 0,
        }
    }

    /// Injects a fault into `of_a_thousand` of a thousand calls.
    ///
    /// ```
    /// use fullercoral::{Engine, Fault, Faulty, Memory};
    ///
    /// let mut engine = Faulty::new(Memory::new(), 1).with(Fault::Fail, 1_000);
    /// assert!(engine.put(0, b"bytes").is_err());
    /// ```
    #[must_use]
    pub fn with(mut self, fault: Fault, of_a_thousand: u32) -> Faulty<E> {
        self.set(fault, of_a_thousand);
        self
    }

    /// Injects a fault into `of_a_thousand` of a thousand calls from now on.
    ///
    /// ```
    /// use fullercoral::{Engine, Fault, Faulty, Memory};
    ///
    /// let mut engine = Faulty::new(Memory::new(), 1).with(Fault::Fail, 1_000);
    /// engine.set(Fault::Fail, 0);
    /// engine.put(0, b"bytes").unwrap();
    /// ```
    pub fn set(&mut self, fault: Fault, of_a_thousand: u32) {
        self.rates[fault as usize] = of_a_thousand;
    }

    /// How many faults it injected, without delays.
    ///
    /// ```
    /// use fullercoral::{Engine, Fault, Faulty, Memory};
    ///
    /// let mut engine = Faulty::new(Memory::new(), 1).with(Fault::Fail, 1_000);
    /// let _ = engine.put(0, b"bytes");
    /// assert_eq!(engine.faults(), 1);
    /// ```
    #[must_use]
    pub fn faults(&self) -> u64 {
        self.faults
    }

    // The next number below `end`, by splitmix64.
    fn below(&mut self, end: usize) -> usize {
        self.state = self.state.wrapping_add(0x9e37_79b9_7f4a_7c15);
        let mut z = self.state;
        z = (z ^ (z >> 30)).wrapping_mul(0xbf58_476d_1ce4_e5b9);
        z = (z ^ (z >> 27)).wrapping_mul(0x94d0_49bb_1331_11eb);
        ((z ^ (z >> 31)) % end.max(1) as u64) as usize
    }

    // Whether this call has the fault.
    fn happens(&mut self, fault: Fault) -> bool {
        let happens = self.below(1_000) < self.rates[fault as usize] as usize;
        if happens && fault == Fault::Delay {
            thread::sleep(Duration::from_micros(100));
        } else if happens {
            self.faults += 1;
        }
        happens
    }

    fn one_of(&mut self, old: bool) -> Option<u64> {
        let len = if old { self.old.len() } else { self.kept.len() };
        let index = self.below(len);
        let numbers = if old { &self.old } else { &self.kept };
        numbers.get(index).copied()
    }

    // The number whose content a get of `number` returns.
    fn answered(&mut self, number: u64) -> u64 {
        if self.happens(Fault::Swap) {
            return self.one_of(false).unwrap_or(number);
        }
        if self.happens(Fault::Old) {
            return self.one_of(true).unwrap_or(number);
        }
        number
    }

    fn spoil(&mut self, buffer: &mut Vec<u8>) {
        if self.happens(Fault::Flip) && !buffer.is_empty() {
            let at = self.below(buffer.len());
            buffer[at] ^= 1 << self.below(8);
        }
        if self.happens(Fault::Cut) {
            let len = self.below(buffer.len());
            buffer.truncate(len);
        }
    }
}

impl<E: Engine> Engine for Faulty<E> {
    type Error = FaultyError<E::Error>;

    fn put(&mut self, number: u64, bytes: &[u8]) -> Result<(), Self::Error> {
        self.happens(Fault::Delay);
        let fails = self.happens(Fault::Fail);
        if fails && self.below(2) == 0 {
            return Err(FaultyError::Injected);
        }
        if !self.happens(Fault::Lose) {
            self.engine
                .put(number, bytes)
                .map_err(FaultyError::Engine)?;
            self.kept.push(number);
        }
        if fails {
            Err(FaultyError::Injected)
        } else {
            Ok(())
        }
    }

    fn get(&mut self, number: u64, buffer: &mut Vec<u8>) -> Result<(), Self::Error> {
        self.happens(Fault::Delay);
        if self.happens(Fault::Fail) {
            return Err(FaultyError::Injected);
        }
        let answered = self.answered(number);
        self.engine
            .get(answered, buffer)
            .map_err(FaultyError::Engine)?;
        self.spoil(buffer);
        Ok(())
    }

    /// Keeps the content for [`Fault::Old`].
    fn forget(&mut self, number: u64) {
        self.old.push(number);
    }
}

/// The error of a [`Faulty`] engine.
///
/// ```
/// use fullercoral::{Engine, Fault, Faulty, FaultyError, Memory};
///
/// let mut engine = Faulty::new(Memory::new(), 1).with(Fault::Fail, 1_000);
/// assert_eq!(engine.get(0, &mut Vec::new()), Err(FaultyError::Injected));
/// ```
#[derive(Debug, Clone, PartialEq, Eq)]
pub enum FaultyError<E> {
    /// An injected failure.
    Injected,
    /// The wrapped engine failed.
    Engine(E),
}

impl<E: fmt::Display> fmt::Display for FaultyError<E> {
    fn fmt(&self, f: &mut fmt::Formatter<'_>) -> fmt::Result {
        match self {
            FaultyError::Injected => f.write_str("an injected failure"),
            FaultyError::Engine(error) => error.fmt(f),
        }
    }
}

impl<E: error::Error + 'static> error::Error for FaultyError<E> {
    fn source(&self) -> Option<&(dyn error::Error + 'static)> {
        match self {
            FaultyError::Injected => None,
            FaultyError::Engine(error) => Some(error),
        }
    }
}

#[cfg(test)]
mod tests {
    use super::*;
    use crate::Memory;

    /// An engine that always has this fault, with contents 0 to 9, of which 5 is forgotten.
    fn always(fault: Fault) -> Faulty<Memory> {
        let mut engine = Faulty::new(Memory::new(), 1);
        (0..10).for_each(|number| engine.put(number, &[number as u8; 20]).unwrap());
        engine.forget(5);
        engine.with(fault, 1_000)
    }

    fn got(engine: &mut Faulty<Memory>, number: u64) -> Vec<u8> {
        let mut buffer = Vec::new();
        engine.get(number, &mut buffer).unwrap();
        buffer
    }

    #[test]
    fn each_fault_does_what_it_says() {
        let right = vec![3; 20];
        let mut engine = always(Fault::Fail);
        assert_eq!(engine.put(10, b""), Err(FaultyError::Injected));
        assert_eq!(engine.get(3, &mut Vec::new()), Err(FaultyError::Injected));
        assert_eq!(got(&mut always(Fault::Delay), 3), right);
        let mut engine = always(Fault::Lose);
        engine.put(10, &right).unwrap();
        assert_eq!(got(&mut engine, 10), []);
        let flipped = got(&mut always(Fault::Flip), 3);
        let bits = flipped
            .iter()
            .zip(&right)
            .map(|(a, b)| (a ^ b).count_ones());
        assert_eq!((flipped.len(), bits.sum::<u32>()), (20, 1));
        let cut = got(&mut always(Fault::Cut), 3);
        assert!(cut.len() < 20 && right.starts_with(&cut));
        let mut engine = always(Fault::Swap);
        assert!((0..10).any(|_| got(&mut engine, 3) != right));
        assert_eq!(got(&mut always(Fault::Old), 3), [5; 20]);
    }
}
