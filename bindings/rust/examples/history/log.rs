//! The log of a thread: its calls and their replies.

use std::collections::HashMap;
use std::fmt;

use fullercoral::{Error, Table};

use crate::setup::{Failure, Far, Shared};

/// How often movers got each reply to each call.
pub type Moves = HashMap<(&'static str, String), u64>;

/// A call of a session, with three readings of the clock: before, under and after the lock.
pub struct Event {
    pub session: u32,
    pub begun: u64,
    pub at: u64,
    pub ended: u64,
    pub call: String,
    pub reply: String,
}

impl fmt::Display for Event {
    fn fmt(&self, f: &mut fmt::Formatter<'_>) -> fmt::Result {
        let (session, begun, at, ended) = (self.session, self.begun, self.at, self.ended);
        let (call, reply) = (&self.call, &self.reply);
        write!(f, "{session}\t{begun}\t{at}\t{ended}\t{call}\t{reply}")
    }
}

/// The log of a thread.
pub struct Log {
    session: u32,
    pub events: Vec<Event>,
    pub moves: Moves,
}

impl Log {
    pub fn new(session: u32) -> Log {
        Log {
            session,
            events: Vec::new(),
            moves: Moves::new(),
        }
    }

    /// Makes a call under the table's lock, and logs it. `work` returns the reply.
    pub fn call<T>(
        &mut self,
        shared: &Shared,
        call: String,
        work: impl FnOnce(&mut Table<Far>) -> Result<(T, String), Failure>,
    ) -> Result<T, Failure> {
        let begun = shared.now();
        let mut table = shared.table();
        let at = shared.now();
        let replied = work(&mut table);
        drop(table);
        let ended = shared.now();
        let (reply, result) = match replied {
            Ok((value, reply)) => (reply, Ok(value)),
            Err(failure) => (told(&failure), Err(failure)),
        };
        self.events.push(Event {
            session: self.session,
            begun,
            at,
            ended,
            call,
            reply,
        });
        result
    }

    /// Counts the reply that a mover got.
    pub fn moved<T>(&mut self, what: &'static str, result: &Result<T, Failure>) {
        let reply = match result {
            Ok(_) => "ok".to_owned(),
            Err(failure) => told(failure),
        };
        *self.moves.entry((what, reply)).or_default() += 1;
    }
}

/// A failure as a reply: the number of a refusal.
pub fn told(failure: &Failure) -> String {
    match failure {
        Error::Refused(refusal) => format!("refused {}", refusal.number()),
        _ => "failed".to_owned(),
    }
}
