//! Threads that share one table: sessions that edit it, and movers that evict and fetch:
//! `history [--seed SEED] [--sessions N] [--edits N]`.
//!
//! The table is under a lock, as in the crate's documentation. Each session makes N edits of any row, and
//! reads and asks between them. Meanwhile movers evict, fetch, build and pin, in phases: they call the
//! far side without the lock of the table. The seed draws the policy, the limits, the faults of the far
//! side, and all calls; the machine decides their order.
//!
//! The program prints the history: a line of tab-separated fields for each call of a session, in the
//! order in which they had the lock. The fields are the session, three readings of one clock (before,
//! under and after the lock), the call and its reply, as in a script of `farframe`. The reading under the
//! lock orders the calls; `tests/random-threads` replays them in that order on a plain table. Lines
//! `moved WHAT REPLY COUNT` follow, with the replies that the movers got.

use std::collections::BTreeMap;
use std::io::{self, BufWriter, Write};
use std::process::ExitCode;
use std::sync::atomic::{AtomicU32, Ordering};
use std::{env, thread};

mod log;
mod movers;
#[path = "../../plain/random.rs"]
mod random;
mod sessions;
mod setup;

use log::{Event, Log, Moves};
use movers::Mover;
use sessions::Session;
use setup::{Setup, Shared};

struct Wanted {
    seed: u64,
    sessions: u32,
    edits: u32,
}

impl Wanted {
    fn of_arguments() -> Option<Wanted> {
        let mut wanted = Wanted {
            seed: 0,
            sessions: 4,
            edits: 10_000,
        };
        let mut words = env::args().skip(1);
        while let Some(word) = words.next() {
            let value = words.next()?;
            match word.as_str() {
                "--seed" => wanted.seed = value.parse().ok()?,
                "--sessions" => wanted.sessions = value.parse().ok()?,
                "--edits" => wanted.edits = value.parse().ok()?,
                _ => return None,
            }
        }
        Some(wanted)
    }
}

/// Runs all threads. Returns the logs of the sessions, and of one more that reads all rows at the end.
fn run(setup: &Setup, shared: &Shared, wanted: &Wanted) -> Vec<Log> {
    let at_work = AtomicU32::new(wanted.sessions);
    let mut logs = thread::scope(|scope| {
        let sessions: Vec<_> = (0..wanted.sessions)
            .map(|number| {
                let at_work = &at_work;
                scope.spawn(move || {
                    let log = Session::new(number, setup, shared).run(wanted.edits);
                    at_work.fetch_sub(1, Ordering::Relaxed);
                    log
                })
            })
            .collect();
        let movers: Vec<_> = (0..setup.movers)
            .map(|number| {
                let (number, at_work) = (wanted.sessions + number, &at_work);
                scope.spawn(move || Mover::new(number, setup, shared).run(at_work))
            })
            .collect();
        let all = sessions.into_iter().chain(movers);
        all.map(|thread| thread.join().expect("no thread panics"))
            .collect::<Vec<Log>>()
    });
    let number = logs.len() as u32;
    logs.push(Session::new(number, setup, shared).look_at_all());
    logs
}

fn print(logs: Vec<Log>) -> io::Result<()> {
    let (mut events, mut moves) = (Vec::<Event>::new(), Moves::new());
    for log in logs {
        events.extend(log.events);
        for (of, count) in log.moves {
            *moves.entry(of).or_default() += count;
        }
    }
    events.sort_by_key(|event| event.at);
    let mut out = BufWriter::new(io::stdout().lock());
    for event in events {
        writeln!(out, "{event}")?;
    }
    for ((what, reply), count) in BTreeMap::from_iter(moves) {
        writeln!(out, "moved\t{what}\t{reply}\t{count}")?;
    }
    out.flush()
}

fn main() -> ExitCode {
    let Some(wanted) = Wanted::of_arguments() else {
        eprintln!("usage: history [--seed SEED] [--sessions N] [--edits N]");
        return ExitCode::from(2);
    };
    let setup = Setup::draw(wanted.seed);
    println!("setup\t{setup}");
    let shared = Shared::open(&setup);
    match print(run(&setup, &shared, &wanted)) {
        Ok(()) => ExitCode::SUCCESS,
        Err(_) => ExitCode::from(3),
    }
}
