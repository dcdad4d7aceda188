//! A simulator of the far side: `simulator [--seeds N] [--first SEED] [--threads N] [--counts yes] [--record FILE]`.
//!
//! Each seed draws a table, calls of every kind, and a far side that fails, is late, loses, cuts and
//! mixes up contents, goes away and comes back. After each call the simulator compares its reply, with
//! the number of a refusal, and all objects with those of a plain table; at the end, all rows and answers.
//!
//! For a seed that fails it prints a whole program that repeats the failure, with as few calls as it
//! found. --counts prints how often each call got each reply. --record adds a line of CSV to a file: the
//! target, the seeds, the calls, the seconds, and the failed seeds. The last line is
//! `N seeds, C calls, M failed, S seeds a second`.

use std::fs::OpenOptions;
use std::io::{IsTerminal, Write};
use std::process::ExitCode;
use std::sync::atomic::{AtomicU64, Ordering};
use std::sync::{Mutex, MutexGuard, PoisonError};
use std::time::{Duration, Instant};
use std::{env, io, panic, thread};

mod call;
mod draw;
mod model;
#[path = "../../plain/owned.rs"]
mod owned;
mod program;
#[path = "../../plain/random.rs"]
mod random;
// (some of it is only for programs that repeat a seed)
#[allow(dead_code)]
mod repeat;
mod seed;
mod world;

use seed::Replies;

/// How many failed seeds get their program printed.
const PRINTED: usize = 3;

struct Wanted {
    seeds: u64,
    first: u64,
    threads: u64,
    counts: bool,
    record: Option<String>,
}

impl Wanted {
    fn of_arguments() -> Option<Wanted> {
        let threads = thread::available_parallelism().map_or(1, |all| all.get() as u64);
        let mut wanted = Wanted {
            seeds: 10_000,
            first: 0,
            threads,
            counts: false,
            record: None,
        };
        let mut words = env::args().skip(1);
        while let Some(word) = words.next() {
            let value = words.next()?;
            match word.as_str() {
                "--seeds" => wanted.seeds = value.parse().ok()?,
                "--first" => wanted.first = value.parse().ok()?,
                "--threads" => wanted.threads = value.parse().ok()?,
                "--counts" => wanted.counts = value == "yes",
                "--record" => wanted.record = Some(value),
                _ => return None,
            }
        }
        Some(wanted)
    }
}

#[derive(Default)]
struct Progress {
    next: AtomicU64,
    done: AtomicU64,
    calls: AtomicU64,
    replies: Mutex<Replies>,
    failed: Mutex<usize>,
}

impl Progress {
    // Runs seeds until there is none left.
    fn work(&self, wanted: &Wanted) {
        loop {
            let index = self.next.fetch_add(1, Ordering::Relaxed);
            if index >= wanted.seeds {
                return;
            }
            let seed = wanted.first + index;
            let outcome = seed::run(seed);
            self.calls.fetch_add(outcome.calls, Ordering::Relaxed);
            if wanted.counts {
                let mut replies = self.replies();
                for (reply, count) in outcome.replies {
                    *replies.entry(reply).or_default() += count;
                }
            }
            if let Some(program) = outcome.program {
                self.tell(seed, &program);
            }
            self.done.fetch_add(1, Ordering::Relaxed);
        }
    }

    // Prints the program of a failed seed, unless too many failed before.
    fn tell(&self, seed: u64, program: &str) {
        let mut failed = self.failures();
        *failed += 1;
        println!("// seed {seed} fails");
        if *failed <= PRINTED {
            println!("{program}");
        }
    }

    fn failures(&self) -> MutexGuard<'_, usize> {
        self.failed.lock().unwrap_or_else(PoisonError::into_inner)
    }

    fn replies(&self) -> MutexGuard<'_, Replies> {
        self.replies.lock().unwrap_or_else(PoisonError::into_inner)
    }

    // Shows the progress until all seeds are done.
    fn show(&self, wanted: &Wanted, begun: Instant) {
        let is_shown = io::stderr().is_terminal();
        while self.done.load(Ordering::Relaxed) < wanted.seeds {
            thread::sleep(Duration::from_millis(20));
            if is_shown {
                self.draw_bar(wanted, begun);
            }
        }
        if is_shown {
            eprintln!();
        }
    }

    fn draw_bar(&self, wanted: &Wanted, begun: Instant) {
        let done = self.done.load(Ordering::Relaxed);
        let full = (done * 40 / wanted.seeds.max(1)) as usize;
        let bar = "#".repeat(full) + &".".repeat(40 - full.min(40));
        let pace = done as f64 / begun.elapsed().as_secs_f64();
        let failed = *self.failures();
        eprint!(
            "\r[{bar}] {done} of {} seeds, {pace:.0} a second, {failed} failed ",
            wanted.seeds
        );
    }
}

fn record(file: &str, wanted: &Wanted, calls: u64, seconds: f64, failed: usize) -> io::Result<()> {
    let mut file = OpenOptions::new().create(true).append(true).open(file)?;
    let seeds = wanted.seeds;
    writeln!(file, "simulator,{seeds},{calls},{seconds:.0},{failed}")
}

fn main() -> ExitCode {
    let Some(wanted) = Wanted::of_arguments() else {
        eprintln!(
            "usage: simulator [--seeds N] [--first SEED] [--threads N] [--counts yes] [--record FILE]"
        );
        return ExitCode::from(2);
    };
    // (a seed may find a panic: the simulator catches it and prints the seed's program)
    panic::set_hook(Box::new(|_| {}));
    let (progress, begun) = (Progress::default(), Instant::now());
    thread::scope(|scope| {
        (0..wanted.threads.max(1)).for_each(|_| drop(scope.spawn(|| progress.work(&wanted))));
        progress.show(&wanted, begun);
    });
    let seconds = begun.elapsed().as_secs_f64();
    let failed = *progress.failures();
    for ((call, reply), count) in &*progress.replies() {
        println!("{count:9} {call}: {reply}");
    }
    let calls = progress.calls.load(Ordering::Relaxed);
    if let Some(file) = &wanted.record {
        if let Err(error) = record(file, &wanted, calls, seconds, failed) {
            eprintln!("{file}: {error}");
        }
    }
    let (seeds, pace) = (wanted.seeds, wanted.seeds as f64 / seconds);
    println!("{seeds} seeds, {calls} calls, {failed} failed, {pace:.0} seeds a second");
    ExitCode::from(u8::from(failed > 0))
}
