//! A table of eight times its local memory, over files and over a server.

use std::env;
use std::time::Duration;

use fullercoral::{Engine, Files, Kind, Limits, Resp, Stats};

use crate::clock::Clock;
use crate::plain::What;
use crate::program::{Batch, Digest, Program};
use crate::random::Random;
use crate::tables::{self, Far};
use crate::work::spec;

/// The local memory, and the number of rows. Each has two numbers, 32 bytes.
const LOCAL: usize = 32 << 20;
const ROWS: u32 = 8 << 20;
const SETS: u32 = 1_000;

fn batch(random: &mut Random, batch: &mut Batch, rows: u32) {
    batch.ints.resize(2, Vec::new());
    batch.ints.iter_mut().for_each(Vec::clear);
    for _ in 0..rows {
        batch.ints[0].push(i64::from(random.below(1_000)) - 500);
        batch.ints[1].push(i64::from(random.below(100)));
    }
}

fn fill(mut load: impl FnMut(&Batch)) {
    let (mut random, mut rows) = (Random(20), Batch::default());
    for _ in 0..ROWS / 65_536 {
        batch(&mut random, &mut rows, 65_536);
        load(&rows);
    }
}

fn over<E: Engine>(engine: E, clock: &mut Clock, digest: &mut Digest) -> Stats {
    let limits = Limits::new().local_memory(LOCAL);
    let mut far = Far::over(engine, &[Kind::Int, Kind::Int], limits);
    clock.start();
    let by_key = tables::watch(&mut far, &spec(What::Totals, Some(1), &[]));
    fill(|rows| tables::load(&mut far.table, rows));
    tables::ask(&mut far, by_key, digest);
    let mut random = Random(21);
    for _ in 0..SETS {
        tables::set(
            &mut far,
            0,
            random.below(ROWS),
            i64::from(random.below(1_000)),
        );
    }
    let ends = tables::watch(&mut far, &spec(What::Extrema, None, &[]));
    tables::ask(&mut far, by_key, digest);
    tables::ask(&mut far, ends, digest);
    clock.stop();
    far.table.stats()
}

/// The same rows and edits in a plain table, which keeps all rows in memory.
pub fn plain<P: Program>(_: u32, clock: &mut Clock, digest: &mut Digest) {
    let mut program = P::open(&[Kind::Int, Kind::Int], 4_096);
    clock.start();
    let by_key = program.watch(&spec(What::Totals, Some(1), &[]));
    fill(|rows| program.load(rows));
    program.ask(by_key, digest);
    let mut random = Random(21);
    for _ in 0..SETS {
        program.set(0, random.below(ROWS), i64::from(random.below(1_000)));
    }
    let ends = program.watch(&spec(What::Extrema, None, &[]));
    program.ask(by_key, digest);
    program.ask(ends, digest);
    clock.stop();
}

pub fn files(_: u32, clock: &mut Clock, digest: &mut Digest) {
    match Files::create(env::temp_dir()) {
        Ok(engine) => say(over(engine, clock, digest)),
        Err(error) => panic!("no folder: {error}"),
    }
}

/// The table over the server that `FULLERCORAL_REDIS` names.
pub fn redis(_: u32, clock: &mut Clock, digest: &mut Digest) {
    let address = env::var("FULLERCORAL_REDIS").unwrap_or_default();
    match Resp::connect(address, "bench", Duration::from_secs(10)) {
        Ok(engine) => say(over(engine, clock, digest)),
        Err(error) => panic!("no server: {error}"),
    }
}

fn say(stats: Stats) {
    eprintln!("{stats:?}");
}
