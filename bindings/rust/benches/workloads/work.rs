//! The workloads of docs/PERFORMANCE.md, as calls.

use fullercoral::{Cell, Kind, Op};

use crate::clock::Clock;
use crate::plain::{PlainSpec, Test, What};
use crate::program::{Batch, Digest, Program};
use crate::random::Random;

/// The rows of a row group, unless a workload says otherwise.
const GROUP: u32 = 64;

const WORDS: [&str; 8] = [
    "north", "south", "east", "west", "upper", "lower", "inner", "outer",
];
const INT: &[Kind] = &[Kind::Int];
const INT_INT: &[Kind] = &[Kind::Int, Kind::Int];
const INT_TEXT: &[Kind] = &[Kind::Int, Kind::Text];

pub fn spec(what: What, key: Option<usize>, tests: &[(Op, i64)]) -> PlainSpec {
    let test = |(op, value): &(Op, i64)| Test::Int(0, *op, *value);
    let tests = tests.iter().map(test).collect();
    PlainSpec {
        what,
        value: 0,
        key,
        tests,
    }
}

/// Eight aggregates. A workload registers as many of them as its name says.
fn specs() -> [PlainSpec; 8] {
    [
        spec(What::Totals, None, &[]),
        spec(What::Totals, Some(1), &[]),
        spec(What::Totals, None, &[(Op::Gt, 10)]),
        spec(What::Extrema, None, &[]),
        spec(What::Totals, Some(1), &[(Op::Gt, -100)]),
        spec(What::Extrema, Some(1), &[]),
        spec(What::Extrema, None, &[(Op::Le, 250)]),
        spec(What::Totals, None, &[(Op::Ge, -250), (Op::Lt, 250)]),
    ]
}

fn value(random: &mut Random) -> i64 {
    i64::from(random.below(1_000)) - 500
}

/// A row of a number and a key below `keys`.
fn int_row(random: &mut Random, keys: u32) -> [Cell<'static>; 2] {
    [
        Cell::Int(value(random)),
        Cell::Int(i64::from(random.below(keys))),
    ]
}

fn batch(seed: u64, rows: u32, columns: usize) -> Batch {
    let mut random = Random(seed);
    let mut batch = Batch {
        ints: vec![Vec::new(); columns],
        ..Batch::default()
    };
    for _ in 0..rows {
        let row = int_row(&mut random, 100);
        for (column, cell) in batch.ints.iter_mut().zip(row) {
            column.push(cell.int().unwrap_or(0));
        }
    }
    batch
}

fn text_batch(seed: u64, rows: u32) -> Batch {
    let mut random = Random(seed);
    let mut batch = Batch {
        ints: vec![Vec::new()],
        offsets: vec![0],
        bytes: Vec::new(),
    };
    for _ in 0..rows {
        batch.ints[0].push(value(&mut random));
        let (word, number) = (WORDS[random.below(8) as usize], random.below(50));
        batch
            .bytes
            .extend_from_slice(format!("{word}{number}").as_bytes());
        batch.offsets.push(batch.bytes.len() as u64);
    }
    batch
}

fn ask_all<P: Program>(program: &mut P, watched: usize, digest: &mut Digest) {
    (0..watched).for_each(|number| program.ask(number, digest));
}

fn watched<P: Program>(kinds: &[Kind], count: usize) -> P {
    let mut program = P::open(kinds, GROUP);
    specs()
        .iter()
        .take(count)
        .for_each(|spec| assert!(program.watch(spec) < 8));
    program
}

fn insert_1<P: Program>(units: u32, clock: &mut Clock, digest: &mut Digest) {
    inserts::<P>(1, units, clock, digest);
}

fn insert_0<P: Program>(units: u32, clock: &mut Clock, digest: &mut Digest) {
    inserts::<P>(0, units, clock, digest);
}

fn inserts<P: Program>(count: usize, units: u32, clock: &mut Clock, digest: &mut Digest) {
    let mut program: P = watched(INT, count);
    let mut random = Random(7);
    clock.start();
    for _ in 0..units {
        program.insert(&[Cell::Int(value(&mut random))]);
    }
    ask_all(&mut program, count, digest);
    clock.stop();
}

fn insert_8<P: Program>(units: u32, clock: &mut Clock, digest: &mut Digest) {
    keyed_inserts::<P>(100, units, clock, digest);
}

fn insert_8_keys<P: Program>(units: u32, clock: &mut Clock, digest: &mut Digest) {
    keyed_inserts::<P>(5_000, units, clock, digest);
}

fn keyed_inserts<P: Program>(keys: u32, units: u32, clock: &mut Clock, digest: &mut Digest) {
    let mut program: P = watched(INT_INT, 8);
    let mut random = Random(7);
    clock.start();
    for _ in 0..units {
        program.insert(&int_row(&mut random, keys));
    }
    ask_all(&mut program, 8, digest);
    clock.stop();
}

fn insert_text<P: Program>(units: u32, clock: &mut Clock, digest: &mut Digest) {
    let mut program: P = watched(INT_TEXT, 1);
    let batch = text_batch(7, units);
    clock.start();
    for i in 0..units as usize {
        let text = &batch.bytes[batch.offsets[i] as usize..batch.offsets[i + 1] as usize];
        let text = std::str::from_utf8(text).unwrap_or_default();
        program.insert(&[Cell::Int(batch.ints[0][i]), Cell::Text(text)]);
    }
    ask_all(&mut program, 1, digest);
    clock.stop();
}

fn edits<P: Program>(count: usize, units: u32, clock: &mut Clock, digest: &mut Digest) {
    let mut program: P = watched(INT_INT, count);
    let rows = units / 4;
    program.load(&batch(8, rows, 2));
    let mut live: Vec<u32> = (0..rows).collect();
    let mut random = Random(9);
    clock.start();
    for _ in 0..units {
        let at = random.below(live.len() as u32) as usize;
        if random.below(10) > 0 || live.len() < 2 {
            program.set(0, live[at], value(&mut random));
        } else {
            program.remove(live.swap_remove(at));
        }
    }
    ask_all(&mut program, count, digest);
    clock.stop();
}

fn edits_1<P: Program>(units: u32, clock: &mut Clock, digest: &mut Digest) {
    edits::<P>(1, units, clock, digest);
}

fn edits_8<P: Program>(units: u32, clock: &mut Clock, digest: &mut Digest) {
    edits::<P>(8, units, clock, digest);
}

fn sets<P: Program>(count: usize, units: u32, clock: &mut Clock, digest: &mut Digest) {
    let mut program: P = watched(INT_INT, count);
    program.load(&batch(17, units, 2));
    let mut random = Random(18);
    clock.start();
    for _ in 0..units {
        program.set(0, random.below(units), value(&mut random));
    }
    ask_all(&mut program, count, digest);
    clock.stop();
}

fn sets_0<P: Program>(units: u32, clock: &mut Clock, digest: &mut Digest) {
    sets::<P>(0, units, clock, digest);
}

fn sets_1<P: Program>(units: u32, clock: &mut Clock, digest: &mut Digest) {
    sets::<P>(1, units, clock, digest);
}

fn sets_8<P: Program>(units: u32, clock: &mut Clock, digest: &mut Digest) {
    sets::<P>(8, units, clock, digest);
}

fn asks<P: Program>(units: u32, clock: &mut Clock, digest: &mut Digest) {
    let mut program: P = watched(INT_INT, 2);
    program.load(&batch(9, 4_096, 2));
    clock.start();
    (0..units).for_each(|_| program.ask(0, digest));
    (0..units / 50).for_each(|_| program.ask(1, digest));
    clock.stop();
}

fn load_int<P: Program>(units: u32, clock: &mut Clock, digest: &mut Digest) {
    let batch = batch(10, units, 2);
    let mut program: P = watched(INT_INT, 1);
    clock.start();
    program.load(&batch);
    program.ask(0, digest);
    clock.stop();
}

fn load_text<P: Program>(units: u32, clock: &mut Clock, digest: &mut Digest) {
    let batch = text_batch(10, units);
    let mut program: P = watched(INT_TEXT, 1);
    clock.start();
    program.load(&batch);
    program.ask(0, digest);
    clock.stop();
}

fn dump<P: Program>(units: u32, clock: &mut Clock, digest: &mut Digest) {
    let mut program: P = watched(INT_INT, 1);
    program.load(&batch(10, units, 2));
    clock.start();
    (0..4).for_each(|_| program.dump(digest));
    clock.stop();
}

/// Asks an aggregate of 50,000 rows, with a set before each tenth ask.
fn extrema_asks<P: Program>(
    key: Option<usize>,
    units: u32,
    clock: &mut Clock,
    digest: &mut Digest,
) {
    let mut program: P = watched(INT_INT, 0);
    program.load(&batch(11, 50_000, 2));
    let number = program.watch(&spec(What::Extrema, key, &[]));
    let mut random = Random(12);
    clock.start();
    for i in 0..units {
        if i % 10 == 0 {
            program.set(0, random.below(50_000), value(&mut random));
        }
        program.ask(number, digest);
    }
    clock.stop();
}

fn asks_extrema<P: Program>(units: u32, clock: &mut Clock, digest: &mut Digest) {
    extrema_asks::<P>(None, units, clock, digest);
}

fn asks_extrema_by<P: Program>(units: u32, clock: &mut Clock, digest: &mut Digest) {
    extrema_asks::<P>(Some(1), units, clock, digest);
}

/// A queue: removes the least value of the table, inserts a greater one, and asks for the answer.
fn queue<P: Program>(key: Option<usize>, units: u32, clock: &mut Clock, digest: &mut Digest) {
    let mut program: P = watched(INT_INT, 0);
    let number = program.watch(&spec(What::Extrema, key, &[]));
    let row = |n: u32| [Cell::from(n), Cell::from(n % 100)];
    (0..units).for_each(|n| program.insert(&row(n)));
    clock.start();
    for n in 0..units {
        program.remove(n);
        program.insert(&row(units + n));
        program.ask(number, digest);
    }
    clock.stop();
}

fn least_goes<P: Program>(units: u32, clock: &mut Clock, digest: &mut Digest) {
    queue::<P>(None, units, clock, digest);
}

fn least_goes_by<P: Program>(units: u32, clock: &mut Clock, digest: &mut Digest) {
    queue::<P>(Some(1), units, clock, digest);
}

/// Registers an aggregate over existing rows, four times.
fn builds<P: Program>(of: &PlainSpec, units: u32, clock: &mut Clock, digest: &mut Digest) {
    let mut program: P = watched(INT_INT, 0);
    program.load(&batch(12, units * GROUP, 2));
    clock.start();
    for _ in 0..4 {
        let number = program.watch(of);
        program.ask(number, digest);
        program.unwatch(number);
    }
    clock.stop();
}

fn scans<P: Program>(units: u32, clock: &mut Clock, digest: &mut Digest) {
    builds::<P>(&spec(What::Totals, Some(1), &[]), units, clock, digest);
}

fn scans_extrema<P: Program>(units: u32, clock: &mut Clock, digest: &mut Digest) {
    builds::<P>(&spec(What::Extrema, None, &[]), units, clock, digest);
}

fn lend_int<P: Program>(units: u32, clock: &mut Clock, digest: &mut Digest) {
    let mut program: P = watched(INT, 0);
    program.load(&batch(13, units, 1));
    clock.start();
    (0..8).for_each(|from| program.read_ints(0, from, units, digest));
    clock.stop();
}

fn lend_text<P: Program>(units: u32, clock: &mut Clock, digest: &mut Digest) {
    let mut program: P = watched(INT_TEXT, 0);
    program.load(&text_batch(13, units));
    clock.start();
    (0..8).for_each(|from| program.read_texts(1, from, units, digest));
    clock.stop();
}

/// Evicts and fetches all row groups of a column, four times; if `written`, writes each between.
fn moves<P: Program>(
    group: u32,
    written: bool,
    units: u32,
    clock: &mut Clock,
    digest: &mut Digest,
) {
    let mut program = P::open(INT, group);
    program.load(&batch(14, units * group, 1));
    clock.start();
    for turn in 0..4 {
        (0..units).for_each(|group| program.evict(0, group));
        (0..units).for_each(|group| program.fetch(0, group));
        if written {
            (0..units).for_each(|number| program.set(0, number * group + turn, i64::from(turn)));
        }
    }
    clock.stop();
    program.read_ints(0, 0, 1_000, digest);
}

fn move_64<P: Program>(units: u32, clock: &mut Clock, digest: &mut Digest) {
    moves::<P>(64, false, units, clock, digest);
}

fn move_written_64<P: Program>(units: u32, clock: &mut Clock, digest: &mut Digest) {
    moves::<P>(64, true, units, clock, digest);
}

fn move_4096<P: Program>(units: u32, clock: &mut Clock, digest: &mut Digest) {
    moves::<P>(4_096, false, units, clock, digest);
}

fn move_written_4096<P: Program>(units: u32, clock: &mut Clock, digest: &mut Digest) {
    moves::<P>(4_096, true, units, clock, digest);
}

/// Registers an aggregate over rows that are away, four times.
fn offloads<P: Program>(units: u32, clock: &mut Clock, digest: &mut Digest) {
    let mut program: P = watched(INT_INT, 0);
    program.load(&batch(15, units * GROUP, 2));
    for column in 0..2 {
        (0..units).for_each(|group| program.evict(column, group));
    }
    clock.start();
    for _ in 0..4 {
        let number = program.watch_far(&spec(What::Totals, Some(1), &[]));
        program.ask(number, digest);
        program.unwatch(number);
    }
    clock.stop();
}

fn recounts<P: Program>(units: u32, clock: &mut Clock, digest: &mut Digest) {
    let mut program: P = watched(INT_INT, 0);
    let number = program.watch(&spec(What::Totals, Some(1), &[]));
    program.load(&batch(16, units, 2));
    clock.start();
    (0..20).for_each(|_| program.recount(number, digest));
    clock.stop();
}

type Run = fn(u32, &mut Clock, &mut Digest);

/// All workloads of a program.
pub fn all<P: Program>() -> Vec<(&'static str, u32, Run)> {
    vec![
        ("insert_0", 200_000, insert_0::<P>),
        ("insert_1", 200_000, insert_1::<P>),
        ("insert_8", 100_000, insert_8::<P>),
        ("insert_8_keys", 100_000, insert_8_keys::<P>),
        ("insert_text", 50_000, insert_text::<P>),
        ("edits_1", 200_000, edits_1::<P>),
        ("edits_8", 100_000, edits_8::<P>),
        ("sets_0", 100_000, sets_0::<P>),
        ("sets_1", 100_000, sets_1::<P>),
        ("sets_8", 50_000, sets_8::<P>),
        ("asks", 200_000, asks::<P>),
        ("load_int", 400_000, load_int::<P>),
        ("load_text", 100_000, load_text::<P>),
        ("dump", 100_000, dump::<P>),
        ("asks_extrema", 40_000, asks_extrema::<P>),
        ("asks_extrema_by", 2_000, asks_extrema_by::<P>),
        ("least_goes", 40_000, least_goes::<P>),
        ("least_goes_by", 4_000, least_goes_by::<P>),
        ("scans", 2_000, scans::<P>),
        ("scans_extrema", 2_000, scans_extrema::<P>),
        ("lend_int", 60_000, lend_int::<P>),
        ("lend_text", 60_000, lend_text::<P>),
        ("move_64", 4_000, move_64::<P>),
        ("move_written_64", 4_000, move_written_64::<P>),
        ("move_4096", 200, move_4096::<P>),
        ("move_written_4096", 200, move_written_4096::<P>),
        ("offloads", 2_000, offloads::<P>),
        ("recounts", 200_000, recounts::<P>),
    ]
}
