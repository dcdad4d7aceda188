//! `cargo bench` runs the workloads of docs/PERFORMANCE.md on a table and on a plain one, written by hand
//! without far memory. It compares their answers, and prints times and memory of both.
//!
//! `cargo bench -- insert_0 scans` runs only these, `--size 8` makes each eight times as large. Each run
//! has its own process; the least processor time of three runs counts. The last rows are of a table of
//! eight times its local memory, over files and over the server that `FULLERCORAL_REDIS` names, if any.

use std::env;
use std::process::{Command, ExitCode};

use fullercoral::Memory;

mod clock;
mod larger;
mod peer;
#[path = "../../plain/mod.rs"]
mod plain;
mod program;
mod random;
mod tables;
mod work;

use clock::Clock;
use peer::Peer;
use program::Digest;
use tables::Far;

type Run = fn(u32, &mut Clock, &mut Digest);

/// A workload: its number of units, and its functions for the table and the plain one.
struct Row {
    name: &'static str,
    units: u32,
    table: Run,
    plain: Run,
}

fn rows(factor: u32) -> Vec<Row> {
    let both = work::all::<Far<Memory>>()
        .into_iter()
        .zip(work::all::<Peer>());
    let mut rows: Vec<Row> = both
        .map(|((name, units, table), (_, _, plain))| Row {
            name,
            units: units * factor,
            table,
            plain,
        })
        .collect();
    let larger = |name, table| Row {
        name,
        units: 1,
        table,
        plain: larger::plain::<Peer>,
    };
    rows.push(larger("eight_times_files", larger::files));
    if env::var_os("FULLERCORAL_REDIS").is_some() {
        rows.push(larger("eight_times_redis", larger::redis));
    }
    rows
}

/// The measurements of a run.
#[derive(Debug, Clone, Copy)]
struct Measured {
    processor_us: u64,
    wall_us: u64,
    peak_kb: u64,
    digest: u64,
}

// Runs one workload in this process, and prints its measurements.
fn run_here(run: Run, units: u32) {
    let (mut clock, mut digest) = (Clock::default(), Digest::default());
    run(units, &mut clock, &mut digest);
    let (processor, wall) = (clock.processor.as_micros(), clock.wall.as_micros());
    println!("{processor} {wall} {} {}", clock::peak(), digest.0);
}

// Runs one workload in a process of its own.
fn run_apart(name: &str, program: &str, factor: u32) -> Option<Measured> {
    let mut command = Command::new(env::current_exe().ok()?);
    command.args(["--here", name, program, &factor.to_string()]);
    let output = command.output().ok()?;
    let text = String::from_utf8(output.stdout).ok()?;
    let numbers: Vec<u64> = text
        .split_whitespace()
        .map_while(|word| word.parse().ok())
        .collect();
    match numbers[..] {
        [processor_us, wall_us, peak_kb, digest] => Some(Measured {
            processor_us,
            wall_us,
            peak_kb,
            digest,
        }),
        _ => {
            eprintln!(
                "{name} on {program}: {}",
                String::from_utf8_lossy(&output.stderr)
            );
            None
        }
    }
}

// The least times of three runs.
fn least(a: Measured, b: Measured) -> Measured {
    Measured {
        processor_us: a.processor_us.min(b.processor_us),
        wall_us: a.wall_us.min(b.wall_us),
        peak_kb: a.peak_kb.max(b.peak_kb),
        digest: if a.digest == b.digest { a.digest } else { 0 },
    }
}

fn compare(row: &Row, factor: u32) -> bool {
    let (mut table, mut plain) = (None, None);
    for _ in 0..3 {
        let next = run_apart(row.name, "table", factor);
        table = next.map(|next| table.map_or(next, |before| least(before, next)));
        let next = run_apart(row.name, "plain", factor);
        plain = next.map(|next| plain.map_or(next, |before| least(before, next)));
    }
    let (Some(table), Some(plain)) = (table, plain) else {
        println!("| {} | failed |", row.name);
        return false;
    };
    let ms = |us: u64| us as f64 / 1e3;
    let mb = |kb: u64| kb as f64 / 1024.0;
    println!(
        "| {} | {} | {:.1} | {:.1} | {:.1} | {:.1} | {:.1} | {:.0} | {:.0} |",
        row.name,
        row.units,
        ms(table.processor_us),
        ms(plain.processor_us),
        table.processor_us as f64 / plain.processor_us.max(1) as f64,
        ms(table.wall_us),
        ms(plain.wall_us),
        mb(table.peak_kb),
        mb(plain.peak_kb)
    );
    if table.digest != plain.digest {
        println!("| {} | THE ANSWERS DIFFER |", row.name);
    }
    table.digest == plain.digest
}

// Runs the workload of these arguments, if this is the process of one workload.
fn is_run_here(words: &[String]) -> bool {
    let [flag, name, program, factor] = words else {
        return false;
    };
    if flag != "--here" {
        return false;
    }
    let rows = rows(factor.parse().unwrap_or(1));
    if let Some(row) = rows.iter().find(|row| row.name == name) {
        run_here(
            if program == "table" {
                row.table
            } else {
                row.plain
            },
            row.units,
        );
    }
    true
}

fn main() -> ExitCode {
    let mut words: Vec<String> = env::args()
        .skip(1)
        .filter(|word| word != "--bench")
        .collect();
    if is_run_here(&words) {
        return ExitCode::SUCCESS;
    }
    let mut factor = 1;
    if words.first().is_some_and(|word| word == "--size") && words.len() > 1 {
        factor = words[1].parse().unwrap_or(1);
        words.drain(..2);
    }
    let head = ["workload", "units", "table ms", "plain ms", "ratio"];
    let rest = [
        "table, by the clock",
        "plain, by the clock",
        "table MB",
        "plain MB",
    ];
    println!("| {} | {} |", head.join(" | "), rest.join(" | "));
    println!("|---|---|---|---|---|---|---|---|---|");
    let rows = rows(factor);
    let asked = rows
        .iter()
        .filter(|row| words.is_empty() || words.iter().any(|w| w == row.name));
    let same = asked
        .map(|row| compare(row, factor))
        .fold(true, |all, same| all & same);
    if same {
        ExitCode::SUCCESS
    } else {
        ExitCode::FAILURE
    }
}
