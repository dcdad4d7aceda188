//! A table of eight times its local memory. This is the only test of its process, whose memory it measures.

use std::env;
use std::fs;
use std::io;

use fullercoral::{Column, Error, Files, Limits, Schema, Table, TextBuffer, extrema, totals};

const LOCAL: u64 = 32 << 20;

/// Rows of three numbers and a text: 64 bytes of local memory each.
const ROWS: i64 = 4 << 20;

/// The peak memory of this process, in bytes.
fn peak() -> u64 {
    let status = fs::read_to_string("/proc/self/status").unwrap();
    let line = status
        .lines()
        .find_map(|line| line.strip_prefix("VmHWM:"))
        .unwrap();
    line.trim().trim_end_matches(" kB").parse::<u64>().unwrap() * 1024
}

fn fill(table: &mut Table<Files>) -> Result<(), Error<io::Error>> {
    let batch = 8_192;
    let mut names = TextBuffer::new();
    for from in (0..ROWS).step_by(batch as usize) {
        let rows = from..from + batch;
        let numbers: Vec<i64> = rows.clone().collect();
        let keys: Vec<i64> = rows.clone().map(|n| n % 100).collect();
        let squares: Vec<i64> = rows.clone().map(|n| n * n).collect();
        names.clear();
        rows.for_each(|n| names.push(&name(n)));
        let (numbers, keys) = (Column::ints(&numbers), Column::ints(&keys));
        table.extend_columns(&[numbers, keys, names.column(), Column::ints(&squares)])?;
    }
    Ok(())
}

fn name(n: i64) -> String {
    format!("name {n:07}")
}

#[test]
fn its_memory_stays_under_twice_the_local_region() -> Result<(), Box<dyn std::error::Error>> {
    let schema = Schema::new().int("n").int("key").text("name").int("square");
    let limits = Limits::new().local_memory(LOCAL as usize);
    let mut table = Table::open(schema, limits, Files::create(env::temp_dir())?)?;
    let by_key = table.watch(totals("n").by("key"))?;
    fill(&mut table)?;
    for n in (0..ROWS).step_by(100_003) {
        table.set("square", n as u32, -n)?;
        assert_eq!(table.text("name", n as u32)?, Some(&*name(n)));
    }
    let lines = table.ask(by_key)?;
    let (count, sum) = lines.fold((0, 0), |(c, s), line| (c + line.count, s + line.sum));
    assert_eq!((count as i64, sum as i64), (ROWS, ROWS * (ROWS - 1) / 2));
    let ends = table.watch(extrema("square"))?;
    let line = table.ask(ends)?.next().unwrap();
    let least = -((ROWS - 1) / 100_003 * 100_003);
    assert_eq!((line.min, line.max), (least, (ROWS - 1) * (ROWS - 1)));
    let stats = table.stats();
    assert!(
        stats.local_memory <= LOCAL && stats.bytes_put > 4 * LOCAL,
        "{stats:?}"
    );
    assert!(peak() < 2 * LOCAL, "{} bytes of memory: {stats:?}", peak());
    Ok(())
}
