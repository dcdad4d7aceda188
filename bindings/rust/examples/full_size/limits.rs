//! Reaches each limit of a table once.

use std::env;
use std::error::Error;
use std::fmt::Debug;

use fullercoral::{
    Column, Engine, Error as TableError, Files, Limits, Op, Policy, Schema, Spec, Table,
    TextBuffer, Totals, extrema, row, totals,
};

use crate::{Meet, Met};

type Outcome = Result<Met, Box<dyn Error>>;

const MOST_PLACES: u32 = 1 << 24;
const MOST_TEXT: usize = 4_096;
/// The rows of a batch.
const BATCH: u32 = 65_536;

/// The limits by name, in the order of the table in the documents.
pub const LIMITS: &[(&str, Meet)] = &[
    ("places", places),
    ("columns", columns),
    ("aggregates", aggregates),
    ("conditions", conditions),
    ("segments", segments),
    ("the largest segments", largest_segments),
    ("a row group", row_groups),
    ("a text", texts),
    ("a chunk of texts", chunks),
    ("the largest chunk of texts", largest_chunks),
    ("contents", contents),
    ("pins", pins),
    ("edits", edits),
    ("all at once", all_at_once),
];

// Checks the number of a refusal, and returns its number and name.
fn refused<T: Debug, E: Debug>(
    result: Result<T, TableError<E>>,
    number: u32,
) -> Result<String, Box<dyn Error>> {
    match result {
        Err(TableError::Refused(refusal)) if refusal.number() == number => {
            let name = format!("{refusal:?}");
            let end = name.find([' ', '{']).unwrap_or(name.len());
            Ok(format!("{number} {}", &name[..end]))
        }
        other => Err(format!("{other:?} instead of refusal {number}").into()),
    }
}

fn is_so(holds: bool, what: &str) -> Result<(), Box<dyn Error>> {
    if holds { Ok(()) } else { Err(what.into()) }
}

fn files() -> Result<Files, Box<dyn Error>> {
    Ok(Files::create(env::temp_dir())?)
}

fn numbers(columns: u32) -> Schema {
    (0..columns).fold(Schema::new(), |schema, it| schema.int(&format!("n{it}")))
}

// Appends rows up to a number of places, each with its place in all columns. Returns the first failure.
fn fill<E: Engine>(
    table: &mut Table<E>,
    columns: u32,
    to: u32,
) -> Result<(), TableError<E::Error>> {
    for from in (table.places()..to).step_by(BATCH as usize) {
        let values: Vec<i64> = (from..to.min(from + BATCH)).map(i64::from).collect();
        table.extend_columns(&vec![Column::ints(&values); columns as usize])?;
    }
    Ok(())
}

// The count of places, and the sum of their numbers.
fn sum_of(places: u32) -> (u64, i128) {
    let count = u64::from(places);
    (count, i128::from(count) * (i128::from(count) - 1) / 2)
}

fn asks_right<E: Engine>(
    table: &mut Table<E>,
    of: Totals,
    places: u32,
) -> Result<(), Box<dyn Error>>
where
    TableError<E::Error>: Into<Box<dyn Error>>,
{
    let line = table.ask(of).map_err(Into::into)?.next();
    let found = line.map(|line| (line.count, line.sum));
    is_so(found == Some(sum_of(places)), "a wrong answer")
}

fn places() -> Outcome {
    let mut table = Table::open(numbers(1), Limits::new(), files()?)?;
    let all = table.watch(totals("n0"))?;
    fill(&mut table, 1, MOST_PLACES)?;
    asks_right(&mut table, all, MOST_PLACES)?;
    let refusal = refused(table.insert(row![5]), 10)?;
    table.set("n0", 0, MOST_PLACES)?;
    table.remove(MOST_PLACES - 1)?;
    let met = "16777216 rows in 64 MB of local memory; the first and the last edited".to_owned();
    let more = "a row";
    Ok(Met { met, more, refusal })
}

fn columns() -> Outcome {
    let limits = Limits::new().local_memory(32 << 20);
    let mut table = Table::open(numbers(16), limits, files()?)?;
    let last = table.watch(totals("n15"))?;
    fill(&mut table, 16, 1 << 18)?;
    asks_right(&mut table, last, 1 << 18)?;
    let opened = Table::open(numbers(17), Limits::new(), files()?);
    Ok(Met {
        met: "16 columns of 262144 rows".to_owned(),
        more: "a column",
        refusal: refused(opened, 2)?,
    })
}

fn aggregates() -> Outcome {
    let mut table = Table::open(numbers(2), Limits::new(), files()?)?;
    let all = (0..16)
        .map(|_| table.watch(totals("n0")))
        .collect::<Result<Vec<_>, _>>()?;
    let ends = (0..16).map(|at_least| extrema("n0").only("n1", Op::Ge, at_least));
    let ends = ends.map(|spec| table.watch(spec));
    let ends = ends.collect::<Result<Vec<_>, _>>()?;
    fill(&mut table, 2, 1 << 18)?;
    for of in all {
        asks_right(&mut table, of, 1 << 18)?;
    }
    for of in ends {
        is_so(table.ask(of)?.len() == 1, "extrema have no line")?;
    }
    Ok(Met {
        met: "32 aggregates over 262144 rows".to_owned(),
        more: "an aggregate",
        refusal: refused(table.watch(totals("n0")), 13)?,
    })
}

fn with_conditions(count: i64) -> Spec<Totals> {
    (0..count).fold(totals("n0"), |spec, it| spec.only("n0", Op::Ge, -it))
}

fn conditions() -> Outcome {
    let mut table = Table::open(numbers(1), Limits::new(), files()?)?;
    let of = table.watch(with_conditions(4))?;
    fill(&mut table, 1, 1 << 18)?;
    asks_right(&mut table, of, 1 << 18)?;
    Ok(Met {
        met: "an aggregate with 4 conditions over 262144 rows".to_owned(),
        more: "a condition",
        refusal: refused(table.watch(with_conditions(5)), 3)?,
    })
}

// 1,024 segments of 65,536 numbers, one row group each.
fn segments() -> Outcome {
    let limits = Limits::new().local_memory(1 << 30).group(65_536);
    let mut table = Table::open(numbers(8), limits, files()?)?;
    table.set_policy(Policy::Manual);
    let all = table.watch(totals("n7"))?;
    let full = 128 * 65_536;
    fill(&mut table, 8, full)?;
    asks_right(&mut table, all, full)?;
    is_so(table.stats().local_used == 1 << 30, "a segment is not full")?;
    Ok(Met {
        met: "1024 segments all full: 8 columns of 8388608 rows, 1 GB".to_owned(),
        more: "a row",
        refusal: refused(table.insert(row![1, 2, 3, 4, 5, 6, 7, 8]), 17)?,
    })
}

// The largest region of numbers: 1,024 segments of 1,048,576, which is 16 GB. The table reserves it at
// once, and uses it as it fills. This uses 1 GB.
fn largest_segments() -> Outcome {
    let most = 1 << 34;
    let limits = Limits::new().local_memory(most).group(65_536);
    let mut table = Table::open(numbers(4), limits, files()?)?;
    table.set_policy(Policy::Manual);
    is_so(
        table.stats().local_memory == most as u64,
        "a smaller region",
    )?;
    let all = table.watch(totals("n3"))?;
    fill(&mut table, 4, MOST_PLACES)?;
    asks_right(&mut table, all, MOST_PLACES)?;
    Ok(Met {
        met: "1024 segments of 1048576 numbers opened: 16 GB reserved; 1 GB of them filled"
            .to_owned(),
        more: "a row",
        refusal: refused(table.insert(row![1, 2, 3, 4]), 10)?,
    })
}

fn row_groups() -> Outcome {
    let limits = Limits::new().group(65_536);
    let mut table = Table::open(numbers(1), limits, files()?)?;
    let all = table.watch(totals("n0"))?;
    fill(&mut table, 1, 65_536)?;
    table.evict("n0", 0)?;
    table.set("n0", 65_535, 65_535)?;
    asks_right(&mut table, all, 65_536)?;
    let more = Limits::new().group(65_537);
    Ok(Met {
        met: "a row group of 65536 rows evicted and fetched".to_owned(),
        more: "a row in each row group",
        refusal: refused(Table::open(numbers(1), more, files()?), 2)?,
    })
}

fn texts() -> Outcome {
    let limits = Limits::new().local_memory(16 << 20).group(8);
    let mut table = Table::open(Schema::new().text("t"), limits, files()?)?;
    let long = "é".repeat(MOST_TEXT / 2);
    for _ in 0..16_384 {
        table.insert(row![&long])?;
    }
    is_so(
        table.text("t", 0)? == Some(&*long),
        "the fetched text is wrong",
    )?;
    let longer = format!("{long}x");
    Ok(Met {
        met: "16384 texts of 4096 bytes in 16 MB of local memory".to_owned(),
        more: "a byte",
        refusal: refused(table.insert(row![&longer]), 7)?,
    })
}

// The longest texts of a row group that just fit a segment of this size, a 256th of the region. Each text
// needs 4,100 bytes, and the row group 6.
fn chunk(segment: u32, group: u32) -> Outcome {
    let limits = Limits::new()
        .local_memory(256 * segment as usize)
        .group(group);
    let mut table = Table::open(Schema::new().text("t"), limits, files()?)?;
    let (long, fit) = (
        "x".repeat(MOST_TEXT),
        (segment - 6) / (MOST_TEXT as u32 + 4),
    );
    let mut buffer = TextBuffer::new();
    (0..fit).for_each(|_| buffer.push(&long));
    table.extend_columns(&[buffer.column()])?;
    let refusal = refused(table.insert(row![&long]), 11)?;
    table.evict("t", 0)?;
    is_so(
        table.text("t", fit - 1)? == Some(&*long),
        "the fetched text is wrong",
    )?;
    Ok(Met {
        met: format!("{fit} texts of 4096 bytes in a segment of {segment} evicted and fetched"),
        more: "a text",
        refusal,
    })
}

fn chunks() -> Outcome {
    chunk(1 << 20, 512)
}

// Each append of a text writes its row group again, so this takes over a minute.
fn largest_chunks() -> Outcome {
    chunk(1 << 24, 65_536)
}

// Row groups of one row, all of them away at once.
fn contents() -> Outcome {
    let most = 1 << 20;
    let limits = Limits::new().group(1).contents(u64::from(most));
    let mut table = Table::open(numbers(1), limits, files()?)?;
    table.set_policy(Policy::Manual);
    let all = table.watch(totals("n0"))?;
    for place in 0..most {
        table.insert(row![place])?;
        table.evict("n0", place)?;
    }
    asks_right(&mut table, all, most)?;
    table.insert(row![most])?;
    Ok(Met {
        met: "1048576 contents, all away".to_owned(),
        more: "a content",
        refusal: refused(table.evict("n0", most), 22)?,
    })
}

fn pins() -> Outcome {
    let mut table = Table::open(numbers(1), Limits::new(), files()?)?;
    table.insert(row![5])?;
    for _ in 0..65_535 {
        table.pin("n0", 0)?.keep();
    }
    Ok(Met {
        met: "65535 pins of one object".to_owned(),
        more: "a pin",
        refusal: refused(table.pin("n0", 0).map(drop), 24)?,
    })
}

// Reaching the largest limit of edits, 2^40, would take days. This reaches a smaller one.
fn edits() -> Outcome {
    let limits = Limits::new().edits(1 << 20);
    let mut table = Table::open(numbers(1), limits, files()?)?;
    fill(&mut table, 1, 1 << 20)?;
    let too_many = Limits::new().edits((1 << 40) + 1);
    refused(Table::open(numbers(1), too_many, files()?), 2)?;
    Ok(Met {
        met: "1048576 edits where so many are allowed; 2^40 can be, and not one more".to_owned(),
        more: "an edit",
        refusal: refused(table.set("n0", 0, 5), 24)?,
    })
}

// All places, columns, aggregates and segments.
fn all_at_once() -> Outcome {
    let limits = Limits::new().local_memory(1 << 30);
    let mut table = Table::open(numbers(16), limits, files()?)?;
    let names: Vec<String> = (0..16).map(|it| format!("n{it}")).collect();
    let mut all = Vec::new();
    for name in names.iter().chain(&names) {
        all.push(table.watch(totals(name))?);
    }
    fill(&mut table, 16, MOST_PLACES)?;
    for of in all {
        asks_right(&mut table, of, MOST_PLACES)?;
    }
    let refusal = refused(table.insert(vec![5.into(); 16]), 10)?;
    for place in (0..MOST_PLACES).step_by(1 << 20) {
        table.set("n7", place, i64::from(place))?;
    }
    Ok(Met {
        met: "16777216 rows of 16 columns under 32 aggregates in 1024 segments".to_owned(),
        more: "a row",
        refusal,
    })
}
