//! A group-by over 5,000,000 sales in 64 MB of local memory: `cargo run --release --example group_by`.
//!
//! The rows take 220 MB. Those that are not local are in files.

use std::env;
use std::error::Error;
use std::time::Instant;

use fullercoral::{Column, Files, Limits, Op, Schema, Table, TextBuffer, extrema, totals};

const ROWS: u32 = 5_000_000;
const BATCH: u32 = 50_000;

fn fill(table: &mut Table<Files>) -> Result<(), Box<dyn Error>> {
    let (mut shops, mut articles, mut cents) = (TextBuffer::new(), Vec::new(), Vec::new());
    for from in (0..ROWS).step_by(BATCH as usize) {
        shops.clear();
        articles.clear();
        cents.clear();
        for n in from..from + BATCH {
            shops.push(&format!("shop {}", n % 20));
            articles.push(i64::from(n % 1_000));
            cents.push(i64::from(n.wrapping_mul(2_654_435_761) >> 20) - 100);
        }
        let numbers = (Column::ints(&articles), Column::ints(&cents));
        table.extend_columns(&[shops.column(), numbers.0, numbers.1])?;
    }
    Ok(())
}

fn main() -> Result<(), Box<dyn Error>> {
    let schema = Schema::new().text("shop").int("article").int("cents");
    let limits = Limits::new().local_memory(64 << 20);
    let mut table = Table::open(schema, limits, Files::create(env::temp_dir())?)?;
    let by_shop = table.watch(totals("cents").by("shop"))?;

    let start = Instant::now();
    fill(&mut table)?;
    println!("{ROWS} rows in {:.1?}", start.elapsed());

    // This aggregate was registered first, and every insert updated it.
    let start = Instant::now();
    let best = table.ask(by_shop)?.max_by_key(|line| line.sum);
    println!("best shop: {best:?}, in {:.1?}", start.elapsed());

    // This one is registered late: the first ask builds it, mostly from far copies.
    let start = Instant::now();
    let spec = extrema("cents").by("article").only("cents", Op::Ge, 0);
    let ends = table.watch(spec)?;
    println!(
        "{} articles, in {:.1?}",
        table.ask(ends)?.len(),
        start.elapsed()
    );

    // An edit of a row that is away fetches its row group.
    table.set("cents", 17, 1_000_000)?;
    println!("{:?}", table.ask(ends)?.nth(17));
    println!("{:#?}", table.stats());
    Ok(())
}
