//! Three threads insert 1,500,000 sales into one table, while a fourth evicts in the background:
//! `cargo run --release --example background`.
//!
//! The table is under a lock, which the fourth thread holds only to begin an eviction and to commit it.
//! Between, it writes the files, under a lock of their own.

use std::env;
use std::error::Error;
use std::sync::atomic::{AtomicU32, Ordering};
use std::sync::{Arc, Mutex};
use std::thread;
use std::time::{Duration, Instant};

use fullercoral::{Files, Limits, Schema, Table, row, totals};

const THREADS: u32 = 3;
const ROWS: u32 = 500_000;

type Far = Arc<Mutex<Files>>;

/// Evicts while more than three quarters of the local memory are in use. If that is too late, the
/// insert that needs the space evicts by itself. Returns how many objects this thread evicted.
fn evict(table: &Mutex<Table<Far>>, mut far: Far, inserting: &AtomicU32) -> u32 {
    let mut evicted = 0;
    while inserting.load(Ordering::Relaxed) > 0 {
        let begun = {
            let mut table = table.lock().expect("no thread panics");
            let stats = table.stats();
            let is_full = 4 * stats.local_used > 3 * stats.local_memory;
            is_full.then(|| table.begin_evict_coldest())
        };
        let Some(Ok(Some(outgoing))) = begun else {
            thread::sleep(Duration::from_millis(1));
            continue;
        };
        if let Ok(stored) = outgoing.put(&mut far) {
            // Refused as stale if the object was written meanwhile: it stays local.
            let committed = table.lock().expect("no thread panics").commit(stored);
            evicted += u32::from(committed.is_ok());
        }
    }
    evicted
}

fn insert(table: &Mutex<Table<Far>>, thread: u32) -> Result<(), fullercoral::Error> {
    for n in 0..ROWS {
        let sku = format!("sku {}", n % 100);
        let mut table = table.lock().expect("no thread panics");
        table.insert(row![&sku, n + thread])?;
    }
    Ok(())
}

fn main() -> Result<(), Box<dyn Error>> {
    let far = Arc::new(Mutex::new(Files::create(env::temp_dir())?));
    let limits = Limits::new().local_memory(8 << 20);
    let schema = Schema::new().text("sku").int("price");
    let mut table = Table::open(schema, limits, Arc::clone(&far))?;
    let by_sku = table.watch(totals("price").by("sku"))?;
    let (table, inserting) = (Mutex::new(table), AtomicU32::new(THREADS));

    let start = Instant::now();
    let evicted = thread::scope(|scope| {
        for thread in 0..THREADS {
            let (table, inserting) = (&table, &inserting);
            scope.spawn(move || {
                let inserted = insert(table, thread);
                inserting.fetch_sub(1, Ordering::Relaxed);
                inserted.expect("the disk has space");
            });
        }
        evict(&table, far, &inserting)
    });
    let mut table = table.into_inner()?;
    println!("{} rows in {:.1?}", table.places(), start.elapsed());
    println!("{evicted} objects were evicted in the background");
    println!("{:?}", table.ask_key(by_sku, "sku 0")?);
    println!("{:#?}", table.stats());
    Ok(())
}
