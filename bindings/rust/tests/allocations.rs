//! Frequent calls allocate nothing in Rust. (The library calls malloc itself.)

use std::alloc::{GlobalAlloc, Layout, System};
use std::sync::atomic::{AtomicU64, Ordering};

use fullercoral::{Cell, Limits, Memory, Schema, Table, extrema, row, totals};

struct Counting;

static COUNT: AtomicU64 = AtomicU64::new(0);

// SAFETY: the system's allocator does the work.
unsafe impl GlobalAlloc for Counting {
    unsafe fn alloc(&self, layout: Layout) -> *mut u8 {
        COUNT.fetch_add(1, Ordering::Relaxed);
        // SAFETY: the caller's promise.
        unsafe { System.alloc(layout) }
    }

    unsafe fn dealloc(&self, at: *mut u8, layout: Layout) {
        // SAFETY: the caller's promise.
        unsafe { System.dealloc(at, layout) }
    }
}

#[global_allocator]
static ALLOCATOR: Counting = Counting;

/// Makes the calls twice, and checks that the second round allocates nothing: the first may allocate buffers.
#[track_caller]
fn allocates_nothing(mut calls: impl FnMut()) {
    calls();
    let before = COUNT.load(Ordering::Relaxed);
    calls();
    assert_eq!(COUNT.load(Ordering::Relaxed) - before, 0);
}

#[test]
fn calls_that_are_made_often_allocate_nothing() -> Result<(), Box<dyn std::error::Error>> {
    let schema = Schema::new().text("sku").int("quantity");
    let mut table = Table::open(schema, Limits::new(), Memory::new())?;
    let by_sku = table.watch(totals("quantity").by("sku"))?;
    let ends = table.watch(extrema("quantity"))?;
    allocates_nothing(|| assert!(table.extend((0..100).map(|n| row!["rye", n])).is_ok()));
    allocates_nothing(|| table.set("quantity", 3, 9).unwrap());
    allocates_nothing(|| table.set("sku", 3, "a longer text").unwrap());
    allocates_nothing(|| assert_eq!(table.ask(by_sku).unwrap().len(), 2));
    allocates_nothing(|| assert_eq!(table.ask(ends).unwrap().len(), 1));
    allocates_nothing(|| assert!(table.ask_key(by_sku, "rye").unwrap().is_some()));
    let rye = Some(Cell::Text("rye"));
    allocates_nothing(|| assert_eq!(table.row(0).unwrap().get("sku"), rye));
    allocates_nothing(|| {
        let mut part = table.ints("quantity", ..).unwrap();
        while part.next_piece().unwrap().is_some() {}
    });
    allocates_nothing(|| {
        let mut part = table.texts("sku", ..).unwrap();
        while part.next_piece().unwrap().is_some() {}
    });
    Ok(())
}
