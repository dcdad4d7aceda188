//! Fullercoral: a columnar table with live aggregates. It may be larger than memory, and need not trust
//! its storage.
//!
//! A [`Table`] has columns of 64-bit numbers and of texts. Registered aggregates (counts and sums, or
//! least and greatest values, optionally by a key column) stay exact under every edit. The table evicts
//! cold chunks of columns from local memory: it puts their bytes into an [`Engine`] (a folder, a server or
//! a type of your own) and gets them back when needed. It notices whatever an engine does wrong.
//!
//! ```
//! use fullercoral::{Files, Limits, Op, Schema, Table, row, totals};
//!
//! let schema = Schema::new().text("sku").int("quantity");
//! let limits = Limits::new().local_memory(64 << 20);
//! let mut table = Table::open(schema, limits, Files::create("/var/tmp")?)?;
//!
//! let sold = table.watch(totals("quantity").by("sku").only("quantity", Op::Gt, 0))?;
//! table.extend([row!["bread", 5], row!["rye", 3], row!["bread", 2]])?;
//! table.evict("quantity", 0)?;
//! table.set("quantity", 1, 9)?;
//! for line in table.ask(sold)? {
//!     println!("{}: {} sales, {} sold", line.key, line.count, line.sum);
//! }
//! # Ok::<(), Box<dyn std::error::Error>>(())
//! ```
//!
//! # What is proved, and what is not
//!
//! The table itself is a static library whose code is proved, for all inputs, to do what its contracts
//! say: each answer is the fold over the current rows, whichever objects are away; a refused call
//! changes no row, no answer and no object. The library compares the bytes that an engine returns with
//! the length and the SHA-256 of the bytes put. One premise remains: no engine returns other bytes with
//! the same length and digest.
//!
//! This crate is a thin layer over it, in ordinary Rust that is tested, not proved. It moves bytes
//! between the library and the engine, decides when to move which object, and turns codes into errors. A
//! bug in it may make a call fail or a table slow. It does no arithmetic on answers.
//!
//! # Larger than memory
//!
//! With the default [`Policy`] a table evicts and fetches by itself. You only say how much memory it may
//! have:
//!
//! ```
//! use fullercoral::{Column, Files, Limits, Schema, Table, totals};
//!
//! // 16 MB of cells, 1 MB of them local.
//! let schema = Schema::new().int("key").int("value");
//! let limits = Limits::new().local_memory(1 << 20);
//! let mut table = Table::open(schema, limits, Files::create(std::env::temp_dir())?)?;
//! let keys: Vec<i64> = (0..500_000).map(|n| n % 100).collect();
//! let values: Vec<i64> = (0..500_000).collect();
//! table.extend_columns(&[Column::ints(&keys), Column::ints(&values)])?;
//! let sums = table.watch(totals("value").by("key"))?;
//! assert_eq!(table.ask(sums)?.len(), 100);
//! assert!(table.stats().evictions > 0);
//! # Ok::<(), Box<dyn std::error::Error>>(())
//! ```
//!
//! # Threads
//!
//! A table is `Send` but not `Sync`. Threads share it under a lock:
//!
//! ```
//! use std::sync::Mutex;
//! use std::thread;
//! use fullercoral::{Limits, Memory, Schema, Table, row, totals};
//!
//! let mut table = Table::open(Schema::new().int("price"), Limits::new(), Memory::new())?;
//! let total = table.watch(totals("price"))?;
//! let table = Mutex::new(table);
//! thread::scope(|scope| {
//!     for _ in 0..4 {
//!         scope.spawn(|| {
//!             for price in 0..100 {
//!                 table.lock().unwrap().insert(row![price]).unwrap();
//!             }
//!         });
//!     }
//! });
//! let mut table = table.into_inner()?;
//! assert_eq!(table.ask(total)?.next().unwrap().count, 400);
//! # Ok::<(), Box<dyn std::error::Error>>(())
//! ```
//!
//! An eviction in phases holds the lock only to begin and to commit. The engine works between, so here
//! the threads share it too. (`examples/background.rs` is a whole program over files, which evicts while
//! more than three quarters of the local memory are in use.)
//!
//! ```
//! use std::sync::{Arc, Mutex};
//! use std::thread;
//! use fullercoral::{Limits, Memory, Schema, Table, row};
//!
//! let engine = Arc::new(Mutex::new(Memory::new()));
//! let limits = Limits::new().group(64);
//! let table = Table::open(Schema::new().int("price"), limits, Arc::clone(&engine))?;
//! let table = Mutex::new(table);
//! table.lock().unwrap().extend((0..10_000).map(|price| row![price]))?;
//! thread::scope(|scope| {
//!     scope.spawn(|| {
//!         let mut engine = Arc::clone(&engine);
//!         for _ in 0..100 {
//!             let begun = table.lock().unwrap().begin_evict_coldest().unwrap();
//!             let Some(outgoing) = begun else { break };
//!             let stored = outgoing.put(&mut engine).unwrap();
//!             // Refused as stale if the object was written meanwhile: it stays local.
//!             let _ = table.lock().unwrap().commit(stored);
//!         }
//!     });
//!     for price in 0..1_000 {
//!         table.lock().unwrap().insert(row![price]).unwrap();
//!     }
//! });
//! assert!(table.lock().unwrap().stats().evictions > 0);
//! # Ok::<(), Box<dyn std::error::Error>>(())
//! ```
#![deny(missing_docs, unsafe_op_in_unsafe_fn)]
#![warn(missing_debug_implementations)]

mod answer;
mod buffer;
mod cell;
mod column;
mod engine;
mod error;
mod key;
mod library;
mod limits;
mod policy;
mod refusal;
mod schema;
mod spec;
mod stats;
mod sys;
mod table;

pub use answer::Lines;
pub use buffer::{IntBuffer, TextBuffer};
pub use cell::Cell;
pub use column::Column;
#[cfg(feature = "resp")]
pub use engine::Resp;
pub use engine::{Engine, Fault, Faulty, FaultyError, Files, Memory, Retry};
pub use error::Error;
pub use key::Key;
pub use limits::Limits;
pub use policy::Policy;
pub use refusal::Refusal;
pub use schema::{ColumnRef, Kind, Schema, SchemaIter};
pub use spec::{
    Aggregate, Constant, Extrema, ExtremaLine, Op, Spec, Totals, TotalsLine, extrema, totals,
};
pub use stats::Stats;
pub use table::{
    Incoming, IntPiece, Ints, Outgoing, Pinned, Row, RowIter, Stored, Table, TextPiece, Texts,
};

// The examples of README.md are tested with those of the docs.
#[cfg(doctest)]
#[doc = include_str!("../README.md")]
struct Readme;
