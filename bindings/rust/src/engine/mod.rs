use std::error;
use std::sync::{Arc, Mutex, PoisonError};

mod faulty;
mod files;
mod memory;
#[cfg(feature = "resp")]
mod resp;
mod retry;

pub use faulty::{Fault, Faulty, FaultyError};
pub use files::Files;
pub use memory::Memory;
#[cfg(feature = "resp")]
pub use resp::Resp;
pub use retry::Retry;

/// Storage for the objects that a table evicts: it keeps bytes under numbers.
///
/// Nobody has to trust it. The table compares the bytes that `get` returns with the length and the
/// SHA-256 of the bytes put. So an engine that loses, changes or mixes up contents makes calls fail, and
/// never makes an answer wrong. If an engine panics, the table gives up the move: a program that catches
/// the panic can use the table as after an error.
///
/// One engine serves one table. Each table gives its contents the numbers 0, 1, 2, .., so two tables over one
/// engine replace each other's contents, and fetches are refused with `FarFault`. That includes
/// two tables over clones of one `Arc<Mutex<E>>`, over one `&mut E` in turn, and over clients that use the same
/// keys of one server. Two [`Files`] in one folder, and two `Resp` with different prefixes, are two engines.
///
/// A whole engine over the `redis` crate. The connection is in a struct, since Rust's orphan rule asks
/// for a type of your own, and keys have a prefix that no other table uses:
///
/// ```
/// # mod redis {
/// #     // A stand-in for the crate.
/// #     pub struct Connection;
/// #     pub type RedisError = std::io::Error;
/// #     pub type RedisResult<T> = Result<T, RedisError>;
/// #     pub trait Commands {
/// #         fn set<T: Default>(&mut self, _: String, _: &[u8]) -> RedisResult<T> {
/// #             Ok(T::default())
/// #         }
/// #         fn get<T: Default>(&mut self, _: String) -> RedisResult<T> {
/// #             Ok(T::default())
/// #         }
/// #     }
/// #     impl Commands for Connection {}
/// # }
/// use redis::{Commands, RedisError, RedisResult};
///
/// struct Redis(redis::Connection);
///
/// impl fullercoral::Engine for Redis {
///     type Error = RedisError;
///
///     fn put(&mut self, number: u64, bytes: &[u8]) -> RedisResult<()> {
///         self.0.set(format!("sales:{number}"), bytes)
///     }
///     fn get(&mut self, number: u64, buffer: &mut Vec<u8>) -> RedisResult<()> {
///         *buffer = self.0.get(format!("sales:{number}"))?;
///         Ok(())
///     }
/// }
/// # let _ = Redis(redis::Connection);
/// ```
///
/// One over a map:
///
/// ```
/// use std::collections::BTreeMap;
/// use std::io;
/// use fullercoral::{Engine, Limits, Schema, Table, row, totals};
///
/// #[derive(Default)]
/// struct Shelf(BTreeMap<u64, Vec<u8>>);
///
/// impl Engine for Shelf {
///     type Error = io::Error;
///
///     fn put(&mut self, number: u64, bytes: &[u8]) -> io::Result<()> {
///         self.0.insert(number, bytes.to_vec());
///         Ok(())
///     }
///     fn get(&mut self, number: u64, buffer: &mut Vec<u8>) -> io::Result<()> {
///         let bytes = self.0.get(&number).ok_or(io::ErrorKind::NotFound)?;
///         buffer.extend_from_slice(bytes);
///         Ok(())
///     }
///     fn forget(&mut self, number: u64) {
///         self.0.remove(&number);
///     }
/// }
///
/// let mut table = Table::open(Schema::new().int("price"), Limits::new(), Shelf::default())?;
/// let total = table.watch(totals("price"))?;
/// table.insert(row![5])?;
/// table.evict("price", 0)?;
/// assert_eq!(table.engine().0.len(), 1);
/// table.insert(row![7])?;
/// assert_eq!(table.ask(total)?.next().unwrap().sum, 12);
/// # Ok::<(), Box<dyn std::error::Error>>(())
/// ```
pub trait Engine {
    /// Why a `put` or a `get` failed. The table's [`Error`](crate::Error) holds it, and is itself a
    /// `std::error::Error`, so `?` turns it into a `Box<dyn Error>` for every engine.
    type Error: error::Error + 'static;

    /// Keeps bytes under a number. A table uses each number once, from 0 on, so two tables must not
    /// share one engine.
    fn put(&mut self, number: u64, bytes: &[u8]) -> Result<(), Self::Error>;

    /// Appends the bytes that were put under a number to `buffer`, which is empty.
    fn get(&mut self, number: u64, buffer: &mut Vec<u8>) -> Result<(), Self::Error>;

    /// Says that the table will not get a number again: the engine may delete its bytes. The default
    /// does nothing, so storage only grows.
    fn forget(&mut self, number: u64) {
        let _ = number;
    }
}

// Implements `Engine` for a pointer to an engine, with an expression for the engine that `self` points to.
macro_rules! through {
    ($(#[$doc:meta])* $pointer:ty, $self:ident => $engine:expr) => {
        $(#[$doc])*
        impl<E: Engine + ?Sized> Engine for $pointer {
            type Error = E::Error;

            fn put(&mut $self, number: u64, bytes: &[u8]) -> Result<(), E::Error> {
                $engine.put(number, bytes)
            }

            fn get(&mut $self, number: u64, buffer: &mut Vec<u8>) -> Result<(), E::Error> {
                $engine.get(number, buffer)
            }

            fn forget(&mut $self, number: u64) {
                $engine.forget(number);
            }
        }
    };
}

through!(
    /// An engine that a table borrows. Empty it before the next table, which uses the same numbers.
    &mut E, self => (**self)
);

through!(Box<E>, self => (**self));

through!(
    /// An engine that a table shares with threads that move its objects. No other table may share it, since
    /// its numbers are the same. The engine stays usable if a thread panics: the table refuses bytes written
    /// in part, like all wrong bytes.
    Arc<Mutex<E>>, self => self.lock().unwrap_or_else(PoisonError::into_inner)
);
