use std::error;
use std::fmt;
use std::io;

use crate::Refusal;

/// Why a call failed: the table refused it, or the engine failed. `E` defaults to `std::io::Error`, the
/// error of [`Files`](crate::Files) and `Resp`.
///
/// `Display` writes the refusal's sentence, or that the storage failed and why; `source` has the engine's
/// error too. Either way the call changed no row and no answer. An automatic policy may have evicted or
/// fetched objects meanwhile.
///
/// ```
/// use std::io;
/// use fullercoral::Error;
///
/// let error = Error::Engine(io::Error::other("the disk is full"));
/// assert_eq!(error.to_string(), "the storage failed: the disk is full");
/// ```
///
/// ```
/// use fullercoral::{Error, Limits, Memory, Refusal, Schema, Table};
///
/// let mut table = Table::open(Schema::new().int("price"), Limits::new(), Memory::new())?;
/// match table.remove(7) {
///     Err(Error::Refused(Refusal::NoRow { place, places })) => assert_eq!((place, places), (7, 0)),
///     other => panic!("{other:?}"),
/// }
/// # Ok::<(), Box<dyn std::error::Error>>(())
/// ```
#[derive(Debug, Clone, PartialEq, Eq)]
#[non_exhaustive]
pub enum Error<E = io::Error> {
    /// The table refused the call.
    Refused(Refusal),
    /// The engine failed: the error of its `put` or `get`.
    Engine(E),
}

impl<E> Error<E> {
    /// The refusal, if the table refused the call.
    ///
    /// ```
    /// use fullercoral::{Error, Refusal};
    ///
    /// let error: Error<std::io::Error> = Refusal::RegionFull.into();
    /// assert_eq!(error.refusal(), Some(&Refusal::RegionFull));
    /// ```
    #[must_use]
    pub fn refusal(&self) -> Option<&Refusal> {
        match self {
            Error::Refused(refusal) => Some(refusal),
            Error::Engine(_) => None,
        }
    }
}

impl<E> From<Refusal> for Error<E> {
    fn from(refusal: Refusal) -> Error<E> {
        Error::Refused(refusal)
    }
}

/// Lets `?` convert the error of [`Files::create`](crate::Files::create) too.
impl From<io::Error> for Error {
    fn from(error: io::Error) -> Error {
        Error::Engine(error)
    }
}

impl<E: fmt::Display> fmt::Display for Error<E> {
    fn fmt(&self, f: &mut fmt::Formatter<'_>) -> fmt::Result {
        match self {
            Error::Refused(refusal) => refusal.fmt(f),
            Error::Engine(error) => write!(f, "the storage failed: {error}"),
        }
    }
}

impl<E: error::Error + 'static> error::Error for Error<E> {
    fn source(&self) -> Option<&(dyn error::Error + 'static)> {
        match self {
            Error::Refused(_) => None,
            Error::Engine(error) => Some(error),
        }
    }
}
