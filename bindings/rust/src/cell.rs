use std::borrow::Cow;
use std::fmt;

use crate::Kind;
use crate::sys::{FC_INT, FC_MISSING, FC_TEXT, fc_bytes, fc_cell};

/// A cell of a row: a number, a text, or missing. It converts from integers that fit an `i64`, from
/// borrowed texts, from an `Option` of either, and from references to these.
///
/// `Display` writes the number or the text, and nothing for a missing cell.
///
/// ```
/// use fullercoral::Cell;
///
/// assert_eq!(Cell::from(5), Cell::Int(5));
/// assert_eq!(Cell::from("rye"), Cell::Text("rye"));
/// assert_eq!(Cell::from(None::<i64>), Cell::Missing);
/// let (count, sku) = (3_usize, String::from("rye"));
/// assert_eq!(Cell::from(i64::try_from(count)?), Cell::Int(3));
/// assert_eq!(Cell::from(&sku).to_string(), "rye");
/// # Ok::<(), std::num::TryFromIntError>(())
/// ```
#[derive(Debug, Clone, Copy, PartialEq, Eq, Default)]
pub enum Cell<'a> {
    /// No value. It fails every test, and aggregates skip it.
    #[default]
    Missing,
    /// A number.
    Int(i64),
    /// A text.
    Text(&'a str),
}

impl<'a> Cell<'a> {
    /// The number, if it is one.
    ///
    /// ```
    /// assert_eq!(fullercoral::Cell::Int(5).int(), Some(5));
    /// ```
    #[must_use]
    pub fn int(self) -> Option<i64> {
        match self {
            Cell::Int(number) => Some(number),
            _ => None,
        }
    }

    /// The text, if it is one.
    ///
    /// ```
    /// assert_eq!(fullercoral::Cell::Text("rye").text(), Some("rye"));
    /// ```
    #[must_use]
    pub fn text(self) -> Option<&'a str> {
        match self {
            Cell::Text(text) => Some(text),
            _ => None,
        }
    }

    /// Its kind, or `None` if it is missing.
    ///
    /// ```
    /// use fullercoral::{Cell, Kind};
    ///
    /// assert_eq!(Cell::Int(5).kind(), Some(Kind::Int));
    /// assert_eq!(Cell::Missing.kind(), None);
    /// ```
    #[must_use]
    pub fn kind(self) -> Option<Kind> {
        match self {
            Cell::Missing => None,
            Cell::Int(_) => Some(Kind::Int),
            Cell::Text(_) => Some(Kind::Text),
        }
    }

    /// The cell for the library to read.
    pub(crate) fn raw(self) -> fc_cell {
        match self {
            Cell::Missing => fc_cell::MISSING,
            Cell::Int(number) => fc_cell {
                number,
                text: fc_bytes::NONE,
                kind: FC_INT,
            },
            Cell::Text(text) => fc_cell {
                number: 0,
                text: fc_bytes::of(text.as_bytes()),
                kind: FC_TEXT,
            },
        }
    }

    /// A cell that the library wrote.
    ///
    /// # Safety
    /// A call wrote `raw`, and by rule 3 no other call with that handle is made within `'a`.
    pub(crate) unsafe fn of_raw(raw: &fc_cell) -> Cell<'a> {
        match raw.kind {
            FC_MISSING => Cell::Missing,
            FC_INT => Cell::Int(raw.number),
            // SAFETY: the caller keeps rule 3, and texts that the library lends are UTF-8.
            _ => Cell::Text(unsafe { text_of(raw.text) }),
        }
    }
}

/// A text that the library lent.
///
/// # Safety
/// A call wrote `bytes` as a text, and by rule 3 no other call with that handle is made within `'a`.
pub(crate) unsafe fn text_of<'a>(bytes: fc_bytes) -> &'a str {
    // fc_insert, fc_set, fc_insert_columns and fc_set_column refuse texts that are not valid UTF-8.
    // SAFETY: so the texts of a table are UTF-8, and the caller keeps rule 3.
    unsafe { std::str::from_utf8_unchecked(bytes.get()) }
}

/// Implements `From` for a type with a variant `Int`: from integers that fit, and references to them.
macro_rules! from_number {
    ($type:ty: $($number:ty),*) => { $(
        impl From<$number> for $type {
            fn from(number: $number) -> Self {
                Self::Int(number.into())
            }
        }

        impl From<&$number> for $type {
            fn from(number: &$number) -> Self {
                Self::Int((*number).into())
            }
        }
    )* };
    ($($type:ty),*) => {
        $( $crate::cell::from_number!($type: i64, i32, i16, i8, u32, u16, u8); )*
    };
}
pub(crate) use from_number;

from_number!(Cell<'_>);

impl<'a> From<&'a str> for Cell<'a> {
    fn from(text: &'a str) -> Self {
        Cell::Text(text)
    }
}

impl<'a> From<&'a String> for Cell<'a> {
    fn from(text: &'a String) -> Self {
        Cell::Text(text)
    }
}

impl<'a> From<&&'a str> for Cell<'a> {
    fn from(text: &&'a str) -> Self {
        Cell::Text(text)
    }
}

impl<'a> From<&'a Cow<'_, str>> for Cell<'a> {
    fn from(text: &'a Cow<'_, str>) -> Self {
        Cell::Text(text)
    }
}

impl<'a, T: Into<Cell<'a>>> From<Option<T>> for Cell<'a> {
    fn from(value: Option<T>) -> Self {
        value.map_or(Cell::Missing, T::into)
    }
}

impl fmt::Display for Cell<'_> {
    fn fmt(&self, f: &mut fmt::Formatter<'_>) -> fmt::Result {
        match self {
            Cell::Missing => Ok(()),
            Cell::Int(number) => number.fmt(f),
            Cell::Text(text) => text.fmt(f),
        }
    }
}

/// Makes an array of cells from values that convert to a [`Cell`].
///
/// ```
/// use fullercoral::{Cell, row};
///
/// let price: Option<i64> = None;
/// assert_eq!(row!["rye", 5, price], [Cell::Text("rye"), Cell::Int(5), Cell::Missing]);
/// // A missing cell needs a type, and so does a number beyond 32 bits.
/// assert_eq!(row![None::<&str>, 5_000_000_000_i64], [Cell::Missing, Cell::Int(5_000_000_000)]);
/// // Cells borrow their texts.
/// let sku = format!("rye {}", 5);
/// assert_eq!(row![&sku], [Cell::Text("rye 5")]);
/// ```
#[macro_export]
macro_rules! row {
    ($($cell:expr),* $(,)?) => { [$($crate::Cell::from($cell)),*] };
}
