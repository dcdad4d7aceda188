use std::fmt;

use crate::Cell;
use crate::cell::from_number;
use crate::sys::fc_cell;

/// The key of a line of an answer, if the aggregate has a key column. It converts from integers that fit
/// an `i64`, and from borrowed texts.
///
/// ```
/// use fullercoral::{Key, Limits, Memory, Schema, Table, row, totals};
///
/// let schema = Schema::new().text("sku").int("quantity");
/// let mut table = Table::open(schema, Limits::new(), Memory::new())?;
/// let sold = table.watch(totals("quantity").by("sku"))?;
/// table.insert(row!["rye", 3])?;
/// let line = table.ask(sold)?.next().unwrap();
/// assert_eq!(line.key, Key::Text("rye"));
/// assert_eq!(line.key.to_string(), "rye");
/// # Ok::<(), Box<dyn std::error::Error>>(())
/// ```
#[derive(Debug, Clone, Copy, PartialEq, Eq, PartialOrd, Ord, Hash)]
pub enum Key<'a> {
    /// The aggregate has no key column.
    None,
    /// A number.
    Int(i64),
    /// A text.
    Text(&'a str),
}

impl<'a> Key<'a> {
    /// The number, if it is one.
    ///
    /// ```
    /// assert_eq!(fullercoral::Key::Int(5).int(), Some(5));
    /// ```
    #[must_use]
    pub fn int(self) -> Option<i64> {
        match self {
            Key::Int(number) => Some(number),
            _ => None,
        }
    }

    /// The text, if it is one.
    ///
    /// ```
    /// assert_eq!(fullercoral::Key::Text("rye").text(), Some("rye"));
    /// ```
    #[must_use]
    pub fn text(self) -> Option<&'a str> {
        match self {
            Key::Text(text) => Some(text),
            _ => None,
        }
    }

    /// The key for the library to read.
    pub(crate) fn raw(self) -> fc_cell {
        match self {
            Key::None => Cell::Missing,
            Key::Int(number) => Cell::Int(number),
            Key::Text(text) => Cell::Text(text),
        }
        .raw()
    }
}

from_number!(Key<'_>);

impl<'a> From<&'a str> for Key<'a> {
    fn from(text: &'a str) -> Self {
        Key::Text(text)
    }
}

impl<'a> From<&'a String> for Key<'a> {
    fn from(text: &'a String) -> Self {
        Key::Text(text)
    }
}

impl fmt::Display for Key<'_> {
    fn fmt(&self, f: &mut fmt::Formatter<'_>) -> fmt::Result {
        match self {
            Key::None => Ok(()),
            Key::Int(number) => number.fmt(f),
            Key::Text(text) => text.fmt(f),
        }
    }
}
