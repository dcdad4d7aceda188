//! Cells without a borrow, for tests and examples that keep what they drew.

use fullercoral::Cell;

/// A cell that owns its text.
#[derive(Debug, Clone, PartialEq)]
pub enum Owned {
    Missing,
    Int(i64),
    Text(String),
}

impl Owned {
    pub fn cell(&self) -> Cell<'_> {
        match self {
            Owned::Missing => Cell::Missing,
            Owned::Int(number) => Cell::Int(*number),
            Owned::Text(text) => Cell::Text(text),
        }
    }

    pub fn int(&self) -> Option<i64> {
        self.cell().int()
    }

    pub fn text(&self) -> Option<&str> {
        self.cell().text()
    }
}
