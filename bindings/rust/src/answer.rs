use std::fmt;
use std::iter::FusedIterator;
use std::marker::PhantomData;
use std::ops::Range;
use std::slice;

use crate::spec::Aggregate;
use crate::sys::{FC_INT, FC_TEXT, fc_line, sum_of};
use crate::{Key, cell};

/// A copy of a table's last answer. The next answer reuses its memory.
#[derive(Debug, Default)]
pub struct Answer {
    lines: Vec<StoredLine>,
    texts: String,
}

/// A line of an answer. The aggregate's fold says which of its numbers are used.
#[derive(Debug, Clone, Default)]
pub struct StoredLine {
    key: StoredKey,
    pub count: u64,
    pub sum: i128,
    pub min: i64,
    pub max: i64,
}

#[derive(Debug, Clone, Default)]
enum StoredKey {
    #[default]
    None,
    Int(i64),
    /// Its range in the answer's texts.
    Text(Range<usize>),
}

impl StoredLine {
    /// The numbers of a line, without its key.
    pub(crate) fn of_numbers(line: &fc_line) -> StoredLine {
        StoredLine {
            key: StoredKey::None,
            count: line.count,
            sum: sum_of(line.sum_low, line.sum_high),
            min: line.min,
            max: line.max,
        }
    }
}

impl Answer {
    pub fn clear(&mut self) {
        self.lines.clear();
        self.texts.clear();
    }

    /// Adds a line of totals without a key.
    pub fn push_sum(&mut self, count: u64, sum: i128) {
        self.lines.push(StoredLine {
            count,
            sum,
            ..StoredLine::default()
        });
    }

    /// Adds a line.
    ///
    /// # Safety
    /// A call wrote `line`, and no other call with that handle was made since (rule 3).
    pub unsafe fn push(&mut self, line: &fc_line) {
        let key = match line.key_kind {
            FC_INT => StoredKey::Int(line.key_number),
            FC_TEXT => {
                let from = self.texts.len();
                // SAFETY: the caller keeps to rule 3, and a key is a text of the table.
                self.texts.push_str(unsafe { cell::text_of(line.key_text) });
                StoredKey::Text(from..self.texts.len())
            }
            _ => StoredKey::None,
        };
        self.lines.push(StoredLine {
            key,
            ..StoredLine::of_numbers(line)
        });
    }

    pub fn lines<A: Aggregate>(&self) -> Lines<'_, A> {
        Lines {
            lines: self.lines.iter(),
            texts: &self.texts,
            aggregate: PhantomData,
        }
    }
}

/// The lines of an answer, sorted by key: numbers by value, texts by bytes.
///
/// [`Table::ask`](crate::Table::ask) returns it. It borrows the table, whose next answer reuses the
/// memory: to keep a key past the next call, copy it, as by `key.to_string()`.
///
/// ```
/// use fullercoral::{Limits, Memory, Schema, Table, row, totals};
///
/// let schema = Schema::new().text("sku").int("quantity");
/// let mut table = Table::open(schema, Limits::new(), Memory::new())?;
/// let sold = table.watch(totals("quantity").by("sku"))?;
/// table.extend([row!["rye", 3], row!["bread", 5], row!["bread", 2]])?;
/// let lines = table.ask(sold)?;
/// assert_eq!(lines.len(), 2);
/// let most = lines.max_by_key(|line| line.sum).unwrap();
/// assert_eq!(most.key.text(), Some("bread"));
/// # Ok::<(), Box<dyn std::error::Error>>(())
/// ```
#[must_use]
pub struct Lines<'a, A> {
    lines: slice::Iter<'a, StoredLine>,
    texts: &'a str,
    aggregate: PhantomData<A>,
}

impl<'a, A: Aggregate> Lines<'a, A> {
    /// Finds the line of a key among the remaining lines, by binary search.
    ///
    /// For one key, [`Table::ask_key`](crate::Table::ask_key) is faster: it computes only that line. It
    /// refuses a key of the other kind, for which this returns `None`.
    ///
    /// ```
    /// # use fullercoral::{Limits, Memory, Schema, Table, row, totals};
    /// # let schema = Schema::new().text("sku").int("quantity");
    /// # let mut table = Table::open(schema, Limits::new(), Memory::new())?;
    /// let sold = table.watch(totals("quantity").by("sku"))?;
    /// table.extend([row!["rye", 3], row!["bread", 5], row!["bread", 2]])?;
    /// let lines = table.ask(sold)?;
    /// assert_eq!(lines.get("bread").map(|line| line.sum), Some(7));
    /// assert_eq!(lines.get("cake"), None);
    /// # Ok::<(), Box<dyn std::error::Error>>(())
    /// ```
    #[must_use]
    pub fn get<'k>(&self, key: impl Into<Key<'k>>) -> Option<A::Line<'a>> {
        let (lines, key) = (self.lines.as_slice(), key.into());
        let found = lines.binary_search_by(|line| self.key(line).cmp(&key));
        Some(self.line(&lines[found.ok()?]))
    }

    fn key(&self, line: &StoredLine) -> Key<'a> {
        match &line.key {
            StoredKey::None => Key::None,
            StoredKey::Int(number) => Key::Int(*number),
            StoredKey::Text(range) => Key::Text(&self.texts[range.clone()]),
        }
    }

    fn line(&self, line: &StoredLine) -> A::Line<'a> {
        A::line(self.key(line), line)
    }
}

impl<'a, A: Aggregate> Iterator for Lines<'a, A> {
    type Item = A::Line<'a>;

    fn next(&mut self) -> Option<A::Line<'a>> {
        self.lines.next().map(|line| self.line(line))
    }

    fn size_hint(&self) -> (usize, Option<usize>) {
        self.lines.size_hint()
    }

    fn nth(&mut self, index: usize) -> Option<A::Line<'a>> {
        self.lines.nth(index).map(|line| self.line(line))
    }
}

impl<A: Aggregate> DoubleEndedIterator for Lines<'_, A> {
    fn next_back(&mut self) -> Option<Self::Item> {
        self.lines.next_back().map(|line| self.line(line))
    }
}

impl<A: Aggregate> ExactSizeIterator for Lines<'_, A> {}
impl<A: Aggregate> FusedIterator for Lines<'_, A> {}

impl<A> Clone for Lines<'_, A> {
    fn clone(&self) -> Self {
        Lines {
            lines: self.lines.clone(),
            texts: self.texts,
            aggregate: PhantomData,
        }
    }
}

impl<A: Aggregate> fmt::Debug for Lines<'_, A> {
    fn fmt(&self, f: &mut fmt::Formatter<'_>) -> fmt::Result {
        f.debug_list().entries(self.clone()).finish()
    }
}
