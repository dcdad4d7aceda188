//! The running answers of aggregates.

use std::collections::BTreeMap;

use super::blocks::{Blocks, NOTHING};
use super::column::{Column, Kind};
use super::keyed::{Int, Keyed};
use super::reply::Replies;
use super::spec::{Spec, What};

/// A count and a sum.
#[derive(Clone, Copy, Default)]
pub struct Sum {
    count: u64,
    sum: i128,
}

/// How often each value occurs, and the least and the greatest of them.
pub struct Bag {
    times: BTreeMap<i64, u32>,
    ends: (i64, i64),
}

/// The answer of an aggregate. Extrema without a key are kept by block of rows, and with one by how often
/// each value occurs.
pub enum Fold {
    Sum(Sum),
    SumByNumber(Keyed<Int, Sum>),
    SumByText(Keyed<Box<[u8]>, Sum>),
    Ends(Blocks),
    EndsByNumber(Keyed<Int, Bag>),
    EndsByText(Keyed<Box<[u8]>, Bag>),
}

/// A row: the columns that have its cells and its place there, its place in the table, and the places of a
/// block.
#[derive(Clone, Copy)]
pub struct At<'a> {
    pub cells: &'a [Column],
    pub at: usize,
    pub place: usize,
    pub block: usize,
}

/// Rows in a row: as `At`, with the marks of those that were not removed.
#[derive(Clone, Copy)]
pub struct Rows<'a> {
    pub cells: &'a [Column],
    pub at: usize,
    pub alive: &'a [bool],
    pub place: usize,
    pub block: usize,
}

impl<'a> At<'a> {
    /// A row of the table, of which these are the columns.
    #[inline]
    pub fn of_table(cells: &'a [Column], place: usize, block: usize) -> At<'a> {
        At {
            cells,
            at: place,
            place,
            block,
        }
    }

    #[inline]
    fn number_key(&self, spec: &Spec) -> Option<Int> {
        self.cells[spec.key?].number(self.at).map(Int)
    }

    #[inline]
    fn text_key(&self, spec: &Spec) -> Option<&[u8]> {
        self.cells[spec.key?].text(self.at)
    }

    #[inline]
    fn block(&self) -> usize {
        (self.place as u32 / self.block as u32) as usize
    }

    /// The row's value, if the aggregate counts it.
    #[inline]
    pub fn value(&self, spec: &Spec) -> Option<i64> {
        let value = self.cells[spec.value].number(self.at)?;
        spec.passes(self.cells, self.at).then_some(value)
    }
}

impl Sum {
    #[inline]
    fn add(&mut self, value: i64) {
        self.count += 1;
        self.sum += i128::from(value);
    }

    #[inline]
    fn subtract(&mut self, value: i64) {
        self.count -= 1;
        self.sum -= i128::from(value);
    }

    fn print(&self, to: &mut Replies<'_>) {
        to.text(b"count ");
        to.count(self.count);
        to.text(b" sum ");
        to.wide(self.sum);
        to.end();
    }
}

impl Default for Bag {
    fn default() -> Bag {
        Bag {
            times: BTreeMap::new(),
            ends: NOTHING,
        }
    }
}

impl Bag {
    fn add(&mut self, value: i64) {
        *self.times.entry(value).or_default() += 1;
        self.ends = (self.ends.0.min(value), self.ends.1.max(value));
    }

    fn subtract(&mut self, value: i64) {
        let Some(times) = self.times.get_mut(&value) else {
            return;
        };
        *times -= 1;
        if *times > 0 {
            return;
        }
        self.times.remove(&value);
        if value == self.ends.0 || value == self.ends.1 {
            let (least, greatest) = (self.times.first_key_value(), self.times.last_key_value());
            self.ends = least
                .zip(greatest)
                .map_or(NOTHING, |(least, greatest)| (*least.0, *greatest.0));
        }
    }
}

impl Fold {
    /// The answer over no rows.
    pub fn new(spec: &Spec, kinds: &[Kind]) -> Fold {
        match (spec.what, spec.key.map(|column| kinds[column])) {
            (What::Totals, None) => Fold::Sum(Sum::default()),
            (What::Totals, Some(Kind::Number)) => Fold::SumByNumber(Keyed::new()),
            (What::Totals, Some(Kind::Text)) => Fold::SumByText(Keyed::new()),
            (What::Extrema, None) => Fold::Ends(Blocks::new()),
            (What::Extrema, Some(Kind::Number)) => Fold::EndsByNumber(Keyed::new()),
            (What::Extrema, Some(Kind::Text)) => Fold::EndsByText(Keyed::new()),
        }
    }

    /// Adds a row.
    #[inline]
    pub fn add(&mut self, spec: &Spec, row: At<'_>) {
        let Some(value) = row.value(spec) else {
            return;
        };
        match self {
            Fold::Sum(sum) => sum.add(value),
            Fold::SumByNumber(sums) => {
                if let Some(key) = row.number_key(spec) {
                    sums.at(&key).add(value);
                }
            }
            Fold::SumByText(sums) => {
                if let Some(key) = row.text_key(spec) {
                    sums.at(key).add(value);
                }
            }
            Fold::Ends(blocks) => blocks.add(row.block(), value),
            Fold::EndsByNumber(bags) => {
                if let Some(key) = row.number_key(spec) {
                    bags.at(&key).add(value);
                }
            }
            Fold::EndsByText(bags) => {
                if let Some(key) = row.text_key(spec) {
                    bags.at(key).add(value);
                }
            }
        }
    }

    /// Adds the rows that were not removed.
    pub fn add_all(&mut self, spec: &Spec, rows: Rows<'_>) {
        let Rows {
            cells,
            at,
            alive,
            place,
            block,
        } = rows;
        for (more, _) in alive.iter().enumerate().filter(|(_, is_alive)| **is_alive) {
            self.add(
                spec,
                At {
                    cells,
                    at: at + more,
                    place: place + more,
                    block,
                },
            );
        }
    }

    /// Takes a row out. Returns whether its block must be looked at again.
    #[inline]
    pub fn subtract(&mut self, spec: &Spec, row: At<'_>) -> bool {
        let Some(value) = row.value(spec) else {
            return false;
        };
        match self {
            Fold::Sum(sum) => sum.subtract(value),
            Fold::SumByNumber(sums) => {
                if let Some(key) = row.number_key(spec) {
                    sums.at(&key).subtract(value);
                }
            }
            Fold::SumByText(sums) => {
                if let Some(key) = row.text_key(spec) {
                    sums.at(key).subtract(value);
                }
            }
            Fold::Ends(blocks) => {
                let (least, greatest) = blocks.get(row.block());
                return value == least || value == greatest;
            }
            Fold::EndsByNumber(bags) => {
                if let Some(key) = row.number_key(spec) {
                    bags.at(&key).subtract(value);
                }
            }
            Fold::EndsByText(bags) => {
                if let Some(key) = row.text_key(spec) {
                    bags.at(key).subtract(value);
                }
            }
        }
        false
    }

    /// Changes totals by the difference of two values of a row, of which neither is missing. Returns false if
    /// they are no totals.
    #[inline]
    pub fn change(&mut self, spec: &Spec, row: At<'_>, difference: i128) -> bool {
        let sum = match self {
            Fold::Sum(sum) => Some(sum),
            Fold::SumByNumber(sums) => row.number_key(spec).map(|key| sums.at(&key)),
            Fold::SumByText(sums) => row.text_key(spec).map(|key| sums.at(key)),
            Fold::Ends(_) | Fold::EndsByNumber(_) | Fold::EndsByText(_) => return false,
        };
        if let Some(sum) = sum.filter(|_| spec.passes(row.cells, row.at)) {
            sum.sum += difference;
        }
        true
    }

    /// Sets the least and the greatest value of a block.
    pub fn set_ends(&mut self, block: usize, ends: (i64, i64)) {
        match self {
            Fold::Ends(blocks) if blocks.get(block) != ends => blocks.set(block, ends),
            _ => (),
        }
    }

    /// Writes the answer.
    pub fn print(&mut self, to: &mut Replies<'_>) {
        let is_empty = match self {
            Fold::Sum(sum) => {
                sum.print(to);
                false
            }
            Fold::SumByNumber(sums) => print_sums(sums, |key, to| to.number(key.0), to),
            Fold::SumByText(sums) => print_sums(sums, |key, to| to.field(Some(key), true), to),
            Fold::Ends(blocks) => !print_ends(blocks.all(), to),
            Fold::EndsByNumber(bags) => print_bags(bags, |key, to| to.number(key.0), to),
            Fold::EndsByText(bags) => print_bags(bags, |key, to| to.field(Some(key), true), to),
        };
        if is_empty {
            to.line(b"none");
        }
    }
}

/// Writes sums by key. Returns whether there is none.
fn print_sums<K: std::hash::Hash + Ord + Clone>(
    sums: &mut Keyed<K, Sum>,
    print_key: impl Fn(&K, &mut Replies<'_>),
    to: &mut Replies<'_>,
) -> bool {
    let mut is_empty = true;
    for (key, sum) in sums.sorted().filter(|(_, sum)| sum.count > 0) {
        is_empty = false;
        print_key(key, to);
        to.text(b" ");
        sum.print(to);
    }
    is_empty
}

/// Writes the ends of bags by key. Returns whether there is none.
fn print_bags<K: std::hash::Hash + Ord + Clone>(
    bags: &mut Keyed<K, Bag>,
    print_key: impl Fn(&K, &mut Replies<'_>),
    to: &mut Replies<'_>,
) -> bool {
    let mut is_empty = true;
    for (key, bag) in bags.sorted().filter(|(_, bag)| bag.ends != NOTHING) {
        is_empty = false;
        print_key(key, to);
        to.text(b" ");
        print_ends(bag.ends, to);
    }
    is_empty
}

/// Writes a least and a greatest value. Returns whether there are any.
fn print_ends((least, greatest): (i64, i64), to: &mut Replies<'_>) -> bool {
    if least > greatest {
        return false;
    }
    to.text(b"min ");
    to.number(least);
    to.text(b" max ");
    to.number(greatest);
    to.end();
    true
}
