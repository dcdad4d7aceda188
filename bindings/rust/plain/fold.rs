//! Running aggregates of a plain table.

use std::collections::BTreeMap;

use super::blocks::{BLOCK, Blocks, NOTHING};
use super::keyed::{Int, Keyed};
use super::{Kind, PlainLine, PlainSpec, Rows, What};
use fullercoral::Key;

#[derive(Debug, Clone, Copy, Default)]
pub struct Sum {
    count: u64,
    sum: i128,
}

impl Sum {
    fn add(&mut self, value: i64) {
        self.count += 1;
        self.sum += i128::from(value);
    }

    fn subtract(&mut self, value: i64) {
        self.count -= 1;
        self.sum -= i128::from(value);
    }
}

/// A multiset of values: how often each occurs.
type Bag = BTreeMap<i64, u32>;

fn add_to(bag: &mut Bag, value: i64) {
    *bag.entry(value).or_default() += 1;
}

fn take_from(bag: &mut Bag, value: i64) {
    if let Some(times) = bag.get_mut(&value) {
        *times -= 1;
        if *times == 0 {
            bag.remove(&value);
        }
    }
}

#[derive(Debug)]
pub enum Fold {
    Sum(Sum),
    SumByInt(Keyed<Int, Sum>),
    SumByText(Keyed<Box<str>, Sum>),
    Ends(Blocks),
    EndsByInt(Keyed<Int, Bag>),
    EndsByText(Keyed<Box<str>, Bag>),
}

impl Fold {
    pub fn new(spec: &PlainSpec, rows: &Rows) -> Fold {
        let key = spec.key.map(|column| rows.columns[column].kind());
        match (spec.what, key) {
            (What::Totals, None) => Fold::Sum(Sum::default()),
            (What::Totals, Some(Kind::Int)) => Fold::SumByInt(Keyed::new()),
            (What::Totals, Some(Kind::Text)) => Fold::SumByText(Keyed::new()),
            (What::Extrema, None) => Fold::Ends(Blocks::new()),
            (What::Extrema, Some(Kind::Int)) => Fold::EndsByInt(Keyed::new()),
            (What::Extrema, Some(Kind::Text)) => Fold::EndsByText(Keyed::new()),
        }
    }

    pub fn add_all(&mut self, spec: &PlainSpec, rows: &Rows) {
        for place in 0..rows.alive.len() {
            if rows.alive[place] {
                self.add(spec, rows, place);
            }
        }
    }

    /// Adds a live row.
    #[inline]
    pub fn add(&mut self, spec: &PlainSpec, rows: &Rows, place: usize) {
        let Some(value) = rows.columns[spec.value].int(place) else {
            return;
        };
        if !rows.passes(spec, place) {
            return;
        }
        let int = || rows.columns[spec.key?].int(place).map(Int);
        let text = || rows.columns[spec.key?].text(place);
        match self {
            Fold::Sum(sum) => sum.add(value),
            Fold::SumByInt(map) => int().into_iter().for_each(|key| map.at(&key).add(value)),
            Fold::SumByText(map) => text().into_iter().for_each(|key| map.at(key).add(value)),
            Fold::Ends(blocks) => blocks.add(place / BLOCK, value),
            Fold::EndsByInt(map) => int()
                .into_iter()
                .for_each(|key| add_to(map.at(&key), value)),
            Fold::EndsByText(map) => text()
                .into_iter()
                .for_each(|key| add_to(map.at(key), value)),
        }
    }

    /// Removes a row that was added. Call `repair` afterwards for extrema without a key.
    #[inline]
    pub fn retract(&mut self, spec: &PlainSpec, rows: &Rows, place: usize) {
        let Some(value) = rows.columns[spec.value].int(place) else {
            return;
        };
        if !rows.passes(spec, place) {
            return;
        }
        let int = || rows.columns[spec.key?].int(place).map(Int);
        let text = || rows.columns[spec.key?].text(place);
        match self {
            Fold::Sum(sum) => sum.subtract(value),
            Fold::SumByInt(map) => int()
                .into_iter()
                .for_each(|key| map.at(&key).subtract(value)),
            Fold::SumByText(map) => text()
                .into_iter()
                .for_each(|key| map.at(key).subtract(value)),
            Fold::Ends(blocks) => {
                let (min, max) = blocks.get(place / BLOCK);
                if value == min || value == max {
                    blocks.set(place / BLOCK, NOTHING);
                }
            }
            Fold::EndsByInt(map) => {
                int()
                    .into_iter()
                    .for_each(|key| take_from(map.at(&key), value));
            }
            Fold::EndsByText(map) => {
                text()
                    .into_iter()
                    .for_each(|key| take_from(map.at(key), value));
            }
        }
    }

    /// Scans a block again from which the least or greatest value was removed. Since then, at most the row
    /// at `place` was added.
    #[inline]
    pub fn repair(&mut self, spec: &PlainSpec, rows: &Rows, place: usize) {
        let Fold::Ends(blocks) = self else {
            return;
        };
        let block = place / BLOCK;
        let (min, max) = blocks.get(block);
        if min < max {
            return;
        }
        let mut ends = NOTHING;
        for other in block * BLOCK..rows.alive.len().min((block + 1) * BLOCK) {
            if let Some(value) = rows.columns[spec.value].int(other) {
                if rows.alive[other] && rows.passes(spec, other) {
                    ends = (ends.0.min(value), ends.1.max(value));
                }
            }
        }
        if ends != (min, max) {
            blocks.set(block, ends);
        }
    }

    pub fn answer(&mut self, mut line: impl FnMut(PlainLine<'_>)) {
        match self {
            Fold::Sum(sum) => line(sum_line(Key::None, sum)),
            Fold::SumByInt(map) => {
                let lines = map.sorted().filter(|(_, sum)| sum.count > 0);
                lines.for_each(|(key, sum)| line(sum_line(Key::Int(key.0), sum)));
            }
            Fold::SumByText(map) => {
                let lines = map.sorted().filter(|(_, sum)| sum.count > 0);
                lines.for_each(|(key, sum)| line(sum_line(Key::Text(key), sum)));
            }
            Fold::Ends(blocks) => {
                let (min, max) = blocks.all();
                if min <= max {
                    line(ends_line(Key::None, min, max));
                }
            }
            Fold::EndsByInt(map) => map.sorted().for_each(|(key, bag)| {
                bag_line(Key::Int(key.0), bag)
                    .into_iter()
                    .for_each(&mut line);
            }),
            Fold::EndsByText(map) => map.sorted().for_each(|(key, bag)| {
                bag_line(Key::Text(key), bag)
                    .into_iter()
                    .for_each(&mut line);
            }),
        }
    }
}

fn sum_line<'a>(key: Key<'a>, sum: &Sum) -> PlainLine<'a> {
    PlainLine {
        key,
        count: sum.count,
        sum: sum.sum,
        min: 0,
        max: 0,
    }
}

fn ends_line(key: Key<'_>, min: i64, max: i64) -> PlainLine<'_> {
    PlainLine {
        key,
        count: 0,
        sum: 0,
        min,
        max,
    }
}

fn bag_line<'a>(key: Key<'a>, bag: &Bag) -> Option<PlainLine<'a>> {
    let (min, max) = (bag.first_key_value()?, bag.last_key_value()?);
    Some(ends_line(key, *min.0, *max.0))
}
