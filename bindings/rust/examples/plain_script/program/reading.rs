//! Commands that read rows: `dump`, `lend` and `prefetch`.

use std::ops::Range;

use super::column::Column;
use super::refusal::Refusal;
use super::reply::Replies;
use super::table::Table;

/// How many lent row groups of a column are looked at.
const LOOKED_AT: usize = 4;

impl Table {
    /// Writes all rows.
    pub fn dump(&self, to: &mut Replies<'_>) -> Result<(), Refusal> {
        for group in 0..self.groups() {
            self.absent(group, 0..self.kinds.len())?;
        }
        let rows = self.alive.iter().filter(|it| **it).count();
        to.counted(b"rows ", rows as u64);
        let is_alone = self.columns.len() == 1;
        for place in (0..self.alive.len()).filter(|place| self.alive[*place]) {
            let mut comma: &[u8] = b"";
            for column in &self.columns {
                to.text(comma);
                comma = b",";
                print_cell(column, place, is_alone, to);
            }
            to.end();
        }
        Ok(())
    }

    /// Writes a part of a column.
    pub fn lend(
        &mut self,
        column: usize,
        from: usize,
        until: usize,
        to: &mut Replies<'_>,
    ) -> Result<(), Refusal> {
        if column >= self.columns.len() {
            return Err(Refusal::NoColumn);
        }
        if from > until || until > self.alive.len() {
            return Err(Refusal::OutOfRange);
        }
        if from == until {
            to.line(b"empty");
            return Ok(());
        }
        let groups = from / self.group..(until - 1) / self.group + 1;
        for group in groups.clone() {
            self.absent(group, [column].into_iter())?;
        }
        for group in groups {
            let places = self.places(group);
            self.print_piece(column, from.max(places.start)..until.min(places.end), to);
            let lent = &mut self.lent[column];
            lent.push_back(group);
            if lent.len() > LOOKED_AT {
                lent.pop_front();
            }
        }
        Ok(())
    }

    fn print_piece(&self, column: usize, places: Range<usize>, to: &mut Replies<'_>) {
        to.text(b"piece ");
        to.marks(&self.alive[places.clone()]);
        let is_alone = places.len() == 1;
        let mut before: &[u8] = b" ";
        for place in places {
            to.text(before);
            before = b",";
            print_cell(&self.columns[column], place, is_alone, to);
        }
        to.end();
    }

    /// Writes which row groups of a column to fetch next.
    pub fn prefetch(&self, column: usize, to: &mut Replies<'_>) -> Result<(), Refusal> {
        let lent = self.lent.get(column).ok_or(Refusal::NoColumn)?;
        let lent: Vec<i64> = lent.iter().map(|group| *group as i64).collect();
        let next = match lent[..] {
            [a, b, c, d] if d != c && [b - a, c - b] == [d - c; 2] => {
                vec![2 * d - c, 3 * d - 2 * c]
            }
            _ => Vec::new(),
        };
        let exists = |group: &i64| (0..self.groups() as i64).contains(group);
        let mut is_none = true;
        to.text(b"next");
        for group in next.into_iter().filter(exists) {
            to.text(b" ");
            to.number(group);
            is_none = false;
        }
        to.line(if is_none { b" none" } else { b"" });
        Ok(())
    }
}

#[inline]
fn print_cell(column: &Column, place: usize, is_alone: bool, to: &mut Replies<'_>) {
    match column {
        Column::Numbers(numbers) => match numbers.get(place) {
            Some(number) => to.number(number),
            None => to.text(b"\\N"),
        },
        Column::Texts(texts) => to.field(texts.get(place), is_alone),
    }
}
