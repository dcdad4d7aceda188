//! The table, and edits of its rows.

use std::collections::VecDeque;

use super::column::{Column, Kind};
use super::fold::{At, Fold};
use super::moving::Object;
use super::opening::Limits;
use super::record::Field;
use super::refusal::Refusal;
use super::space::{Space, bytes_at, bytes_of};
use super::spec::Spec;

/// A registered aggregate.
pub struct Aggregate {
    pub spec: Spec,
    pub fold: Fold,
    /// By row group, whether it is pending. Later row groups are not.
    pub pending: Vec<bool>,
    /// How many are pending.
    pub left: usize,
    pub registration: u64,
}

/// Columns of all rows, and what is kept for each row group.
pub struct Table {
    pub kinds: Vec<Kind>,
    pub limits: Limits,
    pub columns: Vec<Column>,
    /// By place, whether its row was not removed.
    pub alive: Vec<bool>,
    /// Places of a row group, and of a block: a part of a row group of which aggregates know the extrema.
    pub group: usize,
    pub block: usize,
    pub aggregates: Vec<Option<Aggregate>>,
    pub registrations: u64,
    /// By column and row group.
    pub objects: Vec<Vec<Object>>,
    /// How many places the last row group has left.
    room: usize,
    /// By row group, how many rows were removed.
    pub removals: Vec<u32>,
    /// How many objects are away.
    pub away: usize,
    /// Whether any job began: before it, nobody asks how often an object was written.
    pub has_jobs: bool,
    /// By column, the row groups that were lent last.
    pub lent: Vec<VecDeque<usize>>,
    edits: u64,
    pub space: Space,
    has_texts: bool,
}

impl Aggregate {
    /// Returns whether a row group is pending.
    #[inline]
    pub fn is_pending(&self, group: usize) -> bool {
        self.left > 0 && self.pending.get(group) == Some(&true)
    }
}

impl Table {
    /// A table without rows.
    pub fn new(kinds: Vec<Kind>, limits: Limits) -> Table {
        let group = limits.group as usize;
        Table {
            columns: kinds.iter().map(|kind| Column::new(*kind)).collect(),
            alive: Vec::new(),
            group,
            block: (1..=64).rev().find(|size| group % size == 0).unwrap_or(1),
            aggregates: Vec::new(),
            registrations: 0,
            objects: kinds.iter().map(|_| Vec::new()).collect(),
            room: 0,
            removals: Vec::new(),
            away: 0,
            has_jobs: false,
            lent: kinds.iter().map(|_| VecDeque::new()).collect(),
            edits: 0,
            space: Space::new(&limits),
            has_texts: kinds.contains(&Kind::Text),
            kinds,
            limits,
        }
    }

    /// How many row groups there are.
    #[inline]
    pub fn groups(&self) -> usize {
        self.removals.len()
    }

    /// The places of a row group.
    pub fn places(&self, group: usize) -> std::ops::Range<usize> {
        group * self.group..((group + 1) * self.group).min(self.alive.len())
    }

    /// The row group of a place.
    #[inline]
    pub fn group_of(&self, place: usize) -> usize {
        (place as u32 / self.group as u32) as usize
    }

    /// Returns the refusal for the lowest of these columns whose object in a row group is away.
    pub fn absent(
        &self,
        group: usize,
        mut columns: impl Iterator<Item = usize>,
    ) -> Result<(), Refusal> {
        if self.away == 0 {
            return Ok(());
        }
        match columns.find(|column| self.objects[*column][group].is_away) {
            Some(column) => Err(Refusal::Absent(column, group)),
            None => Ok(()),
        }
    }

    /// Appends a row.
    #[inline]
    pub fn insert(&mut self, row: &[Field<'_>]) -> Result<u32, Refusal> {
        let (mut is_wrong, mut is_long) = (false, false);
        for (field, kind) in row.iter().zip(&self.kinds) {
            if let Field::Text(text) = field {
                is_wrong |= *kind == Kind::Number;
                is_long |= text.len() > 4_096;
            }
        }
        if is_wrong {
            return Err(Refusal::WrongKind);
        }
        if row.len() != self.kinds.len() {
            return Err(Refusal::RowWidth);
        }
        if is_long {
            return Err(Refusal::TextTooLong);
        }
        let place = self.alive.len();
        if place as u64 >= self.limits.places {
            return Err(Refusal::TableFull);
        }
        self.begin_insert(place)?;
        if self.has_texts {
            self.take_texts(row)?;
        }
        for (column, field) in self.columns.iter_mut().zip(row) {
            column.push(field);
        }
        self.alive.push(true);
        self.edits += 1;
        self.fold_last(place);
        Ok(place as u32)
    }

    /// Makes the row group of a new row, or writes to its objects.
    #[inline]
    fn begin_insert(&mut self, place: usize) -> Result<(), Refusal> {
        if self.room == 0 {
            self.begin_group()?;
        } else if self.has_jobs {
            let group = self.group_of(place);
            self.absent(group, 0..self.kinds.len())?;
            self.may_edit()?;
            self.objects.iter_mut().for_each(|it| it[group].write());
        } else {
            self.may_edit()?;
        }
        self.room -= 1;
        Ok(())
    }

    /// Begins a row group. The program refuses an edit for space before it looks at the limit of edits.
    fn begin_group(&mut self) -> Result<(), Refusal> {
        let (new, is_allowed) = (Object::default(), self.may_edit());
        self.space.take(self.columns.iter().map(|it| (it, &new)))?;
        if is_allowed.is_err() {
            self.columns.iter().for_each(|it| self.space.give(it, &new));
            return is_allowed;
        }
        self.removals.push(0);
        for objects in &mut self.objects {
            objects.push(Object::default());
        }
        self.room = self.group;
        Ok(())
    }

    /// Takes the space of the texts of the last row.
    fn take_texts(&mut self, row: &[Field<'_>]) -> Result<(), Refusal> {
        for ((kind, objects), field) in self.kinds.iter().zip(&mut self.objects).zip(row) {
            if let (Kind::Text, Some(object)) = (kind, objects.last_mut()) {
                self.space.replace(object, 0, bytes_of(field))?;
            }
        }
        Ok(())
    }

    #[inline]
    fn fold_last(&mut self, place: usize) {
        if self.aggregates.is_empty() {
            return;
        }
        let group = self.group_of(place);
        let row = At::of_table(&self.columns, place, self.block);
        for aggregate in self.aggregates.iter_mut().flatten() {
            if !aggregate.is_pending(group) {
                aggregate.fold.add(&aggregate.spec, row);
            }
        }
    }

    #[inline]
    fn may_edit(&self) -> Result<(), Refusal> {
        if self.edits < self.limits.edits {
            Ok(())
        } else {
            Err(Refusal::EditsUsedUp)
        }
    }

    /// Returns a row's place, if it may be edited.
    #[inline]
    fn editable(&self, place: u32) -> Result<usize, Refusal> {
        match self.alive.get(place as usize) {
            None => return Err(Refusal::NoRow),
            Some(false) => return Err(Refusal::RemovedRow),
            Some(true) => (),
        }
        let place = place as usize;
        if self.away > 0 {
            self.absent(self.group_of(place), 0..self.kinds.len())?;
        }
        self.may_edit()?;
        Ok(place)
    }

    /// Replaces a cell.
    #[inline]
    pub fn set(&mut self, place: u32, column: usize, field: &Field<'_>) -> Result<(), Refusal> {
        let kind = *self.kinds.get(column).ok_or(Refusal::NoColumn)?;
        if let Field::Text(text) = field {
            if kind == Kind::Number {
                return Err(Refusal::WrongKind);
            }
            if text.len() > 4_096 {
                return Err(Refusal::TextTooLong);
            }
        }
        let place = self.editable(place)?;
        self.edits += 1;
        if self.has_jobs {
            let group = self.group_of(place);
            self.objects[column][group].write();
        }
        if kind == Kind::Text {
            let (old, group) = (bytes_at(&self.columns[column], place), self.group_of(place));
            self.space
                .replace(&mut self.objects[column][group], old, bytes_of(field))?;
        }
        if self.aggregates.is_empty() {
            self.columns[column].set(place, field);
        } else {
            self.set_under_aggregates(place, column, field);
        }
        Ok(())
    }

    fn set_under_aggregates(&mut self, place: usize, column: usize, field: &Field<'_>) {
        let (group, difference) = (self.group_of(place), self.difference(place, column, field));
        // By number of an aggregate: whether the row must be added again, and whether its block must be read.
        let (mut taken, mut again) = (0u32, 0u32);
        let row = At::of_table(&self.columns, place, self.block);
        for (number, aggregate) in self.aggregates.iter_mut().enumerate() {
            let Some(Aggregate { spec, fold, .. }) =
                aggregate.as_mut().filter(|it| !it.is_pending(group))
            else {
                continue;
            };
            let is_changed = match difference {
                Some(difference) if spec.value == column && !spec.decides(column) => {
                    fold.change(spec, row, difference)
                }
                _ => !spec.needs(column),
            };
            if !is_changed {
                taken |= 1 << number;
                again |= u32::from(fold.subtract(spec, row)) << number;
            }
        }
        self.columns[column].set(place, field);
        if taken != 0 {
            self.add_again(taken, again, place);
        }
    }

    /// The difference that a set makes, if neither number is missing.
    #[inline]
    fn difference(&self, place: usize, column: usize, field: &Field<'_>) -> Option<i128> {
        let Field::Number(new) = field else {
            return None;
        };
        let old = self.columns[column].number(place)?;
        Some(i128::from(*new) - i128::from(old))
    }

    /// Adds a row to the aggregates in `taken`, and reads its block for those in `again`.
    fn add_again(&mut self, taken: u32, again: u32, place: usize) {
        let row = At::of_table(&self.columns, place, self.block);
        for (number, aggregate) in self.aggregates.iter_mut().enumerate() {
            let is_added = (taken & !again) & 1 << number != 0;
            if let Some(aggregate) = aggregate.as_mut().filter(|_| is_added) {
                aggregate.fold.add(&aggregate.spec, row);
            }
        }
        if again != 0 {
            self.read_block_again(again, place / self.block);
        }
    }

    /// Finds the extrema of a block again, for the aggregates in `again`.
    fn read_block_again(&mut self, again: u32, block: usize) {
        let places = block * self.block..((block + 1) * self.block).min(self.alive.len());
        for (number, aggregate) in self.aggregates.iter_mut().enumerate() {
            if let Some(aggregate) = aggregate.as_mut().filter(|_| again & 1 << number != 0) {
                let ends = aggregate
                    .spec
                    .ends(&self.columns, &self.alive, places.clone());
                aggregate.fold.set_ends(block, ends);
            }
        }
    }

    /// Removes a row.
    pub fn remove(&mut self, place: u32) -> Result<(), Refusal> {
        let place = self.editable(place)?;
        let group = self.group_of(place);
        self.edits += 1;
        self.removals[group] += 1;
        self.alive[place] = false;
        let row = At::of_table(&self.columns, place, self.block);
        let mut again = 0;
        for (number, aggregate) in self.aggregates.iter_mut().enumerate() {
            if let Some(Aggregate { spec, fold, .. }) =
                aggregate.as_mut().filter(|it| !it.is_pending(group))
            {
                again |= u32::from(fold.subtract(spec, row)) << number;
            }
        }
        if again != 0 {
            self.read_block_again(again, place / self.block);
        }
        Ok(())
    }
}
