//! Aggregates of a table: registering, building, asking.

use super::fold::{Fold, Rows};
use super::moving::Store;
use super::refusal::Refusal;
use super::reply::Replies;
use super::spec::Spec;
use super::table::{Aggregate, Table};

/// The most aggregates that are registered at once.
const MOST: usize = 32;

impl Table {
    /// Registers an aggregate under the lowest free number.
    pub fn watch(&mut self, spec: Spec) -> Result<usize, Refusal> {
        if let Some(refusal) = spec.refusal(&self.kinds) {
            return Err(refusal);
        }
        let free = self.aggregates.iter().position(Option::is_none);
        let number = free.unwrap_or(self.aggregates.len());
        if number == MOST {
            return Err(Refusal::TooManyAggregates);
        }
        if free.is_none() {
            self.aggregates.push(None);
        }
        self.registrations += 1;
        self.aggregates[number] = Some(Aggregate {
            fold: Fold::new(&spec, &self.kinds),
            spec,
            pending: vec![true; self.groups()],
            left: self.groups(),
            registration: self.registrations,
        });
        Ok(number)
    }

    /// Forgets an aggregate.
    pub fn unwatch(&mut self, number: usize) -> Result<(), Refusal> {
        self.aggregate(number)?;
        self.aggregates[number] = None;
        while let Some(None) = self.aggregates.last() {
            self.aggregates.pop();
        }
        Ok(())
    }

    /// The aggregate with a number.
    pub fn aggregate(&self, number: usize) -> Result<&Aggregate, Refusal> {
        let aggregate = self.aggregates.get(number).and_then(Option::as_ref);
        aggregate.ok_or(Refusal::NoAggregate)
    }

    /// The aggregate with a number, if this row group of it is pending.
    pub fn pending(&self, number: usize, group: usize) -> Result<&Aggregate, Refusal> {
        let aggregate = self.aggregate(number)?;
        if group >= self.groups() {
            return Err(Refusal::OutOfRange);
        }
        if aggregate.is_pending(group) {
            Ok(aggregate)
        } else {
            Err(Refusal::StaleJob)
        }
    }

    /// Builds a row group into an aggregate.
    pub fn scan(&mut self, number: usize, group: usize) -> Result<(), Refusal> {
        let spec = &self.pending(number, group)?.spec;
        self.absent(
            group,
            (0..self.kinds.len()).filter(|column| spec.needs(*column)),
        )?;
        let places = self.places(group);
        if let Some(Some(aggregate)) = self.aggregates.get_mut(number) {
            let (at, alive) = (places.start, &self.alive[places]);
            aggregate.build(
                group,
                Rows {
                    cells: &self.columns,
                    at,
                    alive,
                    place: at,
                    block: self.block,
                },
            );
        }
        Ok(())
    }

    /// Writes an aggregate's answer.
    pub fn ask(&mut self, number: usize, to: &mut Replies<'_>) -> Result<(), Refusal> {
        let Some(Some(aggregate)) = self.aggregates.get_mut(number) else {
            return Err(Refusal::NoAggregate);
        };
        if aggregate.left > 0 {
            return Err(Refusal::Building(aggregate.left));
        }
        aggregate.fold.print(to);
        Ok(())
    }

    /// Writes the answer of an aggregate over all rows. Row groups that are away are read from the store.
    pub fn recount(
        &self,
        number: usize,
        store: &Store,
        to: &mut Replies<'_>,
    ) -> Result<(), Refusal> {
        let spec = &self.aggregate(number)?.spec;
        let mut fold = Fold::new(spec, &self.kinds);
        let needed: Vec<usize> = (0..self.kinds.len())
            .filter(|column| spec.needs(*column))
            .collect();
        for group in 0..self.groups() {
            let places = self.places(group);
            let mut rows = Rows {
                cells: &self.columns,
                at: places.start,
                place: places.start,
                alive: &self.alive[places],
                block: self.block,
            };
            let read;
            if self.absent(group, needed.iter().copied()).is_err() {
                read = self.read_group(&needed, group, store);
                (rows.cells, rows.at) = (&read, 0);
            }
            fold.add_all(spec, rows);
        }
        fold.print(to);
        Ok(())
    }
}

impl Aggregate {
    /// Adds the rows of a pending row group.
    pub fn build(&mut self, group: usize, rows: Rows<'_>) {
        self.fold.add_all(&self.spec, rows);
        self.pending[group] = false;
        self.left -= 1;
    }
}
