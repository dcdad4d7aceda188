//! The crate's table as a program under test.

use fullercoral::{
    Aggregate, Cell, Column, Engine, Extrema, Kind, Limits, Memory, Schema, Spec, Table, Totals,
    extrema, totals,
};

use crate::plain::{PlainSpec, Test, What};
use crate::program::{Batch, Digest, Program};

/// The names of columns by their index.
const NAMES: [&str; 4] = ["a", "b", "c", "d"];

#[derive(Clone, Copy)]
enum Handle {
    Totals(Totals),
    Extrema(Extrema),
}

pub struct Far<E: Engine> {
    pub table: Table<E>,
    handles: Vec<Option<Handle>>,
}

fn fail<T, E: Engine>(result: Result<T, fullercoral::Error<E::Error>>) -> T {
    result.unwrap_or_else(|error| panic!("{error}"))
}

impl<E: Engine> Far<E> {
    pub fn over(engine: E, kinds: &[Kind], limits: Limits) -> Far<E> {
        let add = |schema: Schema, (name, kind): (&&str, &Kind)| match kind {
            Kind::Int => schema.int(name),
            Kind::Text => schema.text(name),
        };
        let schema = NAMES.iter().zip(kinds).fold(Schema::new(), add);
        let table = fail::<_, E>(Table::open(schema, limits, engine));
        let handles = Vec::new();
        Far { table, handles }
    }

    fn spec<A>(mut spec: Spec<A>, plain: &PlainSpec) -> Spec<A> {
        if let Some(key) = plain.key {
            spec = spec.by(NAMES[key]);
        }
        plain.tests.iter().fold(spec, |spec, test| match test {
            Test::Int(column, op, value) => spec.only(NAMES[*column], *op, *value),
            Test::Text(column, op, text) => spec.only(NAMES[*column], *op, text.as_str()),
        })
    }

    fn lines<A: Aggregate>(&mut self, aggregate: A, anew: bool, mut line: impl FnMut(A::Line<'_>)) {
        let lines = if anew {
            self.table.recount(aggregate)
        } else {
            self.table.ask(aggregate)
        };
        fail::<_, E>(lines).for_each(&mut line);
    }

    fn answer(&mut self, number: usize, anew: bool, digest: &mut Digest) {
        match self.handles[number] {
            Some(Handle::Totals(totals)) => self.lines(totals, anew, |line| {
                key(line.key, digest);
                digest.add(line.count);
                digest.add(line.sum as u64);
            }),
            Some(Handle::Extrema(extrema)) => self.lines(extrema, anew, |line| {
                key(line.key, digest);
                digest.int(Some(line.min));
                digest.int(Some(line.max));
            }),
            None => panic!("no such aggregate"),
        }
    }
}

pub fn key(key: fullercoral::Key<'_>, digest: &mut Digest) {
    match key {
        fullercoral::Key::None => digest.add(4),
        fullercoral::Key::Int(value) => digest.int(Some(value)),
        fullercoral::Key::Text(text) => digest.text(Some(text)),
    }
}

impl Program for Far<Memory> {
    fn open(kinds: &[Kind], group: u32) -> Self {
        let limits = Limits::new().local_memory(1 << 30).group(group);
        Far::over(Memory::new(), kinds, limits)
    }

    #[inline]
    fn insert(&mut self, row: &[Cell<'_>]) {
        fail::<_, Memory>(self.table.insert(row));
    }

    fn load(&mut self, batch: &Batch) {
        load(&mut self.table, batch);
    }

    #[inline]
    fn set(&mut self, column: usize, place: u32, value: i64) {
        fail::<_, Memory>(self.table.set(column, place, value));
    }

    #[inline]
    fn remove(&mut self, place: u32) {
        fail::<_, Memory>(self.table.remove(place));
    }

    fn watch(&mut self, spec: &PlainSpec) -> usize {
        watch(self, spec)
    }

    fn unwatch(&mut self, number: usize) {
        match self.handles[number].take() {
            Some(Handle::Totals(totals)) => fail::<_, Memory>(self.table.unwatch(totals)),
            Some(Handle::Extrema(extrema)) => fail::<_, Memory>(self.table.unwatch(extrema)),
            None => {}
        }
    }

    #[inline]
    fn ask(&mut self, number: usize, digest: &mut Digest) {
        self.answer(number, false, digest);
    }

    fn recount(&mut self, number: usize, digest: &mut Digest) {
        self.answer(number, true, digest);
    }

    fn read_ints(&mut self, column: usize, from: u32, to: u32, digest: &mut Digest) {
        let mut part = fail::<_, Memory>(self.table.ints(column, from..to));
        while let Some(piece) = fail::<_, Memory>(part.next_piece()) {
            piece.rows().for_each(|(_, value)| digest.int(value));
        }
    }

    fn read_texts(&mut self, column: usize, from: u32, to: u32, digest: &mut Digest) {
        let mut part = fail::<_, Memory>(self.table.texts(column, from..to));
        while let Some(piece) = fail::<_, Memory>(part.next_piece()) {
            piece.rows().for_each(|(_, text)| digest.text(text));
        }
    }

    fn dump(&mut self, digest: &mut Digest) {
        for place in 0..self.table.places() {
            let row = fail::<_, Memory>(self.table.row(place));
            if row.is_alive() {
                row.iter().for_each(|cell| digest.cell(cell));
            }
        }
    }

    fn evict(&mut self, column: usize, group: u32) {
        fail::<_, Memory>(self.table.evict(column, group));
    }

    fn fetch(&mut self, column: usize, group: u32) {
        fail::<_, Memory>(self.table.fetch(column, group));
    }
}

/// Registers an aggregate, and asks it once, which builds all rows into it.
pub fn watch<E: Engine>(far: &mut Far<E>, spec: &PlainSpec) -> usize {
    let value = NAMES[spec.value];
    let handle = match spec.what {
        What::Totals => {
            let watched = far.table.watch(Far::<E>::spec(totals(value), spec));
            Handle::Totals(fail::<_, E>(watched))
        }
        What::Extrema => {
            let watched = far.table.watch(Far::<E>::spec(extrema(value), spec));
            Handle::Extrema(fail::<_, E>(watched))
        }
    };
    let free = far.handles.iter().position(Option::is_none);
    let number = free.unwrap_or(far.handles.len());
    if number == far.handles.len() {
        far.handles.push(None);
    }
    far.handles[number] = Some(handle);
    far.answer(number, false, &mut Digest::default());
    number
}

pub fn load<E: Engine>(table: &mut Table<E>, batch: &Batch) {
    let ints = batch.ints.iter().map(|values| Column::ints(values));
    let texts = (!batch.offsets.is_empty()).then(|| Column::texts(&batch.offsets, &batch.bytes));
    let columns: Vec<Column<'_>> = ints.chain(texts).collect();
    fail::<_, E>(table.extend_columns(&columns));
}

/// Asks an aggregate of a table over any engine.
pub fn ask<E: Engine>(far: &mut Far<E>, number: usize, digest: &mut Digest) {
    far.answer(number, false, digest);
}

/// Sets a number of a table over any engine.
pub fn set<E: Engine>(far: &mut Far<E>, column: usize, place: u32, value: i64) {
    fail::<_, E>(far.table.set(column, place, value));
}
