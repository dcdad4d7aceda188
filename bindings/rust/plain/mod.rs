//! A plain table: vectors and maps, all in memory, written by hand and not proved. Tests compare each
//! reply of a table with its reply, and the benchmarks compare times.
#![allow(dead_code)]

use fullercoral::{Cell, Key, Kind, Op, Refusal};

mod blocks;
mod fold;
mod keyed;

use fold::Fold;

/// The fold of a plain aggregate.
#[derive(Debug, Clone, Copy, PartialEq, Eq)]
pub enum What {
    Totals,
    Extrema,
}

/// A test of a row, by the column's index.
#[derive(Debug, Clone)]
pub enum Test {
    Int(usize, Op, i64),
    Text(usize, Op, String),
}

/// A plain aggregate, by the columns' indices.
#[derive(Debug, Clone)]
pub struct PlainSpec {
    pub what: What,
    pub value: usize,
    pub key: Option<usize>,
    pub tests: Vec<Test>,
}

/// A line of an answer. The aggregate's fold says which of its numbers are used.
#[derive(Debug, Clone, Copy, PartialEq, Eq)]
pub struct PlainLine<'a> {
    pub key: Key<'a>,
    pub count: u64,
    pub sum: i128,
    pub min: i64,
    pub max: i64,
}

#[derive(Debug, Clone)]
pub enum PlainColumn {
    Ints(Vec<Option<i64>>),
    Texts(Vec<Option<Box<str>>>),
}

impl PlainColumn {
    fn of(kind: Kind) -> PlainColumn {
        match kind {
            Kind::Int => PlainColumn::Ints(Vec::new()),
            Kind::Text => PlainColumn::Texts(Vec::new()),
        }
    }

    pub fn kind(&self) -> Kind {
        match self {
            PlainColumn::Ints(_) => Kind::Int,
            PlainColumn::Texts(_) => Kind::Text,
        }
    }

    #[inline]
    pub fn int(&self, place: usize) -> Option<i64> {
        match self {
            PlainColumn::Ints(values) => values[place],
            PlainColumn::Texts(_) => None,
        }
    }

    #[inline]
    pub fn text(&self, place: usize) -> Option<&str> {
        match self {
            PlainColumn::Ints(_) => None,
            PlainColumn::Texts(values) => values[place].as_deref(),
        }
    }

    #[inline]
    pub fn cell(&self, place: usize) -> Cell<'_> {
        match self {
            PlainColumn::Ints(values) => values[place].into(),
            PlainColumn::Texts(values) => values[place].as_deref().into(),
        }
    }

    #[inline]
    fn push(&mut self, cell: Cell<'_>) {
        match self {
            PlainColumn::Ints(values) => values.push(cell.int()),
            PlainColumn::Texts(values) => values.push(cell.text().map(Box::from)),
        }
    }

    #[inline]
    fn set(&mut self, place: usize, cell: Cell<'_>) {
        match self {
            PlainColumn::Ints(values) => values[place] = cell.int(),
            PlainColumn::Texts(values) => values[place] = cell.text().map(Box::from),
        }
    }
}

/// The columns of a plain table, and which rows are alive.
#[derive(Debug)]
pub struct Rows {
    pub columns: Vec<PlainColumn>,
    pub alive: Vec<bool>,
}

impl Rows {
    #[inline]
    pub fn passes(&self, spec: &PlainSpec, place: usize) -> bool {
        spec.tests
            .iter()
            .all(|test| test.holds(&self.columns, place))
    }
}

impl Test {
    #[inline]
    fn holds(&self, columns: &[PlainColumn], place: usize) -> bool {
        match self {
            Test::Int(column, op, constant) => {
                columns[*column].int(place).is_some_and(|cell| match op {
                    Op::Eq => cell == *constant,
                    Op::Ne => cell != *constant,
                    Op::Lt => cell < *constant,
                    Op::Le => cell <= *constant,
                    Op::Gt => cell > *constant,
                    _ => cell >= *constant,
                })
            }
            Test::Text(column, op, constant) => {
                columns[*column].text(place).is_some_and(|cell| match op {
                    Op::Is => cell == constant,
                    _ => cell.starts_with(constant.as_str()),
                })
            }
        }
    }
}

/// The plain table.
#[derive(Debug)]
pub struct Plain {
    pub rows: Rows,
    places: usize,
    aggregates: Vec<Option<(PlainSpec, Fold)>>,
}

impl Plain {
    pub fn new(kinds: &[Kind], places: u32) -> Plain {
        Plain {
            rows: Rows {
                columns: kinds.iter().map(|kind| PlainColumn::of(*kind)).collect(),
                alive: Vec::new(),
            },
            places: places as usize,
            aggregates: Vec::new(),
        }
    }

    pub fn len(&self) -> usize {
        self.rows.alive.len()
    }

    /// Why a row cannot be inserted, as the number of the refusal.
    pub fn insert_refusal(&self, row: &[Cell<'_>]) -> Option<u32> {
        let kinds = self.rows.columns.iter().map(|column| column.kind());
        if kinds
            .zip(row)
            .any(|(kind, cell)| cell.kind().is_some_and(|own| own != kind))
        {
            return Some(5);
        }
        if row.len() != self.rows.columns.len() {
            return Some(6);
        }
        if row
            .iter()
            .any(|cell| cell.text().is_some_and(|text| text.len() > 4_096))
        {
            return Some(7);
        }
        (self.len() >= self.places).then_some(10)
    }

    #[inline]
    pub fn insert(&mut self, row: &[Cell<'_>]) -> u32 {
        for (column, cell) in self.rows.columns.iter_mut().zip(row) {
            column.push(*cell);
        }
        self.rows.alive.push(true);
        let place = self.rows.alive.len() - 1;
        for (spec, fold) in self.aggregates.iter_mut().flatten() {
            fold.add(spec, &self.rows, place);
        }
        place as u32
    }

    fn place_refusal(&self, place: u32) -> Option<u32> {
        match self.rows.alive.get(place as usize) {
            None => Some(8),
            Some(false) => Some(9),
            Some(true) => None,
        }
    }

    /// Why a cell cannot be set.
    pub fn set_refusal(&self, column: usize, place: u32, cell: Cell<'_>) -> Option<u32> {
        let Some(own) = self.rows.columns.get(column) else {
            return Some(4);
        };
        if cell.kind().is_some_and(|kind| kind != own.kind()) {
            return Some(5);
        }
        if cell.text().is_some_and(|text| text.len() > 4_096) {
            return Some(7);
        }
        self.place_refusal(place)
    }

    #[inline]
    pub fn set(&mut self, column: usize, place: u32, cell: Cell<'_>) {
        let place = place as usize;
        let mut touched = 0u32;
        for (number, entry) in self.aggregates.iter_mut().enumerate() {
            if let Some((spec, fold)) = entry {
                if spec.needs(column) {
                    touched |= 1 << number;
                    fold.retract(spec, &self.rows, place);
                }
            }
        }
        self.rows.columns[column].set(place, cell);
        for (number, entry) in self.aggregates.iter_mut().enumerate() {
            if let (Some((spec, fold)), true) = (entry, touched & 1 << number != 0) {
                fold.add(spec, &self.rows, place);
                fold.repair(spec, &self.rows, place);
            }
        }
    }

    /// Why a row cannot be removed.
    pub fn remove_refusal(&self, place: u32) -> Option<u32> {
        self.place_refusal(place)
    }

    #[inline]
    pub fn remove(&mut self, place: u32) {
        let place = place as usize;
        for (spec, fold) in self.aggregates.iter_mut().flatten() {
            fold.retract(spec, &self.rows, place);
        }
        self.rows.alive[place] = false;
        for (spec, fold) in self.aggregates.iter_mut().flatten() {
            fold.repair(spec, &self.rows, place);
        }
    }

    /// Registers an aggregate under the lowest free number, and folds all rows into it.
    pub fn watch(&mut self, spec: PlainSpec) -> Result<usize, Refusal> {
        let number = self.aggregates.iter().position(Option::is_none);
        let number = number.unwrap_or(self.aggregates.len());
        if number == 32 {
            return Err(Refusal::TooManyAggregates);
        }
        let mut fold = Fold::new(&spec, &self.rows);
        fold.add_all(&spec, &self.rows);
        if number == self.aggregates.len() {
            self.aggregates.push(None);
        }
        self.aggregates[number] = Some((spec, fold));
        Ok(number)
    }

    pub fn unwatch(&mut self, number: usize) {
        self.aggregates[number] = None;
    }

    /// Calls `line` for each line of the answer of an aggregate, in the order of keys.
    pub fn answer(&mut self, number: usize, line: impl FnMut(PlainLine<'_>)) {
        if let Some(Some((_, fold))) = self.aggregates.get_mut(number) {
            fold.answer(line);
        }
    }

    /// The same, computed from scratch.
    pub fn recount(&self, number: usize, line: impl FnMut(PlainLine<'_>)) {
        if let Some(Some((spec, _))) = self.aggregates.get(number) {
            let mut fold = Fold::new(spec, &self.rows);
            fold.add_all(spec, &self.rows);
            fold.answer(line);
        }
    }
}

impl PlainSpec {
    pub fn needs(&self, column: usize) -> bool {
        let tested = |test: &Test| match test {
            Test::Int(own, _, _) | Test::Text(own, _, _) => *own == column,
        };
        self.value == column || self.key == Some(column) || self.tests.iter().any(tested)
    }
}
