//! Aggregates as lines spell them.

use std::ops::Range;

use super::blocks::NOTHING;
use super::column::{Column, Kind};
use super::record::number;
use super::refusal::Refusal;
use super::script::Words;

/// What an aggregate computes.
#[derive(Clone, Copy)]
pub enum What {
    Totals,
    Extrema,
}

/// A test of a row.
pub enum Test {
    /// Whether a number is within `from` to `to`; or outside, if it is not `inside`.
    Number {
        column: usize,
        from: i64,
        to: i64,
        inside: bool,
    },
    /// Whether a text is this one.
    Is { column: usize, text: Box<[u8]> },
    /// Whether a text begins with this one.
    Begins { column: usize, text: Box<[u8]> },
}

/// An aggregate's values, its key and its tests.
pub struct Spec {
    pub what: What,
    pub value: usize,
    pub key: Option<usize>,
    tests: Vec<Test>,
}

impl Test {
    fn column(&self) -> usize {
        match self {
            Test::Number { column, .. } | Test::Is { column, .. } | Test::Begins { column, .. } => {
                *column
            }
        }
    }

    fn kind(&self) -> Kind {
        match self {
            Test::Number { .. } => Kind::Number,
            Test::Is { .. } | Test::Begins { .. } => Kind::Text,
        }
    }

    fn is_too_long(&self) -> bool {
        match self {
            Test::Number { .. } => false,
            Test::Is { text, .. } | Test::Begins { text, .. } => text.len() > 4_096,
        }
    }

    #[inline]
    fn holds(&self, cells: &[Column], at: usize) -> bool {
        match self {
            Test::Number {
                column,
                from,
                to,
                inside,
            } => {
                let number = cells[*column].number(at);
                number.is_some_and(|it| (*from <= it && it <= *to) == *inside)
            }
            Test::Is { column, text } => cells[*column].text(at) == Some(text),
            Test::Begins { column, text } => cells[*column]
                .text(at)
                .is_some_and(|it| it.starts_with(text)),
        }
    }
}

impl Spec {
    /// Returns whether the aggregate reads a column.
    #[inline]
    pub fn needs(&self, column: usize) -> bool {
        self.value == column || self.decides(column)
    }

    /// Returns whether a column decides where a row's value goes, by a test or as the key.
    #[inline]
    pub fn decides(&self, column: usize) -> bool {
        self.key == Some(column) || self.tests.iter().any(|test| test.column() == column)
    }

    /// Returns whether a row passes all tests.
    #[inline]
    pub fn passes(&self, cells: &[Column], at: usize) -> bool {
        self.tests.iter().all(|test| test.holds(cells, at))
    }

    /// Returns the least and the greatest value of the rows at some places.
    pub fn ends(&self, cells: &[Column], alive: &[bool], places: Range<usize>) -> (i64, i64) {
        let join = |ends: (i64, i64), value: i64| (ends.0.min(value), ends.1.max(value));
        let all = match &cells[self.value] {
            Column::Numbers(numbers) if self.tests.is_empty() => numbers.all(),
            _ => None,
        };
        if let Some(values) = all {
            let rows = values[places.clone()].iter().zip(&alive[places]);
            return rows.fold(
                NOTHING,
                |ends, (value, alive)| if *alive { join(ends, *value) } else { ends },
            );
        }
        let counted = places.filter(|place| alive[*place] && self.passes(cells, *place));
        counted
            .filter_map(|place| cells[self.value].number(place))
            .fold(NOTHING, join)
    }

    /// Returns why a table with these columns does not have this aggregate.
    pub fn refusal(&self, kinds: &[Kind]) -> Option<Refusal> {
        if self.tests.len() > 4 || self.tests.iter().any(Test::is_too_long) {
            return Some(Refusal::BadSpec);
        }
        let tested = self.tests.iter().map(Test::column);
        if tested
            .chain([self.value])
            .chain(self.key)
            .any(|it| it >= kinds.len())
        {
            return Some(Refusal::NoColumn);
        }
        let differs = |test: &Test| kinds[test.column()] != test.kind();
        let is_wrong = kinds[self.value] != Kind::Number || self.tests.iter().any(differs);
        is_wrong.then_some(Refusal::WrongKind)
    }
}

/// Reads the rest of a `watch`.
pub fn spec(words: &mut Words<'_>, kinds: &[Kind]) -> Option<Spec> {
    let what = match words.word()? {
        b"totals" => What::Totals,
        b"extrema" => What::Extrema,
        _ => return None,
    };
    let value = words.number()? as usize;
    let (mut key, mut tests) = (None, Vec::new());
    let mut next = words.word();
    if next == Some(b"by") {
        key = Some(words.number()? as usize);
        next = words.word();
    }
    while let Some(word) = next {
        if word != b"if" {
            return None;
        }
        let column = words.number()? as usize;
        let (operator, constant) = (words.word()?, words.word()?);
        tests.push(test(column, operator, constant, kinds)?);
        next = words.word();
    }
    Some(Spec {
        what,
        value,
        key,
        tests,
    })
}

/// The test that an operator and a constant spell for a column. If no test fits the column, it is one that
/// the table refuses.
fn test(column: usize, operator: &[u8], constant: &[u8], kinds: &[Kind]) -> Option<Test> {
    if constant.is_empty() {
        return None;
    }
    if operator == b"^=" {
        return Some(Test::Begins {
            column,
            text: constant.into(),
        });
    }
    let is = Test::Is {
        column,
        text: constant.into(),
    };
    let compared = number(constant).map(|it| comparison(column, operator, it));
    match (kinds.get(column), compared) {
        (Some(Kind::Text), _) if operator == b"=" => Some(is),
        (_, Some(compared)) => compared,
        (Some(Kind::Number), None) => comparison(column, operator, 0).and(Some(is)),
        (Some(Kind::Text), None) => None,
        (None, None) => comparison(column, operator, 0),
    }
}

/// A comparison with a number, as a test of a range.
fn comparison(column: usize, operator: &[u8], constant: i64) -> Option<Test> {
    let (from, to, inside) = match operator {
        b"=" => (constant, constant, true),
        b"!=" => (constant, constant, false),
        b"<" => (constant, i64::MAX, false),
        b"<=" => (i64::MIN, constant, true),
        b">" => (i64::MIN, constant, false),
        b">=" => (constant, i64::MAX, true),
        _ => return None,
    };
    Some(Test::Number {
        column,
        from,
        to,
        inside,
    })
}
