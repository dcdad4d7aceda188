//! Answers of aggregates, computed from all rows.

use std::collections::BTreeMap;

use fullercoral::{Constant, ExtremaLine, Key, Op, TotalsLine};

use super::Model;
use crate::call::{Folding, Owned};

/// A key that owns its text. The order is that of answers.
#[derive(Debug, PartialEq, Eq, PartialOrd, Ord)]
enum OwnedKey {
    None,
    Int(i64),
    Text(String),
}

impl OwnedKey {
    fn key(&self) -> Key<'_> {
        match self {
            OwnedKey::None => Key::None,
            OwnedKey::Int(number) => Key::Int(*number),
            OwnedKey::Text(text) => Key::Text(text),
        }
    }
}

fn passes(row: &[Owned], tests: &[(usize, Op, Constant)]) -> bool {
    tests.iter().all(
        |(column, op, constant)| match (op, &row[*column], constant) {
            (Op::Eq | Op::Is, Owned::Int(cell), Constant::Int(than)) => cell == than,
            (Op::Ne, Owned::Int(cell), Constant::Int(than)) => cell != than,
            (Op::Lt, Owned::Int(cell), Constant::Int(than)) => cell < than,
            (Op::Le, Owned::Int(cell), Constant::Int(than)) => cell <= than,
            (Op::Gt, Owned::Int(cell), Constant::Int(than)) => cell > than,
            (Op::Ge, Owned::Int(cell), Constant::Int(than)) => cell >= than,
            (Op::Eq | Op::Is, Owned::Text(cell), Constant::Text(than)) => **cell == **than,
            (Op::Begins, Owned::Text(cell), Constant::Text(than)) => cell.starts_with(&**than),
            _ => false,
        },
    )
}

fn key_of(row: &[Owned], key: Option<usize>) -> Option<OwnedKey> {
    match key.map(|column| &row[column]) {
        None => Some(OwnedKey::None),
        Some(Owned::Missing) => None,
        Some(Owned::Int(number)) => Some(OwnedKey::Int(*number)),
        Some(Owned::Text(text)) => Some(OwnedKey::Text(text.clone())),
    }
}

impl Model {
    /// The answer of an aggregate as a text.
    pub fn answer(&self, folding: &Folding) -> String {
        let mut values: BTreeMap<OwnedKey, Vec<i64>> = BTreeMap::new();
        for (row, alive) in self.rows.iter().zip(&self.alive) {
            if !alive || !passes(row, &folding.tests) {
                continue;
            }
            if let (Some(key), Some(value)) = (key_of(row, folding.key), row[folding.value].int()) {
                values.entry(key).or_default().push(value);
            }
        }
        if !folding.is_extrema && folding.key.is_none() {
            values.entry(OwnedKey::None).or_default();
        }
        if folding.is_extrema {
            extrema_lines(&values)
        } else {
            totals_lines(&values)
        }
    }
}

fn totals_lines(values: &BTreeMap<OwnedKey, Vec<i64>>) -> String {
    let mut lines = Vec::new();
    for (key, values) in values {
        lines.push(TotalsLine {
            key: key.key(),
            count: values.len() as u64,
            sum: values.iter().map(|value| i128::from(*value)).sum(),
        });
    }
    format!("{lines:?}")
}

fn extrema_lines(values: &BTreeMap<OwnedKey, Vec<i64>>) -> String {
    let mut lines = Vec::new();
    for (key, values) in values {
        lines.push(ExtremaLine {
            key: key.key(),
            min: values.iter().copied().min().unwrap_or(0),
            max: values.iter().copied().max().unwrap_or(0),
        });
    }
    format!("{lines:?}")
}
