//! Functions that tests share.
#![allow(dead_code)]

use fullercoral::{Constant, Extrema, Op, Schema, Spec, Totals, extrema, totals};

#[path = "../../plain/mod.rs"]
pub mod plain;

#[path = "../../plain/random.rs"]
mod random;

#[path = "../../plain/owned.rs"]
mod owned;

pub use owned::Owned;
pub use random::Random;

use plain::{PlainSpec, Test, What};

impl Random {
    pub fn value(&mut self) -> i64 {
        if self.one_in(50) {
            self.next() as i64
        } else {
            i64::from(self.below(200)) - 100
        }
    }

    pub fn text(&mut self) -> String {
        const WORDS: [&str; 6] = ["north", "south", "ea\u{df}t", "", "upper ", "lower"];
        let word = WORDS[self.below(6) as usize];
        format!("{word}{}", self.below(8))
    }
}

/// A registered aggregate of either kind.
#[derive(Debug, Clone, Copy)]
pub enum Handle {
    Totals(Totals),
    Extrema(Extrema),
}

/// The crate's spec for a plain one.
pub enum AnySpec {
    Totals(Spec<Totals>),
    Extrema(Spec<Extrema>),
}

pub fn spec_of(schema: &Schema, plain: &PlainSpec) -> AnySpec {
    let value = schema.name(plain.value).unwrap();
    match plain.what {
        What::Totals => AnySpec::Totals(with_rest(totals(value), schema, plain)),
        What::Extrema => AnySpec::Extrema(with_rest(extrema(value), schema, plain)),
    }
}

fn with_rest<A>(mut spec: Spec<A>, schema: &Schema, plain: &PlainSpec) -> Spec<A> {
    if let Some(key) = plain.key {
        spec = spec.by(schema.name(key).unwrap());
    }
    for test in &plain.tests {
        let (column, op, constant): (usize, Op, Constant) = match test {
            Test::Int(column, op, constant) => (*column, *op, (*constant).into()),
            Test::Text(column, op, constant) => (*column, *op, constant.as_str().into()),
        };
        spec = spec.only(schema.name(column).unwrap(), op, constant);
    }
    spec
}
