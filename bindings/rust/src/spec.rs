use std::fmt;
use std::hash::Hash;
use std::marker::PhantomData;
use std::sync::Arc;

use crate::cell::from_number;
use crate::schema::sealed::Find;
use crate::sys::{FC_EXTREMA, FC_TOTALS, fc_bytes, fc_test};
use crate::{Key, Kind, Refusal, Schema};

/// The comparison of a test, between a cell and a constant: of numbers, or of texts by bytes.
///
/// A test of a missing cell is false.
///
/// ```
/// use fullercoral::{Op, totals};
///
/// let spec = totals("quantity").only("quantity", Op::Gt, 0).only("sku", Op::Begins, "br");
/// # let _ = spec;
/// ```
#[derive(Debug, Clone, Copy, PartialEq, Eq, Hash)]
#[non_exhaustive]
pub enum Op {
    /// Equal to a number or a text.
    Eq,
    /// Not equal to a number.
    Ne,
    /// Less than a number.
    Lt,
    /// At most a number.
    Le,
    /// Greater than a number.
    Gt,
    /// At least a number.
    Ge,
    /// Equal to a number or a text, as [`Op::Eq`]: the script language has this word for texts.
    Is,
    /// Begins with a text. The only other comparisons of texts are `Eq` and `Is`.
    Begins,
}

/// The constant of a test. It converts from integers that fit an `i64`, from `&str`, and from `String` or
/// a reference to one. A literal beyond 32 bits needs its type.
///
/// ```
/// use fullercoral::Constant;
///
/// assert_eq!(Constant::from(5), Constant::Int(5));
/// assert_eq!(Constant::from(5_000_000_000_i64), Constant::Int(5_000_000_000));
/// assert_eq!(Constant::from(String::from("rye")), Constant::from("rye"));
/// ```
#[derive(Debug, Clone, PartialEq, Eq, Hash)]
pub enum Constant {
    /// A number.
    Int(i64),
    /// A text of at most 4,096 bytes.
    Text(Box<str>),
}

from_number!(Constant);

impl From<&str> for Constant {
    fn from(text: &str) -> Constant {
        Constant::Text(text.into())
    }
}

impl From<&String> for Constant {
    fn from(text: &String) -> Constant {
        text.as_str().into()
    }
}

impl From<String> for Constant {
    fn from(text: String) -> Constant {
        Constant::Text(text.into())
    }
}

/// A registered aggregate: [`Totals`] or [`Extrema`]. The trait is sealed: no other type can implement it.
///
/// ```
/// use fullercoral::{Aggregate, Spec, Totals, extrema, totals};
///
/// fn by_sku<A: Aggregate>(spec: Spec<A>) -> Spec<A> {
///     spec.by("sku")
/// }
/// let (quantities, prices) = (by_sku(totals("quantity")), by_sku(extrema("price")));
/// # let _ = (quantities, prices);
/// ```
pub trait Aggregate: Copy + sealed::Numbered {
    /// A line of its answer.
    type Line<'a>: fmt::Debug + Copy + Ord + Hash;
}

/// An aggregate that counts values and sums them. [`Table::watch`](crate::Table::watch) returns it.
///
/// ```
/// use fullercoral::{Limits, Memory, Schema, Table, Totals, row, totals};
///
/// let mut table = Table::open(Schema::new().int("price"), Limits::new(), Memory::new())?;
/// let total: Totals = table.watch(totals("price"))?;
/// table.extend([row![5], row![7]])?;
/// let line = table.ask(total)?.next().unwrap();
/// assert_eq!((line.count, line.sum), (2, 12));
/// # Ok::<(), Box<dyn std::error::Error>>(())
/// ```
#[derive(Debug, Clone, Copy, PartialEq, Eq, Hash)]
#[must_use = "an aggregate that nobody has a handle of can be neither asked nor forgotten"]
pub struct Totals(pub(crate) Id);

/// An aggregate of least and greatest values. [`Table::watch`](crate::Table::watch) returns it.
///
/// ```
/// use fullercoral::{Extrema, Limits, Memory, Schema, Table, extrema, row};
///
/// let mut table = Table::open(Schema::new().int("price"), Limits::new(), Memory::new())?;
/// let ends: Extrema = table.watch(extrema("price"))?;
/// table.extend([row![5], row![7]])?;
/// let line = table.ask(ends)?.next().unwrap();
/// assert_eq!((line.min, line.max), (5, 7));
/// # Ok::<(), Box<dyn std::error::Error>>(())
/// ```
#[derive(Debug, Clone, Copy, PartialEq, Eq, Hash)]
#[must_use = "an aggregate that nobody has a handle of can be neither asked nor forgotten"]
pub struct Extrema(pub(crate) Id);

/// Identifies a registration: its number in the table, and a unique stamp, which tells forgotten
/// aggregates and those of other tables.
#[derive(Debug, Clone, Copy, PartialEq, Eq, Hash)]
pub struct Id {
    pub(crate) number: u32,
    pub(crate) stamp: u64,
}

impl Aggregate for Totals {
    type Line<'a> = TotalsLine<'a>;
}

impl Aggregate for Extrema {
    type Line<'a> = ExtremaLine<'a>;
}

/// A line of an answer of [`Totals`]. Lines are ordered by key.
///
/// ```
/// use fullercoral::{Key, TotalsLine};
///
/// let line = TotalsLine { key: Key::Text("rye"), count: 2, sum: 12 };
/// assert_eq!(line.sum / i128::from(line.count), 6);
/// ```
#[derive(Debug, Clone, Copy, PartialEq, Eq, PartialOrd, Ord, Hash)]
pub struct TotalsLine<'a> {
    /// The key.
    pub key: Key<'a>,
    /// The number of values of this key.
    pub count: u64,
    /// The sum of the values. It cannot overflow.
    pub sum: i128,
}

/// A line of an answer of [`Extrema`]. Lines are ordered by key.
///
/// ```
/// use fullercoral::{ExtremaLine, Key};
///
/// let line = ExtremaLine { key: Key::Int(3), min: -5, max: 7 };
/// assert_eq!(line.max - line.min, 12);
/// ```
#[derive(Debug, Clone, Copy, PartialEq, Eq, PartialOrd, Ord, Hash)]
pub struct ExtremaLine<'a> {
    /// The key.
    pub key: Key<'a>,
    /// The least value of this key.
    pub min: i64,
    /// The greatest value of this key.
    pub max: i64,
}

/// The specification of an aggregate: [`totals`] or [`extrema`] makes it, and
/// [`Table::watch`](crate::Table::watch) registers it.
///
/// ```
/// use fullercoral::{Op, totals};
///
/// let spec = totals("quantity").by("sku").only("quantity", Op::Gt, 0);
/// # let _ = spec;
/// ```
#[derive(Debug, Clone, PartialEq, Eq)]
#[must_use]
pub struct Spec<A> {
    value: Arc<str>,
    key: Option<Arc<str>>,
    tests: Vec<Test>,
    aggregate: PhantomData<A>,
}

#[derive(Debug, Clone, PartialEq, Eq)]
struct Test {
    column: Arc<str>,
    op: Op,
    constant: Constant,
}

/// Counts and sums the numbers of a column. It skips rows without a value or a key.
///
/// ```
/// let spec = fullercoral::totals("quantity").by("sku");
/// # let _ = spec;
/// ```
#[doc(alias("count", "sum", "average"))]
pub fn totals(column: &str) -> Spec<Totals> {
    Spec::of(column)
}

/// Finds the least and the greatest number of a column. It skips rows without a value or a key.
///
/// The table keeps both for each key in each row group, in some 24 bytes that local memory does not
/// include. Larger row groups need fewer: see [`Limits::group`](crate::Limits::group).
///
/// ```
/// let spec = fullercoral::extrema("price").by("sku");
/// # let _ = spec;
/// ```
#[doc(alias("min", "max"))]
pub fn extrema(column: &str) -> Spec<Extrema> {
    Spec::of(column)
}

impl<A> Spec<A> {
    fn of(value: &str) -> Spec<A> {
        Spec {
            value: value.into(),
            key: None,
            tests: Vec::new(),
            aggregate: PhantomData,
        }
    }

    /// Groups by a column of either kind: the answer has a line for each key.
    ///
    /// ```
    /// let spec = fullercoral::totals("quantity").by("sku");
    /// # let _ = spec;
    /// ```
    #[doc(alias = "group_by")]
    pub fn by(mut self, column: &str) -> Spec<A> {
        self.key = Some(column.into());
        self
    }

    /// Adds a test that rows must pass to count; at most 4.
    ///
    /// ```
    /// use fullercoral::{Op, totals};
    ///
    /// let spec = totals("quantity").only("price", Op::Ge, 10).only("price", Op::Lt, 20);
    /// # let _ = spec;
    /// ```
    #[doc(alias("filter", "where"))]
    pub fn only(mut self, column: &str, op: Op, constant: impl Into<Constant>) -> Spec<A> {
        self.tests.push(Test {
            column: column.into(),
            op,
            constant: constant.into(),
        });
        self
    }
}

/// A spec with its columns resolved: an `fc_spec` without the addresses.
#[derive(Debug, Clone)]
pub(crate) struct Resolved {
    pub value: u32,
    pub key: Option<u32>,
    pub tests: Vec<(u32, u32, Constant)>,
    pub fold: u32,
}

impl<A: sealed::Numbered> Spec<A> {
    /// Resolves the columns. Refuses with the first of `BadSpec`, `NoColumn`, and `WrongKind` or `WrongOp`
    /// that applies.
    pub(crate) fn resolve(&self, schema: &Schema) -> Result<Resolved, Refusal> {
        let rules = [
            (self.tests.len() <= 4, "it has at most 4 tests"),
            (
                !self.tests.iter().any(Test::is_too_long),
                "a text constant has at most 4,096 bytes",
            ),
        ];
        if let Some((_, rule)) = rules.iter().find(|(holds, _)| !holds) {
            return Err(Refusal::BadSpec { rule });
        }
        let find = |column: &Arc<str>| (&**column).index_in(schema);
        let value = find(&self.value)?;
        let key = self.key.as_ref().map(find).transpose()?;
        let columns = self.tests.iter().map(|test| find(&test.column));
        let columns = columns.collect::<Result<Vec<u32>, Refusal>>()?;
        if schema.kind_at(value as usize) != Some(Kind::Int) {
            return Err(schema.wrong_kind(value));
        }
        let raw = |(test, column): (&Test, u32)| {
            let op = test.code(schema, column)?;
            Ok((column, op, test.constant.clone()))
        };
        let tests = self.tests.iter().zip(columns).map(raw);
        Ok(Resolved {
            value,
            key,
            tests: tests.collect::<Result<_, Refusal>>()?,
            fold: A::FOLD,
        })
    }
}

impl Test {
    fn is_too_long(&self) -> bool {
        matches!(&self.constant, Constant::Text(text) if text.len() > 4_096)
    }

    // The number of the comparison. Refuses a column, a comparison and a constant of different kinds.
    fn code(&self, schema: &Schema, column: u32) -> Result<u32, Refusal> {
        let kind = match self.constant {
            Constant::Int(_) => Kind::Int,
            Constant::Text(_) => Kind::Text,
        };
        if schema.kind_at(column as usize) != Some(kind) {
            return Err(schema.wrong_kind(column));
        }
        match (self.op, kind) {
            (Op::Eq | Op::Is, Kind::Int) => Ok(0),
            (Op::Ne, Kind::Int) => Ok(1),
            (Op::Lt, Kind::Int) => Ok(2),
            (Op::Le, Kind::Int) => Ok(3),
            (Op::Gt, Kind::Int) => Ok(4),
            (Op::Ge, Kind::Int) => Ok(5),
            (Op::Eq | Op::Is, Kind::Text) => Ok(6),
            (Op::Begins, Kind::Text) => Ok(7),
            (op, kind) => {
                let column = schema.label(column);
                Err(Refusal::WrongOp { column, op, kind })
            }
        }
    }
}

impl Resolved {
    pub(crate) fn raw_tests(&self) -> Vec<fc_test> {
        let raw = |(column, op, constant): &(u32, u32, Constant)| {
            let (number, text) = match constant {
                Constant::Int(number) => (*number, fc_bytes::NONE),
                Constant::Text(text) => (0, fc_bytes::of(text.as_bytes())),
            };
            fc_test {
                number,
                text,
                column: *column,
                op: *op,
            }
        };
        self.tests.iter().map(raw).collect()
    }
}

pub(crate) mod sealed {
    use super::{ExtremaLine, FC_EXTREMA, FC_TOTALS, Id, Key, TotalsLine};
    use crate::answer::StoredLine;

    /// An aggregate's handle, which has a number and makes lines.
    pub trait Numbered: Sized {
        const FOLD: u32;
        fn of(id: Id) -> Self;
        fn id(&self) -> Id;
        fn line<'a>(key: Key<'a>, line: &StoredLine) -> <Self as super::Aggregate>::Line<'a>
        where
            Self: super::Aggregate;
    }

    impl Numbered for super::Totals {
        const FOLD: u32 = FC_TOTALS;

        fn of(id: Id) -> Self {
            super::Totals(id)
        }

        fn id(&self) -> Id {
            self.0
        }

        fn line<'a>(key: Key<'a>, line: &StoredLine) -> TotalsLine<'a> {
            TotalsLine {
                key,
                count: line.count,
                sum: line.sum,
            }
        }
    }

    impl Numbered for super::Extrema {
        const FOLD: u32 = FC_EXTREMA;

        fn of(id: Id) -> Self {
            super::Extrema(id)
        }

        fn id(&self) -> Id {
            self.0
        }

        fn line<'a>(key: Key<'a>, line: &StoredLine) -> ExtremaLine<'a> {
            ExtremaLine {
                key,
                min: line.min,
                max: line.max,
            }
        }
    }
}
