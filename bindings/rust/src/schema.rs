use std::slice;
use std::sync::Arc;

use crate::Refusal;
use crate::sys::{FC_INT, FC_TEXT};

/// What a column holds.
///
/// ```
/// use fullercoral::{Kind, Schema};
///
/// assert_eq!(Schema::new().int("quantity").kind("quantity"), Some(Kind::Int));
/// ```
#[derive(Debug, Clone, Copy, PartialEq, Eq, Hash)]
pub enum Kind {
    /// Whole numbers of 64 bits, signed.
    Int,
    /// Texts of at most 4,096 bytes.
    Text,
}

impl Kind {
    pub(crate) fn code(self) -> u32 {
        match self {
            Kind::Int => FC_INT,
            Kind::Text => FC_TEXT,
        }
    }
}

/// The columns of a table: 1 to 16, each with a different name.
///
/// ```
/// use fullercoral::Schema;
///
/// let schema = Schema::new().text("sku").int("quantity");
/// assert_eq!(schema.len(), 2);
/// assert_eq!(schema.index("quantity"), Some(1));
/// ```
#[derive(Debug, Clone, Default, PartialEq, Eq)]
#[must_use]
pub struct Schema {
    columns: Vec<(Arc<str>, Kind)>,
}

impl Schema {
    /// Makes a schema without columns.
    ///
    /// ```
    /// assert!(fullercoral::Schema::new().is_empty());
    /// ```
    pub fn new() -> Schema {
        Schema::default()
    }

    /// Adds a column of numbers.
    ///
    /// ```
    /// let schema = fullercoral::Schema::new().int("price").int("quantity");
    /// assert_eq!(schema.name(1), Some("quantity"));
    /// ```
    pub fn int(self, name: &str) -> Schema {
        self.with(name, Kind::Int)
    }

    /// Adds a column of texts.
    ///
    /// ```
    /// let schema = fullercoral::Schema::new().text("sku");
    /// assert_eq!(schema.name(0), Some("sku"));
    /// ```
    pub fn text(self, name: &str) -> Schema {
        self.with(name, Kind::Text)
    }

    fn with(mut self, name: &str, kind: Kind) -> Schema {
        self.columns.push((name.into(), kind));
        self
    }

    /// How many columns there are.
    ///
    /// ```
    /// assert_eq!(fullercoral::Schema::new().int("price").len(), 1);
    /// ```
    #[must_use]
    pub fn len(&self) -> usize {
        self.columns.len()
    }

    /// Whether there is no column.
    ///
    /// ```
    /// assert!(!fullercoral::Schema::new().int("price").is_empty());
    /// ```
    #[must_use]
    pub fn is_empty(&self) -> bool {
        self.columns.is_empty()
    }

    /// The index of the column with this name.
    ///
    /// ```
    /// assert_eq!(fullercoral::Schema::new().int("price").index("prize"), None);
    /// ```
    #[must_use]
    pub fn index(&self, name: &str) -> Option<usize> {
        self.columns.iter().position(|(own, _)| **own == *name)
    }

    /// The name of the column with this index.
    ///
    /// ```
    /// assert_eq!(fullercoral::Schema::new().int("price").name(0), Some("price"));
    /// ```
    #[must_use]
    pub fn name(&self, index: usize) -> Option<&str> {
        self.columns.get(index).map(|(name, _)| &**name)
    }

    /// The kind of the column with this name.
    ///
    /// ```
    /// use fullercoral::{Kind, Schema};
    ///
    /// assert_eq!(Schema::new().text("sku").kind("sku"), Some(Kind::Text));
    /// ```
    #[must_use]
    pub fn kind(&self, name: &str) -> Option<Kind> {
        self.kind_at(self.index(name)?)
    }

    /// The names and kinds of all columns, in order.
    ///
    /// ```
    /// use fullercoral::{Kind, Schema};
    ///
    /// let schema = Schema::new().text("sku").int("quantity");
    /// let numbers: Vec<&str> =
    ///     schema.iter().filter(|(_, kind)| *kind == Kind::Int).map(|(name, _)| name).collect();
    /// assert_eq!(numbers, ["quantity"]);
    /// ```
    pub fn iter(&self) -> SchemaIter<'_> {
        SchemaIter(self.columns.iter())
    }

    pub(crate) fn kind_at(&self, index: usize) -> Option<Kind> {
        self.columns.get(index).map(|(_, kind)| *kind)
    }

    /// The number of columns of a kind.
    pub(crate) fn count(&self, kind: Kind) -> usize {
        self.columns.iter().filter(|(_, own)| *own == kind).count()
    }

    pub(crate) fn has_twin_names(&self) -> bool {
        let twin = |i: usize| self.index(&self.columns[i].0) != Some(i);
        (0..self.len()).any(twin)
    }

    /// The refusal of a value that does not have a column's kind.
    pub(crate) fn wrong_kind(&self, index: u32) -> Refusal {
        Refusal::WrongKind {
            column: self.label(index),
            kind: self.kind_at(index as usize).unwrap_or(Kind::Int),
        }
    }

    /// The name of a column for a refusal.
    pub(crate) fn label(&self, index: u32) -> Arc<str> {
        match self.columns.get(index as usize) {
            Some((name, _)) => Arc::clone(name),
            None => index.to_string().into(),
        }
    }
}

/// The names and kinds of the columns of a [`Schema`], in order.
///
/// ```
/// use fullercoral::Schema;
///
/// let schema = Schema::new().text("sku").int("quantity");
/// for (name, kind) in &schema {
///     println!("{name}: {kind:?}");
/// }
/// ```
#[derive(Debug, Clone)]
#[must_use]
pub struct SchemaIter<'s>(slice::Iter<'s, (Arc<str>, Kind)>);

impl<'s> Iterator for SchemaIter<'s> {
    type Item = (&'s str, Kind);

    fn next(&mut self) -> Option<(&'s str, Kind)> {
        self.0.next().map(|(name, kind)| (&**name, *kind))
    }

    fn size_hint(&self) -> (usize, Option<usize>) {
        self.0.size_hint()
    }
}

impl ExactSizeIterator for SchemaIter<'_> {}

impl<'s> IntoIterator for &'s Schema {
    type Item = (&'s str, Kind);
    type IntoIter = SchemaIter<'s>;

    fn into_iter(self) -> SchemaIter<'s> {
        self.iter()
    }
}

/// A column in a call: its name, or its index in the schema, which saves the search.
///
/// Implemented for `usize`, and for names as `&str`, `&&str`, `String`, `&String`, `Arc<str>` and
/// `&Arc<str>`. The trait is sealed: no other type can implement it.
///
/// ```
/// # use fullercoral::{Limits, Memory, Schema, Table, row};
/// # let mut table = Table::open(Schema::new().int("price"), Limits::new(), Memory::new())?;
/// # table.insert(row![5])?;
/// table.set("price", 0, 6)?;
/// table.set(0, 0, 7)?;
/// for column in ["price"].iter() {
///     assert!(table.is_local(column, 0)?);
/// }
/// # Ok::<(), Box<dyn std::error::Error>>(())
/// ```
pub trait ColumnRef: sealed::Find {}

impl ColumnRef for usize {}
impl ColumnRef for &str {}
impl ColumnRef for &&str {}
impl ColumnRef for String {}
impl ColumnRef for &String {}
impl ColumnRef for Arc<str> {}
impl ColumnRef for &Arc<str> {}

pub(crate) mod sealed {
    use super::{Arc, Refusal, Schema};

    /// Finds a column in a schema.
    pub trait Find {
        fn index_in(&self, schema: &Schema) -> Result<u32, Refusal>;
    }

    impl Find for &str {
        fn index_in(&self, schema: &Schema) -> Result<u32, Refusal> {
            let missing = || Refusal::NoColumn {
                column: (*self).into(),
            };
            schema.index(self).map(|i| i as u32).ok_or_else(missing)
        }
    }

    macro_rules! find_by_name {
        ($($name:ty),*) => { $(
            impl Find for $name {
                fn index_in(&self, schema: &Schema) -> Result<u32, Refusal> {
                    let name: &str = self;
                    name.index_in(schema)
                }
            }
        )* };
    }

    find_by_name!(&&str, String, &String, Arc<str>, &Arc<str>);

    impl Find for usize {
        fn index_in(&self, schema: &Schema) -> Result<u32, Refusal> {
            if *self < schema.len() {
                return Ok(*self as u32);
            }
            Err(Refusal::NoColumnAt {
                index: *self,
                columns: schema.len(),
            })
        }
    }
}
