use std::fmt;
use std::slice;

use crate::sys::fc_cell;
use crate::{Cell, ColumnRef, Schema};

/// The cells of a row, with their texts borrowed from the table.
///
/// ```
/// use fullercoral::{Cell, Limits, Memory, Schema, Table, row};
///
/// let schema = Schema::new().text("sku").int("quantity");
/// let mut table = Table::open(schema, Limits::new(), Memory::new())?;
/// table.insert(row!["rye", 3])?;
/// let row = table.row(0)?;
/// assert_eq!(row.get("sku"), Some(Cell::Text("rye")));
/// assert_eq!(row.iter().collect::<Vec<_>>(), row!["rye", 3]);
/// # Ok::<(), Box<dyn std::error::Error>>(())
/// ```
pub struct Row<'t> {
    cells: &'t [fc_cell],
    schema: &'t Schema,
    alive: bool,
}

impl<'t> Row<'t> {
    /// Makes a row of cells that the library wrote.
    ///
    /// # Safety
    /// A call wrote the cells, and by rule 3 no other call with that handle is made within `'t`.
    pub(super) unsafe fn new(cells: &'t [fc_cell], schema: &'t Schema, alive: bool) -> Row<'t> {
        Row {
            cells,
            schema,
            alive,
        }
    }

    /// The cell of a column; `None` if there is no such column.
    ///
    /// ```
    /// # use fullercoral::{Cell, Limits, Memory, Schema, Table, row};
    /// # let mut table = Table::open(Schema::new().int("price"), Limits::new(), Memory::new())?;
    /// table.insert(row![5])?;
    /// assert_eq!(table.row(0)?.get("price"), Some(Cell::Int(5)));
    /// assert_eq!(table.row(0)?.get(1), None);
    /// # Ok::<(), Box<dyn std::error::Error>>(())
    /// ```
    #[must_use]
    pub fn get(&self, column: impl ColumnRef) -> Option<Cell<'t>> {
        let column = column.index_in(self.schema).ok()?;
        let cell = self.cells.get(column as usize)?;
        // SAFETY: rule 3, by `new`.
        Some(unsafe { Cell::of_raw(cell) })
    }

    /// The cells, in the order of the columns.
    ///
    /// ```
    /// # use fullercoral::{Cell, Limits, Memory, Schema, Table, row};
    /// # let mut table = Table::open(Schema::new().int("price"), Limits::new(), Memory::new())?;
    /// table.insert(row![5])?;
    /// assert_eq!(table.row(0)?.iter().len(), 1);
    /// # Ok::<(), Box<dyn std::error::Error>>(())
    /// ```
    pub fn iter(&self) -> RowIter<'t> {
        RowIter(self.cells.iter())
    }

    /// Whether the row is alive. A removed row still has its cells.
    ///
    /// ```
    /// # use fullercoral::{Cell, Limits, Memory, Schema, Table, row};
    /// # let mut table = Table::open(Schema::new().int("price"), Limits::new(), Memory::new())?;
    /// table.insert(row![5])?;
    /// table.remove(0)?;
    /// assert!(!table.row(0)?.is_alive());
    /// # Ok::<(), Box<dyn std::error::Error>>(())
    /// ```
    #[must_use]
    pub fn is_alive(&self) -> bool {
        self.alive
    }
}

/// The cells of a [`Row`], in the order of the columns.
///
/// ```
/// # use fullercoral::{Limits, Memory, Schema, Table, row};
/// let schema = Schema::new().text("sku").int("quantity");
/// let mut table = Table::open(schema, Limits::new(), Memory::new())?;
/// table.insert(row!["rye", 3])?;
/// for cell in table.row(0)? {
///     println!("{cell}");
/// }
/// # Ok::<(), Box<dyn std::error::Error>>(())
/// ```
#[derive(Clone)]
#[must_use]
pub struct RowIter<'t>(slice::Iter<'t, fc_cell>);

impl<'t> Iterator for RowIter<'t> {
    type Item = Cell<'t>;

    fn next(&mut self) -> Option<Cell<'t>> {
        // SAFETY: rule 3, by `Row::new`.
        self.0.next().map(|cell| unsafe { Cell::of_raw(cell) })
    }

    fn size_hint(&self) -> (usize, Option<usize>) {
        self.0.size_hint()
    }
}

impl ExactSizeIterator for RowIter<'_> {}

impl fmt::Debug for RowIter<'_> {
    fn fmt(&self, f: &mut fmt::Formatter<'_>) -> fmt::Result {
        f.debug_list().entries(self.clone()).finish()
    }
}

impl<'t> IntoIterator for Row<'t> {
    type Item = Cell<'t>;
    type IntoIter = RowIter<'t>;

    fn into_iter(self) -> RowIter<'t> {
        self.iter()
    }
}

impl<'t> IntoIterator for &Row<'t> {
    type Item = Cell<'t>;
    type IntoIter = RowIter<'t>;

    fn into_iter(self) -> RowIter<'t> {
        self.iter()
    }
}

impl fmt::Debug for Row<'_> {
    fn fmt(&self, f: &mut fmt::Formatter<'_>) -> fmt::Result {
        let names = self.schema.iter().map(|(name, _)| name);
        f.debug_map().entries(names.zip(self.iter())).finish()
    }
}
