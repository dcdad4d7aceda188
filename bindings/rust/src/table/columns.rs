use super::{Given, Table};
use crate::column::Column;
use crate::library::{Code, Coded};
use crate::sys::fc_column;
use crate::{Engine, Error, Refusal};

/// How many rows to give the library at once: a refused row costs a repetition of at most so many.
const BATCH: usize = 8_192;

impl<E: Engine> Table<E> {
    /// Appends rows given column by column, in the order of the schema, until one is refused. Returns how
    /// many it appended. If a row is refused, the rows before it stay:
    /// [`places`](Table::places) says how many there are.
    ///
    /// It is the fastest way to fill a table.
    ///
    /// ```
    /// # use fullercoral::{Column, Limits, Memory, Schema, Table, TextBuffer};
    /// let schema = Schema::new().text("sku").int("quantity");
    /// let mut table = Table::open(schema, Limits::new(), Memory::new())?;
    /// let skus: TextBuffer = ["bread", "rye"].into_iter().collect();
    /// table.extend_columns(&[skus.column(), Column::ints(&[5, 3])])?;
    /// assert_eq!(table.places(), 2);
    /// # Ok::<(), Box<dyn std::error::Error>>(())
    /// ```
    ///
    /// # Errors
    /// - `RowWidth`, `WrongKind`: the columns do not match the schema. No row is inserted.
    /// - `BadArgument`: the columns have different lengths, or too few offsets or bits: no row is inserted
    ///   then. Or the offsets of a row descend or are past the end of the bytes.
    /// - `NoUtf8`: a text is not valid UTF-8.
    /// - The errors of [`insert`](Table::insert).
    pub fn extend_columns(&mut self, columns: &[Column<'_>]) -> Result<usize, Error<E::Error>> {
        let rows = self.rows_of(columns)?;
        let (mut from, mut batch) = (0, BATCH);
        while from < rows {
            let to = rows.min(from + batch);
            let inserted = self.insert_batch(columns, from, to)?;
            let whole = from + inserted == to;
            batch = if whole {
                BATCH.min(2 * batch)
            } else {
                self.limits.group as usize
            };
            from += inserted;
        }
        Ok(rows)
    }

    // The number of rows, if the columns match the schema and have one length.
    fn rows_of(&self, columns: &[Column<'_>]) -> Result<usize, Refusal> {
        if columns.len() != self.schema.len() {
            return Err(Refusal::RowWidth {
                cells: columns.len(),
                columns: self.schema.len(),
            });
        }
        for (index, column) in columns.iter().enumerate() {
            if self.schema.kind_at(index) != Some(column.kind()) {
                return Err(self.schema.wrong_kind(index as u32));
            }
        }
        let rows = columns.first().map_or(0, Column::len);
        for (index, column) in columns.iter().enumerate() {
            let broken = if column.len() == rows {
                column.broken_rule()
            } else {
                Some((rows.min(column.len()), "all columns must have one length"))
            };
            if let Some((row, rule)) = broken {
                let column = self.schema.label(index as u32);
                return Err(Refusal::BadArgument { column, row, rule });
            }
        }
        Ok(rows)
    }

    // Inserts at least one of the rows from `from` up to `to`. Returns how many it inserted.
    fn insert_batch(
        &mut self,
        columns: &[Column<'_>],
        from: usize,
        to: usize,
    ) -> Result<usize, Error<E::Error>> {
        let inserted = match self.insert_raw(columns, from, to) {
            Ok(inserted) => inserted,
            Err(Code(_)) => {
                // The library refused the first of the rows: tries that one alone, and moves what it needs.
                self.insert_first(columns, from)?
            }
        };
        for column in columns {
            self.live
                .add_texts(column.text_bytes(from, from + inserted));
        }
        Ok(inserted)
    }

    fn insert_first(
        &mut self,
        columns: &[Column<'_>],
        from: usize,
    ) -> Result<usize, Error<E::Error>> {
        let raw = gather(&mut self.bits, columns, from, from + 1);
        self.persist(Given::RowOf(columns, from), |library| {
            // SAFETY: rule 1, the columns borrow valid slices, and `bits` stays as it is.
            let (inserted, ended) = unsafe { library.insert_columns(&raw, 1) };
            ended.map(|()| inserted)
        })
    }

    // Inserts rows until one is refused. Returns how many it inserted, or the code if none.
    fn insert_raw(&mut self, columns: &[Column<'_>], from: usize, to: usize) -> Coded<usize> {
        let raw = gather(&mut self.bits, columns, from, to);
        // SAFETY: rule 1, the columns borrow valid slices, and `bits` stays as it is.
        let (inserted, ended) = unsafe { self.library.insert_columns(&raw, to - from) };
        match ended {
            Err(code) if inserted == 0 => Err(code),
            _ => Ok(inserted),
        }
    }
}

// Makes the `fc_column`s of these rows. Copies masks to `bits` if they do not begin with a whole byte.
fn gather(bits: &mut [Vec<u8>], columns: &[Column<'_>], from: usize, to: usize) -> Vec<fc_column> {
    let raw = |(column, bits): (&Column<'_>, &mut Vec<u8>)| column.raw(from, to, bits);
    columns.iter().zip(bits).map(raw).collect()
}
