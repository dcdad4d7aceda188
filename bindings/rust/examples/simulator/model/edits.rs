//! Edits of the plain table, and their refusals.

use fullercoral::{Kind, Refusal};

use super::{LONGEST, Model, Object};
use crate::call::{Owned, name};

fn is_long(cell: &Owned) -> bool {
    cell.text().is_some_and(|text| text.len() > LONGEST)
}

/// The bytes of an object of these texts.
fn text_len<'a>(texts: impl ExactSizeIterator<Item = &'a Owned> + Clone) -> u64 {
    let count = texts.len() as u64;
    let has_missing = texts.clone().any(|text| *text == Owned::Missing);
    let mask = if has_missing { count.div_ceil(8) } else { 0 };
    let bytes = texts.filter_map(Owned::text).map(str::len).sum::<usize>();
    6 + mask + 4 * count + bytes as u64
}

impl Model {
    fn is_of_other_kind(&self, column: usize, cell: &Owned) -> bool {
        let kind = cell.cell().kind();
        kind.is_some_and(|kind| kind != self.kinds[column])
    }

    /// Why a row is refused, whatever is local.
    pub fn row_refusal(&self, row: &[Owned]) -> Result<(), Refusal> {
        let common = row.len().min(self.kinds.len());
        if let Some(column) = (0..common).find(|i| self.is_of_other_kind(*i, &row[*i])) {
            return Err(self.wrong_kind(column));
        }
        if row.len() != self.kinds.len() {
            let (cells, columns) = (row.len(), self.kinds.len());
            return Err(Refusal::RowWidth { cells, columns });
        }
        if let Some(column) = row.iter().position(is_long) {
            let column = name(column).into();
            return Err(Refusal::TextTooLong { column });
        }
        if self.places() == self.places {
            return Err(Refusal::TableFull);
        }
        Ok(())
    }

    /// Why a cell is refused, whatever is local.
    pub fn cell_refusal(&self, column: usize, place: u32, cell: &Owned) -> Result<(), Refusal> {
        self.column(column)?;
        if self.is_of_other_kind(column, cell) {
            return Err(self.wrong_kind(column));
        }
        if is_long(cell) {
            let column = name(column).into();
            return Err(Refusal::TextTooLong { column });
        }
        self.place_refusal(place)
    }

    /// The refusal of a place that does not exist.
    pub fn no_row(&self, place: u32) -> Refusal {
        let places = self.places();
        Refusal::NoRow { place, places }
    }

    /// Why the row of a place cannot be edited, whatever is local.
    pub fn place_refusal(&self, place: u32) -> Result<(), Refusal> {
        match self.alive.get(place as usize) {
            None => Err(self.no_row(place)),
            Some(false) => Err(Refusal::RemovedRow { place }),
            Some(true) => Ok(()),
        }
    }

    // The length of an object after one of its cells is set to this one.
    fn len_with(&self, column: usize, place: u32, cell: &Owned) -> u64 {
        if self.kinds[column] == Kind::Int {
            return self.group.into();
        }
        let places = self.places_of(place / self.group);
        let mut cells: Vec<&Owned> = places.map(|place| &self.rows[place][column]).collect();
        let index = (place % self.group) as usize;
        if index == cells.len() {
            cells.push(cell);
        } else {
            cells[index] = cell;
        }
        text_len(cells.into_iter())
    }

    /// The length of an object.
    pub fn len(&self, column: usize, group: u32) -> u64 {
        if self.kinds[column] == Kind::Int {
            return self.group.into();
        }
        text_len(self.places_of(group).map(|place| &self.rows[place][column]))
    }

    /// The objects that a write of these cells moves, and their new lengths.
    fn placed(&self, place: u32, cells: &[(usize, &Owned)]) -> Vec<(usize, u64)> {
        let is_new = place / self.group == self.groups();
        let is_placed =
            |(column, _): &&(usize, &Owned)| is_new || self.kinds[*column] == Kind::Text;
        let cells = cells.iter().filter(is_placed);
        cells
            .map(|(column, cell)| (*column, self.len_with(*column, place, cell)))
            .collect()
    }

    /// Refuses a write after which the texts of a row group would not fit a segment.
    pub fn chunk_refusal(&self, place: u32, cells: &[(usize, &Owned)]) -> Result<(), Refusal> {
        let is_too_long = |(column, len): &(usize, u64)| *len > self.region(*column).size;
        if self.placed(place, cells).iter().any(is_too_long) {
            return Err(Refusal::ChunkFull);
        }
        Ok(())
    }

    /// Refuses a write if there is no space for its objects, or no edit left.
    pub fn space_refusal(&mut self, place: u32, cells: &[(usize, &Owned)]) -> Result<(), Refusal> {
        let mut parts = Vec::new();
        let is_placed = self.is_placed;
        let placed = self.placed(place, cells);
        for (column, len) in placed.iter().filter(|_| is_placed) {
            match self.region_mut(*column).place(*len) {
                Some(part) => parts.push((*column, part)),
                None => break,
            }
        }
        let fits = parts.len() == placed.len() || !is_placed;
        for (column, part) in parts {
            self.region_mut(column).drop(part);
        }
        if !fits {
            return Err(Refusal::RegionFull);
        }
        self.edit_refusal()
    }

    /// Refuses an edit if no edit is left.
    pub fn edit_refusal(&self) -> Result<(), Refusal> {
        if self.edits == self.most_edits {
            return Err(Refusal::EditsUsedUp);
        }
        Ok(())
    }

    /// Writes cells of a place. Returns false if the model knows the objects' parts and finds no space.
    fn write(&mut self, place: u32, cells: &[(usize, &Owned)]) -> bool {
        let group = (place / self.group) as usize;
        let is_placed = self.is_placed;
        let placed = self.placed(place, cells);
        let mut parts = Vec::new();
        for (column, len) in placed.iter().filter(|_| is_placed) {
            match self.region_mut(*column).place(*len) {
                Some(part) => parts.push((*column, part)),
                None => return false,
            }
        }
        for (column, _) in cells {
            if group == self.objects[*column].len() {
                self.objects[*column].push(Object::default());
            }
            self.objects[*column][group].write();
        }
        for (column, part) in parts {
            if let Some(before) = self.objects[column][group].part.replace(part) {
                self.region_mut(column).drop(before);
            }
        }
        self.edits += 1;
        true
    }

    /// Appends a row that is not refused. Returns the result of `write`.
    pub fn insert(&mut self, row: &[Owned]) -> bool {
        let cells: Vec<(usize, &Owned)> = row.iter().enumerate().collect();
        let fits = self.write(self.places(), &cells);
        self.rows.push(row.to_vec());
        self.alive.push(true);
        fits
    }

    /// Sets a cell that is not refused. Returns the result of `write`.
    pub fn set(&mut self, column: usize, place: u32, cell: &Owned) -> bool {
        let fits = self.write(place, &[(column, cell)]);
        self.rows[place as usize][column] = cell.clone();
        fits
    }

    /// Removes a live row.
    pub fn remove(&mut self, place: u32) {
        self.alive[place as usize] = false;
        self.edits += 1;
    }
}
