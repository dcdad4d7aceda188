//! The far copy of each object: which content of the engine it is.

/// A content that the engine keeps.
#[derive(Debug, Clone, Copy, PartialEq, Eq)]
pub struct Copy {
    /// Its number in the engine.
    pub number: u64,
    /// Its length in bytes.
    pub len: u32,
}

impl Copy {
    const NONE: Copy = Copy {
        number: u64::MAX,
        len: 0,
    };
}

/// The far copies of all objects, by column and row group. The table numbers the engine's contents
/// itself, so that these numbers stay valid when the library renews its own.
#[derive(Debug)]
pub struct Copies {
    columns: Vec<Vec<Copy>>,
    next: u64,
}

impl Copies {
    pub fn new(columns: usize) -> Copies {
        Copies {
            columns: vec![Vec::new(); columns],
            next: 0,
        }
    }

    /// Draws a new number for a content.
    pub fn draw(&mut self) -> u64 {
        let number = self.next;
        self.next += 1;
        number
    }

    pub fn get(&self, column: u32, group: u32) -> Option<Copy> {
        let copy = self.columns.get(column as usize)?.get(group as usize)?;
        (*copy != Copy::NONE).then_some(*copy)
    }

    /// Replaces an object's copy; returns the previous one.
    pub fn replace(&mut self, column: u32, group: u32, copy: Copy) -> Option<Copy> {
        let before = self.get(column, group);
        let column = self.columns.get_mut(column as usize)?;
        if column.len() <= group as usize {
            column.resize(group as usize + 1, Copy::NONE);
        }
        column[group as usize] = copy;
        before
    }

    pub fn remove(&mut self, column: u32, group: u32) -> Option<Copy> {
        self.get(column, group)?;
        self.replace(column, group, Copy::NONE)
    }

    /// The objects that have copies, with their copies.
    pub fn all(&self) -> Vec<(u32, u32, Copy)> {
        let of_column = |(column, copies): (usize, &Vec<Copy>)| {
            let at = |(group, copy): (usize, &Copy)| (column as u32, group as u32, *copy);
            copies.iter().enumerate().map(at).collect::<Vec<_>>()
        };
        let all = self.columns.iter().enumerate().flat_map(of_column);
        all.filter(|(_, _, copy)| *copy != Copy::NONE).collect()
    }
}
