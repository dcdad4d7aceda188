//! Columns, each of them one vector of cells.

use std::ops::Range;

use super::record::Field;

/// What a column holds.
#[derive(Debug, Clone, Copy, PartialEq, Eq)]
pub enum Kind {
    Number,
    Text,
}

/// The cells of a column, by place.
pub enum Column {
    Numbers(Numbers),
    Texts(Texts),
}

/// Numbers. `missing` is shorter if no later number is missing; for most columns it is empty.
#[derive(Default)]
pub struct Numbers {
    values: Vec<i64>,
    missing: Vec<bool>,
}

/// Texts: where each one is in `bytes`. A text that no longer fits where it was goes to the end.
#[derive(Default)]
pub struct Texts {
    parts: Vec<Part>,
    bytes: Vec<u8>,
    /// How many of the bytes belong to no text.
    unused: usize,
}

#[derive(Clone, Copy)]
struct Part {
    from: u32,
    length: u32,
}

const MISSING: Part = Part {
    from: 0,
    length: u32::MAX,
};

/// The number of bytes that is not worth a pass over a column to save.
const LITTLE: usize = 1 << 16;

impl Column {
    /// A column without cells.
    pub fn new(kind: Kind) -> Column {
        match kind {
            Kind::Number => Column::Numbers(Numbers::default()),
            Kind::Text => Column::Texts(Texts::default()),
        }
    }

    /// What the column holds.
    #[inline]
    pub fn kind(&self) -> Kind {
        match self {
            Column::Numbers(_) => Kind::Number,
            Column::Texts(_) => Kind::Text,
        }
    }

    /// The number at a place, if the cell has one.
    #[inline]
    pub fn number(&self, place: usize) -> Option<i64> {
        match self {
            Column::Numbers(numbers) => numbers.get(place),
            Column::Texts(_) => None,
        }
    }

    /// The text at a place, if the cell has one.
    #[inline]
    pub fn text(&self, place: usize) -> Option<&[u8]> {
        match self {
            Column::Numbers(_) => None,
            Column::Texts(texts) => texts.get(place),
        }
    }

    /// Appends a cell of the column's kind.
    #[inline]
    pub fn push(&mut self, field: &Field<'_>) {
        match (self, field) {
            (Column::Numbers(numbers), Field::Number(value)) => numbers.values.push(*value),
            (Column::Numbers(numbers), _) => numbers.push_missing(),
            (Column::Texts(texts), Field::Text(text)) => texts.push(Some(text)),
            (Column::Texts(texts), _) => texts.push(None),
        }
    }

    /// Replaces a cell by one of the column's kind.
    #[inline]
    pub fn set(&mut self, place: usize, field: &Field<'_>) {
        match (self, field) {
            (Column::Numbers(numbers), Field::Number(value)) => numbers.set(place, Some(*value)),
            (Column::Numbers(numbers), _) => numbers.set(place, None),
            (Column::Texts(texts), Field::Text(text)) => texts.set(place, Some(text)),
            (Column::Texts(texts), _) => texts.set(place, None),
        }
    }

    /// Writes the encoded cells of a row group from a place on: over others, or at the end.
    pub fn decode(&mut self, from: usize, bytes: &[u8]) {
        match self {
            Column::Numbers(numbers) => numbers.decode(from, bytes),
            Column::Texts(texts) => texts.decode(from, bytes),
        }
    }

    /// The encoded cells at some places.
    pub fn encode(&self, places: Range<usize>) -> Vec<u8> {
        match self {
            Column::Numbers(numbers) => numbers.encode(places),
            Column::Texts(texts) => texts.encode(places),
        }
    }
}

impl Numbers {
    /// The number at a place, if it is not missing.
    #[inline]
    pub fn get(&self, place: usize) -> Option<i64> {
        let is_missing = self.missing.get(place) == Some(&true);
        (!is_missing).then(|| self.values[place])
    }

    /// All numbers, if none is missing.
    #[inline]
    pub fn all(&self) -> Option<&[i64]> {
        self.missing.is_empty().then_some(&self.values)
    }

    fn push_missing(&mut self) {
        self.missing.resize(self.values.len(), false);
        self.missing.push(true);
        self.values.push(0);
    }

    #[inline]
    fn set(&mut self, place: usize, value: Option<i64>) {
        self.values[place] = value.unwrap_or(0);
        if value.is_none() && self.missing.len() <= place {
            self.missing.resize(place + 1, false);
        }
        if let Some(is_missing) = self.missing.get_mut(place) {
            *is_missing = value.is_none();
        }
    }

    /// The bytes of the numbers at some places: a mark, 8 bytes a number and, if the mark is 1, for each
    /// number whether it is missing.
    fn encode(&self, places: Range<usize>) -> Vec<u8> {
        let marked = self.missing.len();
        let missing = &self.missing[places.start.min(marked)..places.end.min(marked)];
        let is_marked = missing.contains(&true);
        let values = &self.values[places];
        let mut bytes = vec![0; 1 + 8 * values.len()];
        for (to, value) in bytes[1..].chunks_exact_mut(8).zip(values) {
            to.copy_from_slice(&value.to_le_bytes());
        }
        if is_marked {
            bytes[0] = 1;
            bytes.extend(missing.iter().map(|it| u8::from(*it)));
            bytes.resize(1 + 9 * values.len(), 0);
        }
        bytes
    }

    /// Writes encoded numbers from a place on: over others, or at the end.
    fn decode(&mut self, from: usize, bytes: &[u8]) {
        let Some((mark, bytes)) = bytes.split_first() else {
            return;
        };
        let count = bytes.len() / if *mark == 1 { 9 } else { 8 };
        let (bytes, marks) = bytes.split_at(8 * count);
        let eights = bytes.chunks_exact(8);
        let values = eights.map(|it| i64::from_le_bytes(it.try_into().unwrap_or_default()));
        if from == self.values.len() {
            self.values.extend(values);
        } else {
            self.values[from..from + count]
                .iter_mut()
                .zip(values)
                .for_each(|(to, value)| *to = value);
        }
        let marked = self.missing.len();
        self.missing[from.min(marked)..(from + count).min(marked)].fill(false);
        for (more, mark) in marks.iter().enumerate() {
            if *mark == 1 {
                self.set(from + more, None);
            }
        }
    }
}

impl Texts {
    /// The text at a place, if it is not missing.
    #[inline]
    pub fn get(&self, place: usize) -> Option<&[u8]> {
        let Part { from, length } = self.parts[place];
        let from = from as usize;
        (length != MISSING.length).then(|| &self.bytes[from..from + length as usize])
    }

    #[inline]
    fn push(&mut self, text: Option<&[u8]>) {
        let part = self.placed(text);
        self.parts.push(part);
    }

    fn placed(&mut self, text: Option<&[u8]>) -> Part {
        let Some(text) = text else {
            return MISSING;
        };
        let part = Part {
            from: self.bytes.len() as u32,
            length: text.len() as u32,
        };
        self.bytes.extend_from_slice(text);
        part
    }

    fn set(&mut self, place: usize, text: Option<&[u8]>) {
        let old = self.get(place).map_or(0, <[u8]>::len);
        let length = text.map_or(0, <[u8]>::len);
        self.unused += old;
        match text {
            Some(text) if length <= old => {
                let part = &mut self.parts[place];
                part.length = length as u32;
                let from = part.from as usize;
                self.bytes[from..from + length].copy_from_slice(text);
                self.unused -= length;
            }
            _ => self.parts[place] = self.placed(text),
        }
        if self.unused > self.bytes.len() / 2 + LITTLE {
            self.move_together();
        }
    }

    /// The bytes of the texts at some places: how many they are, their lengths, and the texts.
    fn encode(&self, places: Range<usize>) -> Vec<u8> {
        let parts = &self.parts[places.clone()];
        let mut bytes = (parts.len() as u32).to_le_bytes().to_vec();
        parts
            .iter()
            .for_each(|part| bytes.extend(part.length.to_le_bytes()));
        places
            .filter_map(|place| self.get(place))
            .for_each(|text| bytes.extend(text));
        bytes
    }

    /// Writes encoded texts from a place on: over others, or at the end.
    fn decode(&mut self, from: usize, bytes: &[u8]) {
        let Some((count, bytes)) = bytes.split_first_chunk() else {
            return;
        };
        let count = u32::from_le_bytes(*count) as usize;
        let (lengths, mut bytes) = bytes.split_at(4 * count);
        for (more, length) in lengths.chunks_exact(4).enumerate() {
            let length = u32::from_le_bytes(length.try_into().unwrap_or_default());
            let text = (length != MISSING.length).then(|| {
                let (text, rest) = bytes.split_at(length as usize);
                bytes = rest;
                text
            });
            if from + more == self.parts.len() {
                self.push(text);
            } else {
                self.set(from + more, text);
            }
        }
    }

    fn move_together(&mut self) {
        let mut moved = Texts::default();
        for place in 0..self.parts.len() {
            moved.push(self.get(place));
        }
        *self = moved;
    }
}
