//! The parts of local memory that objects have.

/// The part of a segment that an object has.
#[derive(Debug, Clone, Copy, PartialEq, Eq)]
pub struct Part {
    pub segment: usize,
    pub offset: u64,
    pub len: u64,
}

/// The segments of one kind, all of one size. Each has its parts by ascending offset.
#[derive(Debug, Clone)]
pub struct Region {
    pub size: u64,
    segments: Vec<Vec<Part>>,
}

impl Region {
    pub fn new(segments: u32, size: u32) -> Region {
        Region {
            size: size.into(),
            segments: vec![Vec::new(); segments as usize],
        }
    }

    pub fn segments(&self) -> usize {
        self.segments.len()
    }

    // The end of the last part of a segment.
    fn end(&self, segment: usize) -> u64 {
        let last = self.segments[segment].last();
        last.map_or(0, |part| part.offset + part.len)
    }

    pub fn used(&self) -> u64 {
        (0..self.segments.len())
            .map(|segment| self.end(segment))
            .sum()
    }

    /// Allocates a part in the lowest segment with space after its last part.
    pub fn place(&mut self, len: u64) -> Option<Part> {
        let fits = |segment: &usize| self.end(*segment) + len <= self.size;
        let segment = (0..self.segments.len()).find(fits)?;
        Some(self.append(segment, len))
    }

    /// Allocates a part after the last one of a segment.
    pub fn append(&mut self, segment: usize, len: u64) -> Part {
        let offset = self.end(segment);
        let part = Part {
            segment,
            offset,
            len,
        };
        self.segments[segment].push(part);
        part
    }

    /// Frees a part. The parts after it stay where they are.
    pub fn drop(&mut self, part: Part) {
        self.segments[part.segment].retain(|other| *other != part);
    }

    /// The lowest other segment without parts.
    pub fn other_free(&self, segment: usize) -> Option<usize> {
        (0..self.segments.len()).find(|other| *other != segment && self.segments[*other].is_empty())
    }
}
