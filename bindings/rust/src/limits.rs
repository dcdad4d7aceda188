use crate::sys::fc_limits;
use crate::{Kind, Schema};

const MOST_GROUP: u32 = 65_536;
const MOST_PLACES: u32 = 1 << 24;
const MOST_EDITS: u64 = 1 << 40;
const MOST_SEGMENTS: usize = 1_024;
const MOST_INT_SIZE: usize = 1 << 20;
const MOST_TEXT_SIZE: usize = 1 << 24;

/// The bytes of local memory for a number.
const INT_BYTES: usize = 16;

/// The most bytes for the segments of numbers, and for the segments of texts.
const MOST_INTS: usize = MOST_SEGMENTS * MOST_INT_SIZE * INT_BYTES;
const MOST_TEXTS: usize = MOST_SEGMENTS * MOST_TEXT_SIZE;

/// The fewest bytes of a segment of texts.
const LEAST_TEXTS: usize = 64;

/// How many row groups of each column are local if the table chooses the size of a row group.
const LOCAL_GROUPS: usize = 32;

/// The limits of a table: its local memory, the rows of a row group and of the table, and more.
///
/// ```
/// use fullercoral::Limits;
///
/// // 16 MB of cells are local. The engine has all others.
/// let limits = Limits::new().local_memory(16 << 20).group(1_024);
/// # let _ = limits;
/// ```
///
/// Local memory holds the local cells: 16 bytes for a number, and for a text its own bytes and 4 more.
/// The table allocates it when it opens, and writes to it as needed. Not included are 56 bytes for each
/// content in the engine, 60 for each object that is away, and the state of aggregates. That is a line
/// for each key of [`totals`](crate::totals), and of [`extrema`](crate::extrema) some 24 bytes for each
/// key in each row group: a table with many keys and extrema takes less with large row groups.
#[derive(Debug, Clone, PartialEq, Eq)]
#[must_use]
pub struct Limits {
    local_memory: usize,
    text_memory: Option<usize>,
    group: Option<u32>,
    places: u32,
    edits: u64,
    contents: u64,
}

impl Default for Limits {
    fn default() -> Limits {
        Limits {
            local_memory: 64 << 20,
            text_memory: None,
            group: None,
            places: MOST_PLACES,
            edits: MOST_EDITS,
            contents: 1 << 32,
        }
    }
}

impl Limits {
    /// The default: 64 MB of local memory, up to 16,777,216 places, and row groups of a fitting size.
    ///
    /// ```
    /// assert_eq!(fullercoral::Limits::new(), fullercoral::Limits::default());
    /// ```
    pub fn new() -> Limits {
        Limits::default()
    }

    /// Sets the bytes of local memory. Each column gets an equal share, unless
    /// [`text_memory`](Limits::text_memory) says otherwise. The table rounds it down to whole segments:
    /// [`Stats::local_memory`](crate::Stats::local_memory) has the result.
    ///
    /// The share of numbers must hold at least a row group of each of their columns, at
    /// 16 bytes for each number; it should hold several. The share of texts has at least 64 bytes.
    /// Each share has at most 16 GiB.
    ///
    /// ```
    /// let limits = fullercoral::Limits::new().local_memory(256 << 20);
    /// # let _ = limits;
    /// ```
    pub fn local_memory(mut self, bytes: usize) -> Limits {
        self.local_memory = bytes;
        self
    }

    /// Sets how many bytes of the local memory are for texts. If there are columns of both kinds, both
    /// need some.
    ///
    /// ```
    /// let limits = fullercoral::Limits::new().local_memory(64 << 20).text_memory(48 << 20);
    /// # let _ = limits;
    /// ```
    pub fn text_memory(mut self, bytes: usize) -> Limits {
        self.text_memory = Some(bytes);
        self
    }

    /// Sets the places of a row group: 1 to 65,536. The table evicts and fetches a column's chunk of a
    /// row group as a whole. The default is a power of two such that some 32 row groups are local, at
    /// most 4,096, or 512 with a column of texts: appending a text takes time in proportion to the row
    /// group.
    ///
    /// ```
    /// let limits = fullercoral::Limits::new().group(1_024);
    /// # let _ = limits;
    /// ```
    pub fn group(mut self, places: u32) -> Limits {
        self.group = Some(places);
        self
    }

    /// Sets the most places of the table, with those of removed rows: 1 to 16,777,216.
    ///
    /// ```
    /// let limits = fullercoral::Limits::new().places(1_000_000);
    /// # let _ = limits;
    /// ```
    pub fn places(mut self, places: u32) -> Limits {
        self.places = places;
        self
    }

    /// Sets how many edits, and how many jobs, the table accepts: 1 to 2^40. The default is 2^40.
    ///
    /// ```
    /// let limits = fullercoral::Limits::new().edits(1_000_000);
    /// # let _ = limits;
    /// ```
    pub fn edits(mut self, edits: u64) -> Limits {
        self.edits = edits;
        self
    }

    /// Sets how many content numbers there are, at least 1; the default is 2^32. Each eviction of an
    /// object that was written since the last one uses up a number, and takes some 56 bytes. When all are
    /// used up, the table renews its numbers and frees the old ones, if the contents that are away fit
    /// half of its local memory; else it refuses with `FarFull`.
    ///
    /// ```
    /// let limits = fullercoral::Limits::new().contents(1 << 20);
    /// # let _ = limits;
    /// ```
    pub fn contents(mut self, contents: u64) -> Limits {
        self.contents = contents;
        self
    }

    /// The rule that these limits or the columns break, if any.
    pub(crate) fn broken_rule(&self, schema: &Schema) -> Option<&'static str> {
        let rule = self.broken_rule_of_counts(schema);
        rule.or_else(|| self.broken_rule_of_memory(schema))
    }

    // The same for the local memory, if all counts are right.
    fn broken_rule_of_memory(&self, schema: &Schema) -> Option<&'static str> {
        let texts = self.text_bytes(schema);
        let (ints, columns) = (self.local_memory - texts, schema.count(Kind::Int));
        let group = self.group.unwrap_or(1) as usize;
        let rules = [
            (
                ints >= columns * group * INT_BYTES,
                "the local memory for numbers must hold a row group of each of their columns",
            ),
            (
                schema.count(Kind::Text) == 0 || texts >= LEAST_TEXTS,
                "the local memory for texts must have 64 bytes or more",
            ),
            (
                columns == 0 || ints <= MOST_INTS,
                "the local memory for numbers has at most 16 GiB",
            ),
            (
                texts <= MOST_TEXTS,
                "the local memory for texts has at most 16 GiB",
            ),
        ];
        let broken = rules.iter().find(|(holds, _)| !holds);
        broken.map(|(_, rule)| *rule)
    }

    fn broken_rule_of_counts(&self, schema: &Schema) -> Option<&'static str> {
        let group = self.group.unwrap_or(1);
        let both = schema.count(Kind::Int) > 0 && schema.count(Kind::Text) > 0;
        let texts = self.text_memory.filter(|_| both);
        let rules = [
            (
                (1..=16).contains(&schema.len()),
                "a table has 1 to 16 columns",
            ),
            (
                !schema.has_twin_names(),
                "each column has a name of its own",
            ),
            (
                (1..=MOST_GROUP).contains(&group),
                "a row group has 1 to 65,536 places",
            ),
            (
                (1..=MOST_PLACES).contains(&self.places),
                "a table has 1 to 16,777,216 places",
            ),
            (
                (1..=MOST_EDITS).contains(&self.edits),
                "a table takes 1 to 2^40 edits",
            ),
            (self.contents > 0, "a table has at least one content number"),
            (
                texts.is_none_or(|texts| 0 < texts && texts < self.local_memory),
                "text_memory is more than 0 and less than the local memory",
            ),
        ];
        let broken = rules.iter().find(|(holds, _)| !holds);
        broken.map(|(_, rule)| *rule)
    }

    pub(crate) fn capacity(&self) -> u64 {
        self.contents
    }

    /// The limits of a table with these columns as an `fc_limits`.
    pub(crate) fn for_schema(&self, schema: &Schema) -> fc_limits {
        let texts = self.text_bytes(schema);
        let ints = self.local_memory.saturating_sub(texts);
        let group = self.group.unwrap_or_else(|| group_for(schema, ints, texts));
        let (int_segments, int_size) = int_segments(ints, group);
        let (text_segments, text_size) = text_segments(texts, group);
        fc_limits {
            edits: self.edits,
            group,
            places: self.places,
            int_segments,
            int_size,
            text_segments,
            text_size,
        }
    }

    /// The bytes for texts: by default an equal share for each column.
    fn text_bytes(&self, schema: &Schema) -> usize {
        let texts = schema.count(Kind::Text);
        if texts == 0 {
            return 0;
        }
        if texts == schema.len() {
            return self.local_memory;
        }
        let share = self.local_memory / schema.len() * texts;
        self.text_memory.unwrap_or(share).min(self.local_memory)
    }
}

/// The default size of row groups.
fn group_for(schema: &Schema, ints: usize, texts: usize) -> u32 {
    let most = if schema.count(Kind::Text) == 0 {
        4_096
    } else {
        512
    };
    let by = |bytes: usize, columns: usize| match columns {
        0 => most,
        _ => bytes / columns / INT_BYTES / LOCAL_GROUPS,
    };
    let numbers = by(ints, schema.count(Kind::Int));
    let group = numbers
        .min(by(texts, schema.count(Kind::Text)))
        .clamp(1, most);
    1 << group.ilog2()
}

/// The number of segments of numbers, and the numbers in each: one row group if that is possible, so that
/// an eviction frees a whole segment.
fn int_segments(bytes: usize, group: u32) -> (u32, u32) {
    let group = group.clamp(1, MOST_GROUP) as usize;
    let objects = (bytes / INT_BYTES / group).max(1);
    let most = MOST_INT_SIZE / group;
    let in_one = objects.div_ceil(MOST_SEGMENTS).clamp(1, most);
    let segments = (objects / in_one).clamp(1, MOST_SEGMENTS);
    (segments as u32, (in_one * group) as u32)
}

/// The number of segments of texts, and the bytes of each: enough for a row group whose texts have 500
/// bytes each, but otherwise small, so that some segments are often empty.
fn text_segments(bytes: usize, group: u32) -> (u32, u32) {
    let long_texts = (group as usize).saturating_mul(512);
    let size = (bytes / 256).max(long_texts.min(bytes / 8));
    let size = size.clamp(LEAST_TEXTS, MOST_TEXT_SIZE);
    let segments = (bytes / size).clamp(1, MOST_SEGMENTS);
    (segments as u32, size as u32)
}

#[cfg(test)]
mod tests {
    use super::*;

    #[test]
    fn a_segment_holds_one_row_group_of_numbers_up_to_1024_of_them() {
        let schema = Schema::new().int("a").int("b");
        let limits = Limits::new().for_schema(&schema);
        assert_eq!(limits.group, 4_096);
        assert_eq!((limits.int_segments, limits.int_size), (1_024, 4_096));
        let limits = Limits::new().local_memory(1 << 30).for_schema(&schema);
        assert_eq!((limits.int_segments, limits.int_size), (1_024, 65_536));
    }

    #[test]
    fn segments_never_pass_the_local_memory_that_was_asked_for() {
        let schemas = [
            Schema::new().int("a"),
            Schema::new().text("a"),
            Schema::new().int("a").text("b"),
            Schema::new().int("a").int("b").text("c"),
        ];
        for (schema, shift) in schemas.iter().flat_map(|s| (16..34).map(move |i| (s, i))) {
            let bytes = 1usize << shift;
            let limits = Limits::new().local_memory(bytes).for_schema(schema);
            let ints = limits.int_segments as usize * limits.int_size as usize * INT_BYTES;
            let texts = limits.text_segments as usize * limits.text_size as usize;
            let used = [(Kind::Int, ints), (Kind::Text, texts)]
                .iter()
                .filter(|(kind, _)| schema.count(*kind) > 0)
                .map(|(_, bytes)| bytes)
                .sum::<usize>();
            assert!(used <= bytes, "{schema:?} {bytes}: {limits:?}");
            assert!(used >= bytes / 2, "{schema:?} {bytes}: {limits:?}");
            assert!(limits.int_size >= limits.group && limits.int_size <= 1 << 20);
        }
    }

    #[test]
    fn small_tables_get_small_row_groups() {
        let schema = Schema::new().int("a").int("b");
        assert_eq!(
            Limits::new()
                .local_memory(1 << 20)
                .for_schema(&schema)
                .group,
            1_024
        );
        assert_eq!(Limits::new().local_memory(0).for_schema(&schema).group, 1);
    }
}
