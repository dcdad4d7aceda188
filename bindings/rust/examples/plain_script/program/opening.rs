//! The line that opens a table.

use super::column::Kind;
use super::refusal::Refusal;
use super::script::Words;

/// The limits of a table.
pub struct Limits {
    /// Places of a row group.
    pub group: u64,
    pub places: u64,
    /// Edits, and as many jobs.
    pub edits: u64,
    pub number_segments: u64,
    /// Numbers in a segment.
    pub number_size: u64,
    pub text_segments: u64,
    /// Bytes of texts in a segment.
    pub text_size: u64,
}

impl Limits {
    fn usual(group: u64) -> Limits {
        Limits {
            group,
            places: 1 << 24,
            edits: 1 << 40,
            number_segments: 64,
            number_size: group.max(4_096),
            text_segments: 64,
            text_size: 65_536,
        }
    }

    fn are_allowed(&self) -> bool {
        (1..=65_536).contains(&self.group)
            && (1..=1 << 24).contains(&self.places)
            && (1..=1 << 40).contains(&self.edits)
            && (1..=1_024).contains(&self.number_segments)
            && (self.group..=1 << 20).contains(&self.number_size)
            && (1..=1_024).contains(&self.text_segments)
            && (64..=1 << 24).contains(&self.text_size)
    }
}

fn kind_of(word: &[u8]) -> Option<Kind> {
    match word {
        b"int" => Some(Kind::Number),
        b"text" => Some(Kind::Text),
        _ => None,
    }
}

/// Reads a line that opens a table. Returns `None` if it is no such line.
pub fn opening(line: &[u8]) -> Option<Result<(Vec<Kind>, Limits), Refusal>> {
    let mut words = Words::new(line);
    if words.word()? != b"schema" {
        return None;
    }
    let mut limits = Limits::usual(words.number()?.into());
    let kinds = words.word()?.split(|byte| *byte == b',').map(kind_of);
    let kinds: Vec<Kind> = kinds.collect::<Option<_>>()?;
    if words.end().is_none() {
        limits.places = words.number()?.into();
        limits.edits = words.long()?;
        limits.number_segments = words.number()?.into();
        limits.number_size = words.number()?.into();
        limits.text_segments = words.number()?.into();
        limits.text_size = words.number()?.into();
        words.end()?;
    }
    let is_allowed = limits.are_allowed() && kinds.len() <= 16;
    Some(if is_allowed {
        Ok((kinds, limits))
    } else {
        Err(Refusal::BadSchema)
    })
}

/// Returns whether a first line begins sessions.
pub fn begins_sessions(line: &[u8]) -> bool {
    let mut words = Words::new(line);
    words.word() == Some(b"threads")
        && words.number().is_some_and(|it| (1..=4).contains(&it))
        && words.number().is_some_and(|it| (1..=1_000).contains(&it))
        && words.end().is_some()
}
