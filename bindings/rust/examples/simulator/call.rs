//! The table and the calls that a seed draws.

use fullercoral::{Constant, Kind, Limits, Op, Policy, Schema, Spec, extrema, totals};

pub use crate::owned::Owned;

/// The setup of a seed's table, and how often it tries a call of the far side.
#[derive(Debug, Clone)]
pub struct Setup {
    pub kinds: Vec<Kind>,
    pub group: u32,
    pub places: u32,
    /// The limit of edits and jobs, if it is low.
    pub edits: Option<u64>,
    /// The limit of content numbers, if it is low.
    pub contents: Option<u64>,
    pub memory: usize,
    pub text_memory: Option<usize>,
    pub tries: u32,
    pub policy: Policy,
}

impl Setup {
    pub fn schema(&self) -> Schema {
        let column = |schema: Schema, (index, kind): (usize, &Kind)| match kind {
            Kind::Int => schema.int(&name(index)),
            _ => schema.text(&name(index)),
        };
        self.kinds.iter().enumerate().fold(Schema::new(), column)
    }

    pub fn limits(&self) -> Limits {
        let mut limits = Limits::new()
            .local_memory(self.memory)
            .group(self.group)
            .places(self.places);
        if let Some(edits) = self.edits {
            limits = limits.edits(edits);
        }
        if let Some(contents) = self.contents {
            limits = limits.contents(contents);
        }
        match self.text_memory {
            Some(bytes) => limits.text_memory(bytes),
            None => limits,
        }
    }
}

/// The name of a column.
pub fn name(column: usize) -> String {
    format!("c{column}")
}

/// The specification of an aggregate, by column indices.
#[derive(Debug, Clone)]
pub struct Folding {
    pub is_extrema: bool,
    pub value: usize,
    pub key: Option<usize>,
    pub tests: Vec<(usize, Op, Constant)>,
}

/// A spec of either kind.
pub enum AnySpec {
    Totals(Spec<fullercoral::Totals>),
    Extrema(Spec<fullercoral::Extrema>),
}

impl Folding {
    pub fn spec(&self) -> AnySpec {
        let value = name(self.value);
        if self.is_extrema {
            AnySpec::Extrema(self.with_rest(extrema(&value)))
        } else {
            AnySpec::Totals(self.with_rest(totals(&value)))
        }
    }

    fn with_rest<A>(&self, mut spec: Spec<A>) -> Spec<A> {
        if let Some(key) = self.key {
            spec = spec.by(&name(key));
        }
        for (column, op, constant) in &self.tests {
            spec = spec.only(&name(*column), *op, constant.clone());
        }
        spec
    }

    /// The columns that it needs, repeated if it names them more than once.
    pub fn columns(&self) -> impl Iterator<Item = usize> {
        let tests = self.tests.iter().map(|(column, _, _)| *column);
        [self.value].into_iter().chain(self.key).chain(tests)
    }
}

/// A call, and the behaviour of the far side meanwhile.
#[derive(Debug, Clone)]
pub struct Step {
    /// The number of the step. Aggregates and jobs have the number of the step that made them.
    pub id: u32,
    /// The seed of the far side's faults, 0 for none.
    pub mood: u64,
    pub call: Call,
}

impl Call {
    /// Its name.
    pub fn verb(&self) -> String {
        let text = format!("{self:?}");
        let end = text.find('(').unwrap_or(text.len());
        text[..end].to_owned()
    }
}

/// A call of a table, of a job, or of the far side. Steps' numbers name aggregates and jobs.
#[derive(Debug, Clone)]
pub enum Call {
    Insert(Vec<Owned>),
    Extend(Vec<Vec<Owned>>),
    Set(usize, u32, Owned),
    Remove(u32),
    Watch(Folding),
    Unwatch(u32),
    Ask(u32),
    Recount(u32),
    Pending(u32),
    Scan(u32, u32),
    Build(u32, u32),
    Row(u32),
    Text(usize, u32),
    Part(usize, u32, u32),
    IsAlive(u32),
    Evict(usize, u32),
    EvictColdest,
    Fetch(usize, u32),
    BeginEvict(usize, u32),
    BeginColdest,
    BeginFetch(usize, u32),
    BeginBuild(u32, u32),
    Put(u32),
    Get(u32),
    Commit(u32),
    Install(u32),
    Drop(u32),
    Pin(usize, u32),
    Unpin(usize, u32),
    Compact,
    Migrate,
    Proposals(usize),
    SetPolicy(Policy),
    ComeBack,
    Limit(u64),
    GoAway(u32),
}
