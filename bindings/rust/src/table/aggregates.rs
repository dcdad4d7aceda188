use std::sync::atomic::{AtomicU64, Ordering};

use super::work::Passing;
use super::{Table, Watched};
use crate::answer::{Lines, StoredLine};
use crate::library::{Code, Coded};
use crate::spec::{Aggregate, Id, Resolved, Spec};
use crate::sys::{FC_BUILDING, FC_TOTALS};
use crate::{Engine, Error, Key, Kind, Policy, Refusal};

/// The stamp of the next registration in this process.
static STAMP: AtomicU64 = AtomicU64::new(0);

impl<E: Engine> Table<E> {
    /// Registers an aggregate, which every later edit updates. At most 32 are registered at once.
    ///
    /// With an automatic policy, the first ask scans the rows that the table has already; so do
    /// [`scan`](Table::scan) and [`build`](Table::build). If rows are away, each such aggregate reads their
    /// copies from the engine once: to save time, register aggregates before you insert rows.
    ///
    /// ```
    /// # use fullercoral::{Limits, Memory, Op, Schema, Table, row, totals};
    /// let schema = Schema::new().text("sku").int("quantity");
    /// let mut table = Table::open(schema, Limits::new(), Memory::new())?;
    /// let sold = table.watch(totals("quantity").by("sku").only("quantity", Op::Gt, 0))?;
    /// table.extend([row!["bread", 5], row!["rye", -3], row!["bread", 2]])?;
    /// let line = table.ask(sold)?.next().unwrap();
    /// assert_eq!((line.key.text(), line.count, line.sum), (Some("bread"), 2, 7));
    /// # Ok::<(), Box<dyn std::error::Error>>(())
    /// ```
    ///
    /// # Errors
    /// - `BadSpec`: there are more than 4 tests, or a text constant of more than 4,096 bytes.
    /// - `NoColumn`, `WrongKind`: a column does not exist, or has the wrong kind.
    /// - `WrongOp`: a comparison does not apply to numbers, or to texts.
    /// - `TooManyAggregates`, `NoMemory`.
    #[doc(alias("aggregate", "group_by"))]
    pub fn watch<A: Aggregate>(&mut self, spec: Spec<A>) -> Result<A, Error<E::Error>> {
        let spec = spec.resolve(&self.schema)?;
        self.register(spec).map(A::of)
    }

    pub(super) fn register(&mut self, spec: Resolved) -> Result<Id, Error<E::Error>> {
        let registered = self.library.watch(&spec);
        let number = self.outcome(registered)?;
        let stamp = STAMP.fetch_add(1, Ordering::Relaxed);
        let index = number as usize;
        if self.watched.len() <= index {
            self.watched.resize_with(index + 1, || None);
        }
        let key = spec.key.and_then(|key| self.schema.kind_at(key as usize));
        self.watched[index] = Some(Watched { stamp, key, spec });
        Ok(Id { number, stamp })
    }

    /// Forgets an aggregate.
    ///
    /// ```
    /// # use fullercoral::{Limits, Memory, Schema, Table, totals};
    /// let mut table = Table::open(Schema::new().int("price"), Limits::new(), Memory::new())?;
    /// let total = table.watch(totals("price"))?;
    /// table.unwatch(total)?;
    /// assert!(table.ask(total).is_err());
    /// # Ok::<(), Box<dyn std::error::Error>>(())
    /// ```
    ///
    /// # Errors
    /// `NoAggregate`: it was forgotten, or belongs to another table.
    pub fn unwatch<A: Aggregate>(&mut self, aggregate: A) -> Result<(), Error<E::Error>> {
        let number = self.number_of(aggregate.id())?;
        self.watched[number as usize] = None;
        let forgotten = self.library.unwatch(number);
        self.outcome(forgotten)
    }

    /// Asks an aggregate: returns its answer over the current rows, whichever objects are away.
    ///
    /// An automatic policy first scans pending row groups, or builds them from far copies if they are away.
    ///
    /// ```
    /// # use fullercoral::{Limits, Memory, Schema, Table, extrema, row};
    /// let mut table = Table::open(Schema::new().int("price"), Limits::new(), Memory::new())?;
    /// table.extend([row![5], row![7]])?;
    /// let ends = table.watch(extrema("price"))?;
    /// let line = table.ask(ends)?.next().unwrap();
    /// assert_eq!((line.min, line.max), (5, 7));
    /// # Ok::<(), Box<dyn std::error::Error>>(())
    /// ```
    ///
    /// # Errors
    /// - `NoAggregate`: it was forgotten, or belongs to another table.
    /// - `Building`: by [`Policy::Manual`](crate::Policy::Manual), row groups are pending.
    /// - `RegionFull`: by an automatic policy, a row group needs an object, and pins leave no space for it.
    /// - `FarFault`, or the engine's error: a row group that is away could not be built.
    /// - `NoMemory`.
    #[inline]
    pub fn ask<A: Aggregate>(&mut self, aggregate: A) -> Result<Lines<'_, A>, Error<E::Error>> {
        let number = self.number_of(aggregate.id())?;
        if let Err(code) = self.ask_into_answer(number) {
            self.ask_after(number, code)?;
        }
        Ok(self.answer.lines())
    }

    /// Asks an aggregate for one key: returns its line of the answer of [`ask`](Table::ask), or `None` if
    /// there is no line with this key. It computes no other line, so it costs one look-up.
    ///
    /// Without a key column the key is [`Key::None`]. An automatic policy first scans or builds pending
    /// row groups, as for `ask`.
    ///
    /// ```
    /// # use fullercoral::{Limits, Memory, Schema, Table, row, totals};
    /// # let schema = Schema::new().text("sku").int("quantity");
    /// # let mut table = Table::open(schema, Limits::new(), Memory::new())?;
    /// let sold = table.watch(totals("quantity").by("sku"))?;
    /// table.extend([row!["rye", 3], row!["bread", 5], row!["bread", 2]])?;
    /// let line = table.ask_key(sold, "bread")?.unwrap();
    /// assert_eq!((line.count, line.sum), (2, 7));
    /// assert_eq!(table.ask_key(sold, "cake")?, None);
    /// # Ok::<(), Box<dyn std::error::Error>>(())
    /// ```
    ///
    /// # Errors
    /// - `WrongKind`: the key is a text but the keys are numbers, or the other way round.
    /// - `WrongKey`: the key is [`Key::None`] but there is a key column, or the other way round.
    /// - The errors of [`ask`](Table::ask).
    #[inline]
    pub fn ask_key<'k, A: Aggregate>(
        &mut self,
        aggregate: A,
        key: impl Into<Key<'k>>,
    ) -> Result<Option<A::Line<'k>>, Error<E::Error>> {
        let (number, key) = (self.number_of(aggregate.id())?, key.into());
        self.check_key(number, key)?;
        let found = match self.library.ask_key(number, key) {
            Ok(found) => found,
            Err(code) => self.ask_key_after(number, key, code)?,
        };
        Ok(found.map(|line| A::line(key, &line)))
    }

    // Refuses a key of the wrong kind for the aggregate.
    #[inline]
    fn check_key(&self, number: u32, key: Key<'_>) -> Result<(), Refusal> {
        let watched = self.watched[number as usize].as_ref();
        match (watched.and_then(|watched| watched.key), key) {
            (None, Key::None)
            | (Some(Kind::Int), Key::Int(_))
            | (Some(Kind::Text), Key::Text(_)) => Ok(()),
            _ => Err(self.wrong_key(number, key)),
        }
    }

    #[cold]
    fn wrong_key(&self, number: u32, key: Key<'_>) -> Refusal {
        let watched = self.watched[number as usize].as_ref();
        match (watched.and_then(|watched| watched.spec.key), key) {
            (None, _) => Refusal::WrongKey { column: None },
            (Some(column), Key::None) => Refusal::WrongKey {
                column: Some(self.schema.label(column)),
            },
            (Some(column), _) => self.schema.wrong_kind(column),
        }
    }

    #[cold]
    fn ask_key_after(
        &mut self,
        number: u32,
        key: Key<'_>,
        code: Code,
    ) -> Result<Option<StoredLine>, Error<E::Error>> {
        if code.0 == FC_BUILDING && self.policy != Policy::Manual {
            self.build_pending(number)?;
            let asked = self.library.ask_key(number, key);
            return self.outcome(asked);
        }
        self.outcome(Err(code))
    }

    fn ask_into_answer(&mut self, number: u32) -> Coded<()> {
        if self.has_plain_sum(number) {
            if let Some((count, sum)) = self.library.plain(number)? {
                self.answer.clear();
                self.answer.push_sum(count, sum);
                return Ok(());
            }
        }
        self.library.ask(number, &mut self.answer)
    }

    // Whether the aggregate is totals without a key.
    fn has_plain_sum(&self, number: u32) -> bool {
        let plain = |w: &Watched| w.spec.fold == FC_TOTALS && w.spec.key.is_none();
        self.watched[number as usize].as_ref().is_some_and(plain)
    }

    #[cold]
    fn ask_after(&mut self, number: u32, code: Code) -> Result<(), Error<E::Error>> {
        if code.0 == FC_BUILDING && self.policy != Policy::Manual {
            self.build_pending(number)?;
            let asked = self.ask_into_answer(number);
            return self.outcome(asked);
        }
        self.outcome(Err(code))
    }

    /// Computes the answer of an aggregate from scratch, from all rows, whatever is pending in it.
    /// Its time grows with the rows; the time of [`ask`](Table::ask) grows with the keys.
    ///
    /// With an automatic policy it works whichever objects are away: if one is, it registers a second
    /// aggregate with the same spec, builds all row groups into that, and forgets it.
    ///
    /// ```
    /// # use fullercoral::{Limits, Memory, Schema, Table, row, totals};
    /// let mut table = Table::open(Schema::new().int("price"), Limits::new(), Memory::new())?;
    /// let total = table.watch(totals("price"))?;
    /// table.extend([row![5], row![7]])?;
    /// table.evict("price", 0)?;
    /// assert_eq!(table.recount(total)?.next().unwrap().sum, 12);
    /// # Ok::<(), Box<dyn std::error::Error>>(())
    /// ```
    ///
    /// # Errors
    /// - `NoAggregate`: it was forgotten, or belongs to another table.
    /// - `Absent`: by [`Policy::Manual`](crate::Policy::Manual), an object that it needs is away.
    /// - `TooManyAggregates`: an object is away, and 32 aggregates are registered.
    /// - `RegionFull`: by an automatic policy, a row group needs an object, and pins leave no space for it.
    /// - `FarFault`, or the engine's error: a row group that is away could not be read.
    /// - `NoMemory`.
    pub fn recount<A: Aggregate>(&mut self, aggregate: A) -> Result<Lines<'_, A>, Error<E::Error>> {
        let number = self.number_of(aggregate.id())?;
        match self.first_absent(number) {
            None => {
                let recounted = self.library.recount(number, &mut self.answer);
                self.outcome(recounted)?;
            }
            Some(absent) if self.policy == Policy::Manual => return Err(absent.into()),
            Some(_) => self.recount_anew(number)?,
        }
        Ok(self.answer.lines())
    }

    // The first object of the aggregate's columns that is away, as a refusal.
    fn first_absent(&mut self, number: u32) -> Option<Refusal> {
        let groups = self.groups();
        for column in self.columns_of(number) {
            let mut groups = 0..groups;
            let away = |group: &u32| {
                let object = self.library.object(column, *group);
                object.is_ok_and(|object| !object.local)
            };
            if let Some(group) = groups.find(away) {
                let column = self.schema.label(column);
                return Some(Refusal::Absent { column, group });
            }
        }
        None
    }

    fn recount_anew(&mut self, number: u32) -> Result<(), Error<E::Error>> {
        let watched = self.watched[number as usize].as_ref();
        let spec = watched
            .map(|w| w.spec.clone())
            .ok_or(Refusal::NoAggregate)?;
        let number = self.register(spec)?.number;
        let table = self;
        let anew = Passing { table, number };
        anew.table.build_pending(number)?;
        let asked = anew.table.ask_into_answer(number);
        anew.table.outcome(asked)
    }

    /// The number of row groups that are pending in an aggregate.
    ///
    /// ```
    /// # use fullercoral::{Limits, Memory, Schema, Table, row, totals};
    /// let mut table = Table::open(Schema::new().int("price"), Limits::new(), Memory::new())?;
    /// table.insert(row![5])?;
    /// let total = table.watch(totals("price"))?;
    /// assert_eq!(table.pending(total)?, 1);
    /// table.scan(total, 0)?;
    /// assert_eq!(table.pending(total)?, 0);
    /// # Ok::<(), Box<dyn std::error::Error>>(())
    /// ```
    ///
    /// # Errors
    /// `NoAggregate`: it was forgotten, or belongs to another table.
    pub fn pending<A: Aggregate>(&mut self, aggregate: A) -> Result<u32, Error<E::Error>> {
        let number = self.number_of(aggregate.id())?;
        let pending = self.library.pending(number);
        self.outcome(pending).map(|(groups, _)| groups)
    }

    // The number of an aggregate, if this table has it.
    pub(super) fn number_of(&self, id: Id) -> Result<u32, Refusal> {
        match self.watched.get(id.number as usize) {
            Some(Some(watched)) if watched.stamp == id.stamp => Ok(id.number),
            _ => Err(Refusal::NoAggregate),
        }
    }
}
