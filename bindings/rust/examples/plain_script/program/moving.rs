//! Objects, the store that keeps their bytes while they are away, and the jobs that move them.

use std::rc::Rc;

use super::column::{Column, Kind};
use super::fold::Rows;
use super::refusal::Refusal;
use super::table::Table;

/// What is known of the cells of a row group of a column.
#[derive(Default)]
pub struct Object {
    pub is_away: bool,
    /// The content in the store with the cells as they are.
    current: Option<usize>,
    writes: u64,
    evictions: u64,
    pins: u16,
    /// What the far form of its texts takes, without its head.
    pub bytes: u64,
}

impl Object {
    /// Notes that a cell is written.
    #[inline]
    pub fn write(&mut self) {
        self.current = None;
        self.writes += 1;
    }
}

/// Contents by number.
pub struct Store {
    contents: Vec<Rc<Vec<u8>>>,
    most: usize,
}

impl Store {
    /// An empty store with space for so many contents.
    pub fn new(most: usize) -> Store {
        Store {
            contents: Vec::new(),
            most,
        }
    }
}

/// A job that has begun.
pub enum Job {
    Spent,
    Evict(Eviction),
    Fetch {
        column: usize,
        group: usize,
        content: usize,
        evictions: u64,
        is_carried: bool,
    },
    Build(Box<Build>),
}

/// An eviction: the object as it was, and its bytes, if the store does not have them yet.
pub struct Eviction {
    column: usize,
    group: usize,
    writes: u64,
    evictions: u64,
    bytes: Option<Vec<u8>>,
    content: Option<usize>,
    is_carried: bool,
}

/// An offloaded build: the aggregate, the contents that it reads, and after its carry the cells.
pub struct Build {
    number: usize,
    group: usize,
    registration: u64,
    removals: u32,
    contents: Vec<(usize, usize)>,
    rows: usize,
    cells: Option<Vec<Column>>,
}

impl Table {
    fn object(&self, column: usize, group: usize) -> Result<&Object, Refusal> {
        let objects = self.objects.get(column).ok_or(Refusal::NoColumn)?;
        objects.get(group).ok_or(Refusal::OutOfRange)
    }

    /// Begins to evict an object.
    pub fn evict(&self, column: usize, group: usize) -> Result<Job, Refusal> {
        let object = self.object(column, group)?;
        if object.is_away {
            return Err(Refusal::Absent(column, group));
        }
        let places = self.places(group);
        let is_new = object.current.is_none();
        let bytes = is_new.then(|| self.columns[column].encode(places));
        let Object {
            writes,
            evictions,
            current,
            ..
        } = *object;
        Ok(Job::Evict(Eviction {
            column,
            group,
            writes,
            evictions,
            bytes,
            content: current,
            is_carried: false,
        }))
    }

    /// Begins to fetch an object.
    pub fn fetch(&self, column: usize, group: usize) -> Result<Job, Refusal> {
        let object = self.object(column, group)?;
        match object.current {
            Some(content) if object.is_away => {
                let evictions = object.evictions;
                Ok(Job::Fetch {
                    column,
                    group,
                    content,
                    evictions,
                    is_carried: false,
                })
            }
            _ => Err(Refusal::StaleJob),
        }
    }

    /// Begins to build a row group into an aggregate from the store.
    pub fn offload(&self, number: usize, group: usize) -> Result<Job, Refusal> {
        let aggregate = self.pending(number, group)?;
        let needed = (0..self.kinds.len()).filter(|column| aggregate.spec.needs(*column));
        let current = |column: usize| Some((column, self.objects[column][group].current?));
        let contents: Option<Vec<_>> = needed.map(current).collect();
        Ok(Job::Build(Box::new(Build {
            number,
            group,
            registration: aggregate.registration,
            removals: self.removals[group],
            contents: contents.ok_or(Refusal::StaleJob)?,
            rows: self.places(group).len(),
            cells: None,
        })))
    }

    /// Ends an eviction.
    pub fn commit(&mut self, job: &Job) -> Result<(), Refusal> {
        let Job::Evict(Eviction {
            column,
            group,
            writes,
            evictions,
            content,
            is_carried: true,
            ..
        }) = job
        else {
            return Err(Refusal::StaleJob);
        };
        let object = &mut self.objects[*column][*group];
        if object.is_away || object.writes != *writes || object.evictions != *evictions {
            return Err(Refusal::StaleJob);
        }
        if object.pins > 0 {
            return Err(Refusal::Pinned);
        }
        object.is_away = true;
        object.evictions += 1;
        object.current = *content;
        self.away += 1;
        self.space.give(&self.columns[*column], object);
        Ok(())
    }

    /// Ends a fetch.
    pub fn install(&mut self, job: &Job, store: &Store) -> Result<(), Refusal> {
        let Job::Fetch {
            column,
            group,
            content,
            evictions,
            is_carried: true,
        } = job
        else {
            return Err(Refusal::StaleJob);
        };
        let object = &mut self.objects[*column][*group];
        if !object.is_away || object.evictions != *evictions {
            return Err(Refusal::StaleJob);
        }
        object.is_away = false;
        self.away -= 1;
        self.space
            .take([(&self.columns[*column], &*object)].into_iter())?;
        let from = group * self.group;
        self.columns[*column].decode(from, &store.contents[*content]);
        Ok(())
    }

    /// Ends an offloaded build.
    pub fn merge(&mut self, job: &Job) -> Result<(), Refusal> {
        let Job::Build(build) = job else {
            return Err(Refusal::StaleJob);
        };
        let registration = self.aggregate(build.number)?.registration;
        let cells = build.cells.as_ref().ok_or(Refusal::StaleJob)?;
        let places = self.places(build.group);
        let is_current = |(column, content): &(usize, usize)| {
            self.objects[*column][build.group].current == Some(*content)
        };
        let is_same = registration == build.registration
            && build.contents.iter().all(is_current)
            && self.removals[build.group] == build.removals
            && places.len() == build.rows;
        self.pending(build.number, build.group)?;
        match self.aggregates.get_mut(build.number) {
            Some(Some(aggregate)) if is_same => {
                let alive = &self.alive[places.clone()];
                let rows = Rows {
                    cells,
                    at: 0,
                    alive,
                    place: places.start,
                    block: self.block,
                };
                aggregate.build(build.group, rows);
                Ok(())
            }
            _ => Err(Refusal::StaleJob),
        }
    }

    /// Reads some columns of a row group, from the store if they are away.
    pub fn read_group(&self, needed: &[usize], group: usize, store: &Store) -> Vec<Column> {
        let mut cells: Vec<Column> = self.kinds.iter().map(|kind| Column::new(*kind)).collect();
        for column in needed {
            let object = &self.objects[*column][group];
            match object.current {
                Some(content) if object.is_away => {
                    cells[*column].decode(0, &store.contents[content])
                }
                _ => cells[*column].decode(0, &self.columns[*column].encode(self.places(group))),
            }
        }
        cells
    }

    /// Adds a pin to an object.
    pub fn pin(&mut self, column: usize, group: usize) -> Result<(), Refusal> {
        let object = self.object(column, group)?;
        if object.is_away {
            return Err(Refusal::Absent(column, group));
        }
        let pins = object.pins.checked_add(1).ok_or(Refusal::EditsUsedUp)?;
        self.objects[column][group].pins = pins;
        Ok(())
    }

    /// Removes a pin from an object.
    pub fn unpin(&mut self, column: usize, group: usize) -> Result<(), Refusal> {
        let pins = self.object(column, group)?.pins.checked_sub(1);
        self.objects[column][group].pins = pins.ok_or(Refusal::NotPinned)?;
        Ok(())
    }

    /// Puts what is away into a new store for so many contents.
    pub fn renew(&mut self, store: &mut Store, most: usize) -> Result<(), Refusal> {
        if self.away > most {
            return Err(Refusal::FarFull);
        }
        let mut new = Store::new(most);
        for object in self.objects.iter_mut().flatten() {
            let kept = object.current.filter(|_| object.is_away);
            object.current = kept.map(|content| {
                new.contents.push(store.contents[content].clone());
                new.contents.len() - 1
            });
        }
        *store = new;
        Ok(())
    }
}

impl Job {
    /// Carries the job: writes its bytes into the store, or reads them.
    pub fn carry(&mut self, store: &mut Store, kinds: &[Kind]) -> Result<(), Refusal> {
        match self {
            Job::Evict(job) if !job.is_carried => {
                if let Some(bytes) = job.bytes.take() {
                    if store.contents.len() == store.most {
                        job.bytes = Some(bytes);
                        return Err(Refusal::FarFull);
                    }
                    job.content = Some(store.contents.len());
                    store.contents.push(Rc::new(bytes));
                }
                job.is_carried = true;
            }
            Job::Fetch { is_carried, .. } if !*is_carried => *is_carried = true,
            Job::Build(build) if build.cells.is_none() => {
                let mut cells: Vec<Column> = kinds.iter().map(|kind| Column::new(*kind)).collect();
                for (column, content) in &build.contents {
                    cells[*column].decode(0, &store.contents[*content]);
                }
                build.cells = Some(cells);
            }
            _ => return Err(Refusal::StaleJob),
        }
        Ok(())
    }
}
