use std::fmt;
use std::sync::{Arc, Mutex, PoisonError};

use super::copies::Copy;
use crate::Engine;

/// Jobs whose values were dropped. The table gives them up when it next begins one.
#[derive(Debug, Default)]
pub(crate) struct Abandoned(Mutex<Vec<(u64, Option<u64>)>>);

impl Abandoned {
    fn push(&self, job: u64, number: Option<u64>) {
        let mut jobs = self.0.lock().unwrap_or_else(PoisonError::into_inner);
        jobs.push((job, number));
    }

    /// Removes one of the jobs, with the number of the content that it was to put.
    pub fn pop(&self) -> Option<(u64, Option<u64>)> {
        let mut jobs = self.0.lock().unwrap_or_else(PoisonError::into_inner);
        jobs.pop()
    }
}

/// An eviction that was begun, with a copy of the object's bytes. It borrows nothing, so the engine can
/// work without the table.
///
/// [`Table::begin_evict`](crate::Table::begin_evict) returns it. [`put`](Outgoing::put) turns it into a
/// [`Stored`], which [`Table::commit`](crate::Table::commit) takes. If you drop it instead, the object
/// stays local.
///
/// ```
/// use fullercoral::{Limits, Memory, Schema, Table, row};
///
/// let mut table = Table::open(Schema::new().int("price"), Limits::new(), Memory::new())?;
/// table.insert(row![5])?;
/// let outgoing = table.begin_evict("price", 0)?;
/// let stored = outgoing.put(table.engine_mut())?;
/// table.commit(stored)?;
/// assert_eq!(table.stats().evictions, 1);
/// # Ok::<(), Box<dyn std::error::Error>>(())
/// ```
///
/// An eviction that was not put cannot be committed:
///
/// ```compile_fail,E0308
/// # use fullercoral::{Limits, Memory, Schema, Table, row};
/// # let mut table = Table::open(Schema::new().int("price"), Limits::new(), Memory::new())?;
/// # table.insert(row![5])?;
/// let outgoing = table.begin_evict("price", 0)?;
/// table.commit(outgoing)?;
/// # Ok::<(), Box<dyn std::error::Error>>(())
/// ```
#[must_use]
pub struct Outgoing {
    pub(crate) job: Job,
    pub(crate) content: Option<(u64, Vec<u8>)>,
}

/// Shows the number and the length of the content.
impl fmt::Debug for Outgoing {
    fn fmt(&self, f: &mut fmt::Formatter<'_>) -> fmt::Result {
        let content = self.content();
        f.debug_struct("Outgoing")
            .field("column", &self.job.column)
            .field("group", &self.job.group)
            .field("number", &content.map(|(number, _)| number))
            .field("len", &content.map(|(_, bytes)| bytes.len()))
            .finish()
    }
}

/// An eviction whose bytes the engine has.
///
/// [`Outgoing::put`] returns it, and [`Table::commit`](crate::Table::commit) ends it. If you drop it
/// instead, the object stays local.
///
/// ```
/// use fullercoral::{Limits, Memory, Schema, Stored, Table, row};
///
/// let mut table = Table::open(Schema::new().int("price"), Limits::new(), Memory::new())?;
/// table.insert(row![5])?;
/// let stored: Stored = table.begin_evict("price", 0)?.put(table.engine_mut())?;
/// table.commit(stored)?;
/// assert!(!table.is_local("price", 0)?);
/// # Ok::<(), Box<dyn std::error::Error>>(())
/// ```
#[must_use]
pub struct Stored {
    pub(crate) job: Job,
    /// The copy that was put, unless the engine had it already.
    pub(crate) copy: Option<Copy>,
}

/// Shows the number and the length of the content.
impl fmt::Debug for Stored {
    fn fmt(&self, f: &mut fmt::Formatter<'_>) -> fmt::Result {
        f.debug_struct("Stored")
            .field("column", &self.job.column)
            .field("group", &self.job.group)
            .field("number", &self.copy.map(|copy| copy.number))
            .field("len", &self.copy.map(|copy| copy.len))
            .finish()
    }
}

impl Outgoing {
    /// Puts the bytes into an engine: the table's own, a clone of it, or another with the same contents.
    /// It puts nothing if the engine has the bytes already.
    ///
    /// ```
    /// # use fullercoral::{Limits, Memory, Schema, Table, row};
    /// # let mut table = Table::open(Schema::new().int("price"), Limits::new(), Memory::new())?;
    /// # table.insert(row![5])?;
    /// let outgoing = table.begin_evict("price", 0)?;
    /// let stored = outgoing.put(table.engine_mut())?;
    /// # let _ = stored;
    /// # Ok::<(), Box<dyn std::error::Error>>(())
    /// ```
    ///
    /// # Errors
    /// The engine's error. The eviction has ended then, and the object stays local.
    pub fn put<E: Engine + ?Sized>(self, engine: &mut E) -> Result<Stored, E::Error> {
        if let Some((number, bytes)) = &self.content {
            engine.put(*number, bytes)?;
        }
        Ok(self.assume_stored())
    }

    /// Says that the program has put the bytes of [`content`](Outgoing::content) into the engine itself, for
    /// clients that cannot be an [`Engine`]. If it has not, the commit loses the object's cells.
    ///
    /// ```
    /// # use fullercoral::{Engine, Limits, Memory, Schema, Table, row};
    /// # let mut table = Table::open(Schema::new().int("price"), Limits::new(), Memory::new())?;
    /// # table.insert(row![5])?;
    /// let outgoing = table.begin_evict("price", 0)?;
    /// if let Some((number, bytes)) = outgoing.content() {
    ///     table.engine_mut().put(number, bytes)?;
    /// }
    /// table.commit(outgoing.assume_stored())?;
    /// # Ok::<(), Box<dyn std::error::Error>>(())
    /// ```
    pub fn assume_stored(self) -> Stored {
        let copy = self.content.map(|(number, bytes)| Copy {
            number,
            len: bytes.len() as u32,
        });
        Stored {
            job: self.job,
            copy,
        }
    }

    /// The number and the bytes, unless the engine has them already.
    ///
    /// ```
    /// # use fullercoral::{Limits, Memory, Schema, Table, row};
    /// # let mut table = Table::open(Schema::new().int("price"), Limits::new(), Memory::new())?;
    /// # table.insert(row![5])?;
    /// let outgoing = table.begin_evict("price", 0)?;
    /// let (number, bytes) = outgoing.content().unwrap();
    /// assert!(number == 0 && !bytes.is_empty());
    /// # Ok::<(), Box<dyn std::error::Error>>(())
    /// ```
    #[must_use]
    pub fn content(&self) -> Option<(u64, &[u8])> {
        self.content
            .as_ref()
            .map(|(number, bytes)| (*number, &**bytes))
    }
}

/// A fetch or a build that was begun, with the contents to get from the engine. It borrows nothing, so
/// the engine can work without the table.
///
/// [`Table::begin_fetch`](crate::Table::begin_fetch) and
/// [`Table::begin_build`](crate::Table::begin_build) return it, and
/// [`Table::install`](crate::Table::install) ends it. If you drop it instead, nothing changes.
///
/// ```
/// use fullercoral::{Limits, Memory, Schema, Table, row};
///
/// let mut table = Table::open(Schema::new().int("price"), Limits::new(), Memory::new())?;
/// table.insert(row![5])?;
/// table.evict("price", 0)?;
/// let mut incoming = table.begin_fetch("price", 0)?;
/// incoming.get(table.engine_mut())?;
/// table.install(incoming)?;
/// assert_eq!(table.stats().fetches, 1);
/// # Ok::<(), Box<dyn std::error::Error>>(())
/// ```
#[must_use]
pub struct Incoming {
    pub(crate) job: Job,
    pub(crate) wanted: Vec<Wanted>,
    pub(crate) target: Target,
}

/// Shows the numbers of the contents, and how many bytes of each it has.
impl fmt::Debug for Incoming {
    fn fmt(&self, f: &mut fmt::Formatter<'_>) -> fmt::Result {
        let got = |wanted: &Wanted| (wanted.copy.number, wanted.bytes.len());
        let contents: Vec<(u64, usize)> = self.wanted.iter().map(got).collect();
        f.debug_struct("Incoming")
            .field("target", &self.target)
            .field("contents", &contents)
            .finish()
    }
}

/// A content that a job needs.
pub(crate) struct Wanted {
    /// Its number in the library.
    pub number: u64,
    /// The column of its object.
    pub column: u32,
    pub copy: Copy,
    pub bytes: Vec<u8>,
}

/// What a job gets contents for.
#[derive(Debug, Clone, std::marker::Copy)]
pub(crate) enum Target {
    Object { column: u32, group: u32 },
    Aggregate,
}

impl Incoming {
    /// Gets the bytes from an engine: the table's own, a clone of it, or another with the same contents.
    /// It may be called again after an error.
    ///
    /// ```
    /// # use fullercoral::{Limits, Memory, Schema, Table, row};
    /// # let mut table = Table::open(Schema::new().int("price"), Limits::new(), Memory::new())?;
    /// # table.insert(row![5])?;
    /// # table.evict("price", 0)?;
    /// let mut incoming = table.begin_fetch("price", 0)?;
    /// incoming.get(table.engine_mut())?;
    /// # Ok::<(), Box<dyn std::error::Error>>(())
    /// ```
    ///
    /// # Errors
    /// The engine's error.
    pub fn get<E: Engine + ?Sized>(&mut self, engine: &mut E) -> Result<(), E::Error> {
        for wanted in &mut self.wanted {
            wanted.bytes.clear();
            engine.get(wanted.copy.number, &mut wanted.bytes)?;
        }
        Ok(())
    }

    /// The numbers of the contents that it needs, and the buffers for their bytes.
    ///
    /// ```
    /// # use fullercoral::{Engine, Limits, Memory, Schema, Table, row};
    /// # let mut table = Table::open(Schema::new().int("price"), Limits::new(), Memory::new())?;
    /// # table.insert(row![5])?;
    /// # table.evict("price", 0)?;
    /// let mut incoming = table.begin_fetch("price", 0)?;
    /// for (number, bytes) in incoming.contents() {
    ///     table.engine_mut().get(number, bytes)?;
    /// }
    /// table.install(incoming)?;
    /// # Ok::<(), Box<dyn std::error::Error>>(())
    /// ```
    pub fn contents(&mut self) -> impl ExactSizeIterator<Item = (u64, &mut Vec<u8>)> {
        self.wanted
            .iter_mut()
            .map(|wanted| (wanted.copy.number, &mut wanted.bytes))
    }
}

/// A job of a table. Dropping it gives the job up.
#[derive(Debug)]
pub(crate) struct Job {
    pub number: u64,
    /// The number of the content that the job puts.
    pub put: Option<u64>,
    pub column: u32,
    pub group: u32,
    abandoned: Option<Arc<Abandoned>>,
}

impl Job {
    pub fn new(number: u64, column: u32, group: u32, abandoned: &Arc<Abandoned>) -> Job {
        Job {
            number,
            put: None,
            column,
            group,
            abandoned: Some(Arc::clone(abandoned)),
        }
    }

    /// Whether the job belongs to the table with these abandoned jobs.
    pub fn is_of(&self, table: &Arc<Abandoned>) -> bool {
        self.abandoned
            .as_ref()
            .is_some_and(|own| Arc::ptr_eq(own, table))
    }

    /// Ends the job, so that its drop does nothing.
    pub fn end(&mut self) {
        self.abandoned = None;
    }
}

impl Drop for Job {
    fn drop(&mut self) {
        if let Some(abandoned) = &self.abandoned {
            abandoned.push(self.number, self.put);
        }
    }
}
