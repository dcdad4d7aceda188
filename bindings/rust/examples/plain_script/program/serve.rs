//! The commands after the opening.

use std::collections::VecDeque;

use super::Ending;
use super::column::Kind;
use super::moving::{Job, Store};
use super::opening::Limits;
use super::record::{self, Field};
use super::refusal::Refusal;
use super::reply::Replies;
use super::script::{Script, Words};
use super::spec::spec;
use super::table::Table;

/// How many contents the first store has space for.
const CONTENTS: usize = 1 << 20;

/// The reply to a command that is not refused.
enum Reply {
    Line(&'static str),
    Place(u32),
    Aggregate(usize),
    Job(u64),
    /// It is written already.
    Written,
}

/// A reply or a refusal. `None` if the line is not a command.
type Answer = Option<Result<Reply, Refusal>>;

/// A table with its store and its jobs.
pub struct Server<'a> {
    table: Table,
    store: Store,
    /// The jobs from number `spent` on. All before are spent.
    jobs: VecDeque<Job>,
    spent: u64,
    /// The fields of the command that is served.
    row: Vec<Field<'a>>,
    replies: Replies<'a>,
}

fn ok(done: Result<(), Refusal>) -> Answer {
    Some(done.map(|()| Reply::Line("ok")))
}

fn written(done: Result<(), Refusal>) -> Answer {
    Some(done.map(|()| Reply::Written))
}

impl<'a> Server<'a> {
    /// Opens a table.
    pub fn new(kinds: Vec<Kind>, limits: Limits, replies: Replies<'a>) -> Server<'a> {
        let (table, store) = (Table::new(kinds, limits), Store::new(CONTENTS));
        Server {
            table,
            store,
            jobs: VecDeque::new(),
            spent: 0,
            row: Vec::new(),
            replies,
        }
    }

    /// Serves the rest of a script.
    pub fn serve(mut self, script: &mut Script<'a>) -> Ending {
        self.replies.line(b"ok");
        let mut number = 1;
        while let Some(line) = script.line() {
            number += 1;
            let answer = match count_of_load(line) {
                Some(count) => match script.bytes(count) {
                    Some(records) => self.load(records),
                    None => break,
                },
                None => self.command(line),
            };
            if let Some(Err(Refusal::Space)) = answer {
                self.replies.flush();
                return Ending::Unsupported("a refusal for space");
            }
            self.print(answer, number);
        }
        self.replies.flush();
        let is_faulty = script.is_cut() || self.replies.is_broken();
        if is_faulty {
            Ending::Faulty
        } else {
            Ending::Served
        }
    }

    #[inline]
    fn print(&mut self, answer: Answer, number: u64) {
        match answer {
            None => self.replies.counted(b"syntax command ", number),
            Some(Ok(Reply::Line(line))) => self.replies.line(line.as_bytes()),
            Some(Ok(Reply::Place(place))) => self.replies.counted(b"place ", place.into()),
            Some(Ok(Reply::Aggregate(number))) => {
                self.replies.counted(b"aggregate ", number as u64)
            }
            Some(Ok(Reply::Job(number))) => self.replies.counted(b"job ", number),
            Some(Ok(Reply::Written)) => (),
            Some(Err(refusal)) => self.replies.refused(refusal),
        }
    }

    fn load(&mut self, records: &'a [u8]) -> Answer {
        let mut rest = record::without_mark(records);
        let (mut count, mut done) = (0, Ok(Reply::Written));
        while let Some(next) = record::read(rest, &self.table.kinds, &mut self.row) {
            rest = next;
            if let Err(refusal) = self.table.insert(&self.row) {
                done = Err(refusal);
                break;
            }
            count += 1;
        }
        if let Err(Refusal::Space) = done {
            return Some(done);
        }
        self.replies.counted(b"loaded ", count);
        Some(done)
    }

    #[inline]
    fn command(&mut self, line: &'a [u8]) -> Answer {
        let mut words = Words::new(line);
        match words.word()? {
            b"insert" => self.insert(words),
            b"set" => self.set(words),
            b"remove" => {
                let place = words.number()?;
                words.end()?;
                ok(self.table.remove(place))
            }
            b"watch" => {
                let spec = spec(&mut words, &self.table.kinds)?;
                Some(self.table.watch(spec).map(Reply::Aggregate))
            }
            b"dump" => {
                words.end()?;
                written(self.table.dump(&mut self.replies))
            }
            verb @ (b"ask" | b"unwatch" | b"recount" | b"prefetch" | b"renew") => {
                self.named(verb, words)
            }
            b"lend" => self.lend(words),
            verb @ (b"carry" | b"commit" | b"install" | b"merge") => {
                let number = words.long()?;
                words.end()?;
                Some(self.continued(verb, number))
            }
            b"compact" => self.compact(words),
            verb => self.placed(verb, words),
        }
    }

    #[inline]
    fn insert(&mut self, mut words: Words<'a>) -> Answer {
        let text = record::without_mark(words.rest()?);
        let rest = record::read(text, &self.table.kinds, &mut self.row)?;
        is_one_record(rest)?;
        Some(self.table.insert(&self.row).map(Reply::Place))
    }

    #[inline]
    fn set(&mut self, mut words: Words<'a>) -> Answer {
        let (place, column) = (words.number()?, words.number()? as usize);
        let text = record::without_mark(words.rest()?);
        let kind = self.table.kinds.get(column).copied().unwrap_or(Kind::Text);
        let rest = record::read(text, &[kind], &mut self.row)?;
        is_one_record(rest)?;
        let [field] = &self.row[..] else {
            return None;
        };
        ok(self.table.set(place, column, field))
    }

    fn lend(&mut self, mut words: Words<'a>) -> Answer {
        let column = words.number()? as usize;
        let (from, to) = (words.number()? as usize, words.number()? as usize);
        words.end()?;
        written(self.table.lend(column, from, to, &mut self.replies))
    }

    /// Serves a command with one number.
    fn named(&mut self, verb: &[u8], mut words: Words<'a>) -> Answer {
        let number = words.number()? as usize;
        words.end()?;
        match verb {
            b"ask" => written(self.table.ask(number, &mut self.replies)),
            b"unwatch" => ok(self.table.unwatch(number)),
            b"recount" => written(self.table.recount(number, &self.store, &mut self.replies)),
            b"prefetch" => written(self.table.prefetch(number, &mut self.replies)),
            _ => Some(self.renew(number)),
        }
    }

    /// Serves a command with a column or an aggregate, and a row group.
    fn placed(&mut self, verb: &[u8], mut words: Words<'a>) -> Answer {
        if !matches!(
            verb,
            b"evac" | b"fetch" | b"offload" | b"scan" | b"pin" | b"unpin"
        ) {
            return None;
        }
        let (of, group) = (words.number()? as usize, words.number()? as usize);
        words.end()?;
        let job = match verb {
            b"scan" => return ok(self.table.scan(of, group)),
            b"pin" => return ok(self.table.pin(of, group)),
            b"unpin" => return ok(self.table.unpin(of, group)),
            b"evac" => self.table.evict(of, group),
            b"fetch" => self.table.fetch(of, group),
            _ => self.table.offload(of, group),
        };
        Some(self.begun(job))
    }

    fn begun(&mut self, job: Result<Job, Refusal>) -> Result<Reply, Refusal> {
        let (job, number) = (job?, self.spent + self.jobs.len() as u64);
        if number >= self.table.limits.edits {
            return Err(Refusal::EditsUsedUp);
        }
        self.table.has_jobs = true;
        self.jobs.push_back(job);
        Ok(Reply::Job(number))
    }

    /// Serves a carry, or the end of a job.
    fn continued(&mut self, verb: &[u8], number: u64) -> Result<Reply, Refusal> {
        let at = number.checked_sub(self.spent).ok_or(Refusal::StaleJob)? as usize;
        let job = self.jobs.get_mut(at).ok_or(Refusal::StaleJob)?;
        let done = match verb {
            b"carry" => {
                job.carry(&mut self.store, &self.table.kinds)?;
                return Ok(Reply::Line("carried"));
            }
            b"commit" => self.table.commit(job),
            b"install" => self.table.install(job, &self.store),
            _ => self.table.merge(job),
        };
        if matches!(done, Ok(()) | Err(Refusal::StaleJob)) {
            *job = Job::Spent;
            while let Some(Job::Spent) = self.jobs.front() {
                self.jobs.pop_front();
                self.spent += 1;
            }
        }
        done.map(|()| Reply::Line("ok"))
    }

    fn renew(&mut self, most: usize) -> Result<Reply, Refusal> {
        self.table.renew(&mut self.store, most)?;
        self.spent += self.jobs.len() as u64;
        self.jobs.clear();
        Ok(Reply::Line("renewed"))
    }

    /// Serves a `compact`. There are no segments, so nothing moves.
    fn compact(&mut self, mut words: Words<'a>) -> Answer {
        let segments = match words.word()? {
            b"int" => self.table.limits.number_segments,
            b"text" => self.table.limits.text_segments,
            _ => return None,
        };
        let segment = u64::from(words.number()?);
        words.end()?;
        ok(if segment < segments {
            Ok(())
        } else {
            Err(Refusal::OutOfRange)
        })
    }
}

/// Returns the number of bytes of a `load`.
#[inline]
fn count_of_load(line: &[u8]) -> Option<usize> {
    let mut words = Words::new(line.strip_prefix(b"load ")?);
    let count = words.number()?;
    words.end()?;
    Some(count as usize)
}

/// Returns whether no record follows the first.
#[inline]
fn is_one_record(rest: &[u8]) -> Option<()> {
    rest.iter()
        .all(|byte| matches!(byte, b'\r' | b'\n'))
        .then_some(())
}
