//! Moves objects in phases, with other calls between.

use fullercoral::{Incoming, Outgoing, Refusal, Stored};

use super::aggregates::{of_engine, with_handle};
use super::{Checked, World, Wrong, no_space};
use crate::call::{Call, name};
use crate::repeat::{told, told_of};

/// The state of an object when its job began: how often it was written, and how often evicted.
type State = (u64, u64);

/// A job that was begun.
pub struct Job {
    work: Work,
    /// The table renewed its numbers since, which ended the job.
    is_over: bool,
    /// The table moved objects by itself since, so it may be stale.
    is_unsure: bool,
}

enum Work {
    Evict {
        eviction: Eviction,
        /// The object to evict, if it is known: not for the coldest.
        object: Option<(usize, u32, State)>,
    },
    Fetch {
        incoming: Incoming,
        object: (usize, u32, State),
        is_right: bool,
    },
    Build {
        incoming: Incoming,
        of: u32,
        group: u32,
        rests_on: (Vec<u64>, Vec<bool>),
        is_right: bool,
    },
}

/// An eviction that is to be put, or to be committed.
enum Eviction {
    Begun(Outgoing),
    Stored(Stored),
}

impl Eviction {
    // An eviction whose content the far side has already needs no put.
    fn new(outgoing: Outgoing) -> Eviction {
        match outgoing.content() {
            Some(_) => Eviction::Begun(outgoing),
            None => Eviction::Stored(outgoing.assume_stored()),
        }
    }
}

impl Job {
    fn new(work: Work) -> Job {
        Job {
            work,
            is_over: false,
            is_unsure: false,
        }
    }

    pub fn is_eviction(&self) -> bool {
        matches!(self.work, Work::Evict { .. })
    }

    /// Whether its contents were put or got.
    pub fn is_ready(&self) -> bool {
        match self.work {
            Work::Evict { ref eviction, .. } => matches!(eviction, Eviction::Stored(_)),
            Work::Fetch { is_right, .. } | Work::Build { is_right, .. } => is_right,
        }
    }

    pub fn is_over(&mut self) {
        self.is_over = true;
    }

    pub fn is_unsure(&mut self) {
        self.is_unsure = true;
    }
}

fn far_fault(column: usize, group: u32) -> Refusal {
    let column = name(column).into();
    Refusal::FarFault { column, group }
}

impl World {
    fn state(&self, column: usize, group: u32) -> State {
        self.model.objects[column][group as usize].state()
    }

    pub fn begin_evict(&mut self, id: u32, column: usize, group: u32) -> Checked {
        let may = self.may_of_eviction(column, group);
        let due = self.evict_refusal(column, group);
        let begins = due.is_ok();
        let migrations = self.before.migrations;
        let reply = self.table.begin_evict(column, group);
        let has_content = reply.as_ref().is_ok_and(|it| it.content().is_some());
        let came = told_of(&reply);
        let done = self.settle(&came, due.map(|()| "()".to_owned()), &may);
        if begins {
            self.count_carried(column, group, migrations);
        }
        if let (true, Ok(outgoing)) = (done?, reply) {
            let dirty = self.model.object(column, group)?.dirty;
            if dirty.is_some_and(|dirty| dirty != has_content) {
                let due = format!("a content: {dirty:?}");
                let came = format!("a content: {has_content}");
                return Err(Wrong::state(due, came));
            }
            let object = Some((column, group, self.state(column, group)));
            let eviction = Eviction::new(outgoing);
            let work = Work::Evict { eviction, object };
            self.jobs.insert(id, Job::new(work));
        }
        Ok(())
    }

    pub fn begin_coldest(&mut self, id: u32) -> Checked {
        let full = self.model.may_be_full();
        let reply = self.table.begin_evict_coldest();
        let came = told_of(&reply);
        let left = self.model.most_edits - self.model.begun.min(self.model.most_edits);
        let found_none = matches!(reply, Ok(None));
        let due = if left < 2 && self.model.is_counted && !found_none {
            Err(Refusal::EditsUsedUp)
        } else {
            Ok("()".to_owned())
        };
        let may: &[u32] = if full { &[22] } else { &[] };
        self.settle(&came, due, may)?;
        self.model.is_heat_known = false;
        self.model.begun += if found_none { 0 } else { left.min(2) };
        if let Ok(Some(outgoing)) = reply {
            self.model.contents += u64::from(outgoing.content().is_some());
            let work = Work::Evict {
                eviction: Eviction::new(outgoing),
                object: None,
            };
            self.jobs.insert(id, Job::new(work));
        }
        Ok(())
    }

    pub fn begin_fetch(&mut self, id: u32, column: usize, group: u32) -> Checked {
        let due = self.fetch_refusal(column, group);
        let reply = self.table.begin_fetch(column, group);
        let came = told_of(&reply);
        if let (true, Ok(incoming)) = (
            self.settle(&came, due.map(|()| "()".to_owned()), &[])?,
            reply,
        ) {
            self.model.begun += 1;
            let work = Work::Fetch {
                incoming,
                object: (column, group, self.state(column, group)),
                is_right: false,
            };
            self.jobs.insert(id, Job::new(work));
        }
        Ok(())
    }

    pub fn begin_build(&mut self, id: u32, of: u32, group: u32) -> Checked {
        let Some(watched) = self.aggregates.get(&of) else {
            return Ok(());
        };
        let handle = watched.handle;
        let (due, is_known) = self.build_refusal(of, group);
        let may: &[u32] = if is_known { &[] } else { &[20] };
        let reply = with_handle!(handle, it => self.table.begin_build(it, group));
        let came = told_of(&reply);
        if let (true, Ok(incoming)) = (
            self.settle(&came, due.map(|()| "()".to_owned()), may)?,
            reply,
        ) {
            self.model.begun += 1;
            let work = Work::Build {
                incoming,
                of,
                group,
                rests_on: self.rests_on(of, group),
                is_right: false,
            };
            self.jobs.insert(id, Job::new(work));
        }
        Ok(())
    }

    // The state that a build depends on: the writes of its columns, and which rows are alive.
    fn rests_on(&self, of: u32, group: u32) -> (Vec<u64>, Vec<bool>) {
        let columns = self.aggregates[&of].folding.columns();
        let versions = columns.map(|column| self.model.objects[column][group as usize].version);
        let alive = self.model.alive[self.model.places_of(group)].to_vec();
        (versions.collect(), alive)
    }

    pub fn phase(&mut self, call: &Call) -> Checked {
        match call {
            Call::Put(id) => self.put(*id),
            Call::Get(id) => self.get(*id),
            Call::Commit(id) => self.commit(*id),
            Call::Install(id) => self.install(*id),
            Call::Drop(id) => {
                self.jobs.remove(id);
                Ok(())
            }
            _ => Ok(()),
        }
    }

    // Puts the content of an eviction. A failure ends the eviction.
    fn put(&mut self, id: u32) -> Checked {
        let is_begun = |job: &Job| {
            let Work::Evict { eviction, .. } = &job.work else {
                return false;
            };
            matches!(eviction, Eviction::Begun(_))
        };
        if !self.jobs.get(&id).is_some_and(is_begun) {
            return Ok(());
        }
        let Some(mut job) = self.jobs.remove(&id) else {
            return Ok(());
        };
        let Work::Evict {
            eviction: Eviction::Begun(outgoing),
            object,
        } = job.work
        else {
            return Ok(());
        };
        let put = outgoing.put(self.table.engine_mut());
        let came = told(of_engine(put.as_ref().map(drop).map_err(|down| *down)));
        if let Ok(stored) = put {
            let eviction = Eviction::Stored(stored);
            job.work = Work::Evict { eviction, object };
            self.jobs.insert(id, job);
        }
        self.settle(&came, Ok("()".to_owned()), &[]).map(drop)
    }

    // Gets the contents of a job, which does not check them.
    fn get(&mut self, id: u32) -> Checked {
        let Some(job) = self.jobs.get_mut(&id) else {
            return Ok(());
        };
        let (Work::Fetch {
            incoming, is_right, ..
        }
        | Work::Build {
            incoming, is_right, ..
        }) = &mut job.work
        else {
            return Ok(());
        };
        let got = incoming.get(self.table.engine_mut());
        let far = self
            .far
            .lock()
            .unwrap_or_else(std::sync::PoisonError::into_inner);
        *is_right = got.is_ok() && !far.lied;
        let due = if far.failed { "down" } else { "()" };
        let came = told(of_engine(got));
        if came != due {
            let due = due.to_owned();
            return Err(Wrong::state(due, came));
        }
        Ok(())
    }

    // Ends an eviction whose bytes were put; any other job stays.
    fn commit(&mut self, id: u32) -> Checked {
        let is_stored = |job: &Job| job.is_eviction() && job.is_ready();
        if !self.jobs.get(&id).is_some_and(is_stored) {
            return Ok(());
        }
        let Some(job) = self.jobs.remove(&id) else {
            return Ok(());
        };
        let Work::Evict {
            eviction: Eviction::Stored(stored),
            object,
        } = job.work
        else {
            return Ok(());
        };
        let is_unsure = job.is_unsure || object.is_none() && !job.is_over;
        let may: &[u32] = if is_unsure { &[19, 20] } else { &[] };
        let due = match object {
            _ if job.is_over => Err(Refusal::StaleJob),
            Some((column, group, state)) => self.commit_refusal(column, group, state),
            None => Ok(()),
        };
        let came = told(self.table.commit(stored));
        if self.settle(&came, due.map(|()| "()".to_owned()), may)? {
            match object {
                Some((column, group, _)) => self.model.leave(column, group),
                None => self.some_left(),
            }
        }
        Ok(())
    }

    // Why an object that was in this state when its job began cannot be evicted.
    fn commit_refusal(&self, column: usize, group: u32, state: State) -> Result<(), Refusal> {
        let now = self.model.object(column, group)?;
        if !now.local || now.state() != state {
            return Err(Refusal::StaleJob);
        }
        if now.pins > 0 {
            return Err(Refusal::Pinned);
        }
        Ok(())
    }

    // Finds the evicted object: it was local, has no pin, and is not local now.
    fn some_left(&mut self) {
        for column in 0..self.model.kinds.len() {
            for group in 0..self.model.groups() {
                let object = &self.model.objects[column][group as usize];
                let may_have_left = object.local && object.pins == 0;
                if may_have_left && self.table.is_local(column, group) == Ok(false) {
                    return self.model.leave(column, group);
                }
            }
        }
    }

    fn install(&mut self, id: u32) -> Checked {
        let is_eviction = |job: &Job| matches!(job.work, Work::Evict { .. });
        if self.jobs.get(&id).is_none_or(is_eviction) {
            return Ok(());
        }
        let Some(job) = self.jobs.remove(&id) else {
            return Ok(());
        };
        // (an eviction that makes space may renew the numbers, which ends the job)
        let renews = !self.is_manual() && self.model.may_be_full();
        let mut may = self.may();
        may.extend((job.is_unsure || renews).then_some(20));
        match job.work {
            Work::Fetch {
                incoming,
                object,
                is_right,
            } => self.install_object(incoming, object, is_right, job.is_over, may),
            Work::Build {
                incoming,
                of,
                group,
                rests_on,
                is_right,
            } => {
                let stale = job.is_over || self.rests_on(of, group) != rests_on;
                self.install_build(incoming, (of, group), is_right, stale, may)
            }
            Work::Evict { .. } => Ok(()),
        }
    }

    fn install_object(
        &mut self,
        incoming: Incoming,
        (column, group, state): (usize, u32, State),
        is_right: bool,
        is_over: bool,
        mut may: Vec<u32>,
    ) -> Checked {
        let now = self.model.object(column, group)?;
        let stale = is_over || now.local || now.state() != state;
        let due = match (stale, is_right) {
            (true, right) => {
                may.extend((!right).then_some(21));
                Err(Refusal::StaleJob)
            }
            (false, false) => Err(far_fault(column, group)),
            _ if self.is_manual() && !self.model.has_space_for(column, group) => {
                Err(Refusal::RegionFull)
            }
            _ => Ok("()".to_owned()),
        };
        let came = told(self.table.install(incoming));
        if self.settle(&came, due, &may)? && !self.model.arrive(column, group) {
            return Err(no_space());
        }
        Ok(())
    }

    fn install_build(
        &mut self,
        incoming: Incoming,
        (of, group): (u32, u32),
        is_right: bool,
        stale: bool,
        mut may: Vec<u32>,
    ) -> Checked {
        let watched = &self.aggregates[&of];
        let number = watched.number;
        let has_number = |it: &super::Watched| it.is_registered && it.number == number;
        let due = if !self.aggregates.values().any(has_number) {
            Err(Refusal::NoAggregate)
        } else if stale || !watched.is_registered || !watched.pending.contains(&group) {
            Err(Refusal::StaleJob)
        } else {
            Ok("()".to_owned())
        };
        let due = match due {
            Ok(_) if !is_right => {
                // (or another column that it needs)
                let column = self.aggregates[&of].folding.value;
                Err(far_fault(column, group))
            }
            Err(refusal) => {
                may.extend([20]);
                may.extend((!is_right).then_some(21));
                Err(refusal)
            }
            due => due,
        };
        let came = told(self.table.install(incoming));
        if self.settle(&came, due, &may)? {
            self.is_scanned(of, group);
        }
        Ok(())
    }
}
