//! A table over the far side, and the plain table: makes each call on both, and compares their replies.

use std::collections::BTreeMap;
use std::sync::{Arc, Mutex, MutexGuard, PoisonError};
use std::time::Duration;

use fullercoral::{Policy, Refusal, Retry, Stats, Table};

use crate::call::{Call, Setup, Step};
use crate::model::{Model, refused};
use crate::repeat::{Far, Store};

mod aggregates;
mod edits;
mod movement;
mod phases;
mod reading;

use aggregates::Watched;
use phases::Job;

/// A wrong reply.
#[derive(Debug, Clone, PartialEq, Eq)]
pub struct Wrong {
    pub due: String,
    pub came: String,
    /// Whether the reply of the last call is wrong, or else the table's state after it.
    pub is_reply: bool,
}

impl Wrong {
    /// The table's state is wrong.
    pub fn state(due: impl Into<String>, came: impl Into<String>) -> Wrong {
        Wrong {
            due: due.into(),
            came: came.into(),
            is_reply: false,
        }
    }
}

pub type Checked = Result<(), Wrong>;

/// The prefix of the reply of a call that got other bytes than were put.
const FAULT: &str = "refused 21 ";

/// Both tables, with their aggregates and jobs by the number of the step that made them.
pub struct World {
    table: Table<Store>,
    far: Arc<Mutex<Far>>,
    pub model: Model,
    pub aggregates: BTreeMap<u32, Watched>,
    pub jobs: BTreeMap<u32, Job>,
    pub policy: Policy,
    before: Stats,
    /// How often each call got each reply: a value, a refusal's number or a failure, with a note if the
    /// plain table did not expect it.
    pub replies: BTreeMap<(String, String), u64>,
    call: String,
}

impl World {
    pub fn new(setup: &Setup) -> World {
        let far = Arc::new(Mutex::new(Far::default()));
        let engine = Retry::new(Arc::clone(&far), setup.tries).pause(Duration::ZERO);
        let opened = Table::open(setup.schema(), setup.limits(), engine);
        let mut table = opened.expect("the limits are valid");
        table.set_policy(setup.policy);
        let before = table.stats();
        World {
            table,
            far,
            model: Model::new(setup),
            aggregates: BTreeMap::new(),
            jobs: BTreeMap::new(),
            policy: setup.policy,
            before,
            replies: BTreeMap::new(),
            call: String::new(),
        }
    }

    // Counts a reply: a value, the number of a refusal, or that the far side failed.
    fn count(&mut self, came: &str, how: &str) {
        let mut words = came.split(' ');
        let reply = match words.next() {
            Some("refused") => format!("refused {}", words.next().unwrap_or("")),
            Some("down") => "down".to_owned(),
            _ => "a value".to_owned(),
        };
        let key = (self.call.clone(), reply + how);
        *self.replies.entry(key).or_default() += 1;
    }

    fn far(&self) -> MutexGuard<'_, Far> {
        self.far.lock().unwrap_or_else(PoisonError::into_inner)
    }

    fn is_manual(&self) -> bool {
        self.policy == Policy::Manual
    }

    /// Makes a call on both tables, and then compares all objects. A call with an aggregate or a job that
    /// does not exist does nothing.
    pub fn apply(&mut self, step: &Step) -> Checked {
        self.far().behave(step.mood);
        self.before = self.table.stats();
        self.call = step.call.verb();
        let id = step.id;
        match &step.call {
            Call::Insert(_) | Call::Extend(_) | Call::Set(..) | Call::Remove(_) => {
                self.edit(&step.call)?;
            }
            Call::Watch(folding) => self.watch(id, folding)?,
            Call::Unwatch(_) | Call::Ask(_) | Call::Recount(_) | Call::Pending(_) => {
                self.question(&step.call)?;
            }
            Call::Scan(of, group) => self.scan(*of, *group)?,
            Call::Build(of, group) => self.build(*of, *group)?,
            Call::Row(_) | Call::Text(..) | Call::Part(..) | Call::IsAlive(_) => {
                self.read(&step.call)?;
            }
            Call::Put(_) | Call::Get(_) | Call::Commit(_) | Call::Install(_) | Call::Drop(_) => {
                self.phase(&step.call)?;
            }
            Call::BeginEvict(column, group) => self.begin_evict(id, *column, *group)?,
            Call::BeginColdest => self.begin_coldest(id)?,
            Call::BeginFetch(column, group) => self.begin_fetch(id, *column, *group)?,
            Call::BeginBuild(of, group) => self.begin_build(id, *of, *group)?,
            Call::SetPolicy(policy) => self.set_policy(*policy),
            Call::ComeBack => self.far().come_back(),
            Call::Limit(room) => self.far().limit(*room),
            Call::GoAway(calls) => self.far().go_away(*calls),
            other => self.movement(other)?,
        }
        self.look()
    }

    fn set_policy(&mut self, policy: Policy) {
        self.policy = policy;
        self.table.set_policy(policy);
        self.model.is_counted &= self.is_manual();
    }

    // Compares a reply with the expected one, if the far side had no fault. Returns whether the call
    // succeeded. `may` has refusals that are right too.
    fn settle(
        &mut self,
        came: &str,
        due: Result<String, Refusal>,
        may: &[u32],
    ) -> Result<bool, Wrong> {
        self.settle_some(came, due, may, false)
    }

    // The same. A `lenient` call may succeed despite a fault of the far side, in a prefetch.
    fn settle_some(
        &mut self,
        came: &str,
        due: Result<String, Refusal>,
        may: &[u32],
        lenient: bool,
    ) -> Result<bool, Wrong> {
        self.sync();
        let (is_done, due) = match due {
            Ok(value) => (true, value),
            Err(refusal) => (false, refused(&refusal)),
        };
        let (failed, lied) = self.harm()?;
        let expected = match (failed, lied) {
            (true, _) => "down".to_owned(),
            (_, true) => FAULT.to_owned(),
            _ => due.clone(),
        };
        // (the far side does not say which content was wrong)
        let is_fault = expected.starts_with(FAULT) && came.starts_with(FAULT);
        if came == expected || is_fault || lenient && came == due {
            self.count(came, "");
            return Ok(came == due && is_done);
        }
        let is_one_of = |number: &u32| came.starts_with(&format!("refused {number} "));
        if may.iter().any(is_one_of) && !failed && !lied {
            self.count(came, ", though the plain table cannot tell");
            return Ok(false);
        }
        let (due, came) = (expected, came.to_owned());
        Err(Wrong {
            due,
            came,
            is_reply: true,
        })
    }

    // Whether the last call of the far side failed, and whether one returned wrong bytes. Wrong if the table
    // broke the rules of engines.
    fn harm(&self) -> Result<(bool, bool), Wrong> {
        let far = self.far();
        let forgotten = far.asked_forgotten.then_some("a number that was forgotten");
        match far.misuse.or(forgotten) {
            Some(misuse) => Err(Wrong::state(
                "a table that keeps the rules of engines",
                misuse,
            )),
            None => Ok((far.failed, far.lied)),
        }
    }

    // Refusals that are right although the plain table cannot predict them.
    fn may(&self) -> Vec<u32> {
        let mut may = Vec::new();
        if self.is_manual() {
            if !self.model.is_placed {
                may.push(17);
            }
            return may;
        }
        if !self.model.is_spacious() {
            may.push(17);
        }
        if self.model.may_be_full() {
            may.push(22);
        }
        may
    }

    // Copies the state of objects from the table, after a call that may have moved some by itself.
    fn sync(&mut self) {
        let (before, now) = (self.before, self.table.stats());
        self.before = now;
        let migrated = now.migrations != before.migrations;
        if migrated {
            self.jobs.values_mut().for_each(Job::is_over);
            if self.is_manual() {
                self.model.migrated();
            }
        }
        let evicted = now.evictions != before.evictions;
        let moved =
            evicted || now.fetches != before.fetches || now.compactions != before.compactions;
        if self.is_manual() || !moved && !migrated {
            return;
        }
        self.model.lose_places();
        self.model.is_heat_known = false;
        self.jobs.values_mut().for_each(Job::is_unsure);
        self.take_over(evicted, migrated);
    }

    // Copies which objects are local, after evictions or a renewal.
    fn take_over(&mut self, evicted: bool, migrated: bool) {
        for column in 0..self.model.kinds.len() {
            for group in 0..self.model.objects[column].len() {
                let local = self.table.is_local(column, group as u32).unwrap_or(false);
                let object = &mut self.model.objects[column][group];
                object.leavings += u64::from(object.local && !local);
                object.local = local;
                object.dirty = match object.dirty {
                    _ if !local => Some(false),
                    _ if migrated => None,
                    Some(true) if evicted => None,
                    dirty => dirty,
                };
            }
        }
    }

    // Compares places, objects and the space in use with the plain table.
    fn look(&mut self) -> Checked {
        let (places, due) = (self.table.places(), self.model.places());
        if places != due {
            return Err(Wrong::state(format!("{due} places"), places.to_string()));
        }
        for column in 0..self.model.kinds.len() {
            for group in 0..self.model.objects[column].len() {
                let local = self.table.is_local(column, group as u32);
                let due = self.model.objects[column][group].local;
                if local.as_ref() != Ok(&due) {
                    let due = format!("local {due}: column {column}, row group {group}");
                    return Err(Wrong::state(due, format!("{local:?}")));
                }
            }
        }
        let used = self.table.stats().local_used;
        let due = 16 * self.model.ints.used() + self.model.texts.used();
        if self.model.is_placed && used != due {
            return Err(Wrong::state(
                format!("{due} bytes in use"),
                used.to_string(),
            ));
        }
        Ok(())
    }
}

// The complaint that the model has no space for an object.
fn no_space() -> Wrong {
    Wrong::state("a refusal with number 17", "success")
}
