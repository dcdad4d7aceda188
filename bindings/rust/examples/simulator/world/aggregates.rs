//! Registers, asks and forgets aggregates.

use std::collections::BTreeSet;

use fullercoral::{Error, Extrema, Refusal, Totals};

use super::{Checked, World};
use crate::call::{AnySpec, Call, Folding};
use crate::repeat::{Down, told};

/// The limit of aggregates.
const MOST: usize = 32;

/// An aggregate that was registered, and perhaps forgotten since.
pub struct Watched {
    pub handle: Handle,
    pub folding: Folding,
    pub number: usize,
    pub pending: BTreeSet<u32>,
    pub is_registered: bool,
}

#[derive(Debug, Clone, Copy)]
pub enum Handle {
    Totals(Totals),
    Extrema(Extrema),
}

/// Calls a method of a table with an aggregate of either kind.
macro_rules! with_handle {
    ($handle:expr, $aggregate:ident => $call:expr) => {
        match $handle {
            $crate::world::aggregates::Handle::Totals($aggregate) => $call,
            $crate::world::aggregates::Handle::Extrema($aggregate) => $call,
        }
    };
}
pub(super) use with_handle;

impl World {
    fn is_free(&self, number: usize) -> bool {
        let mut all = self.aggregates.values();
        !all.any(|watched| watched.is_registered && watched.number == number)
    }

    fn free_number(&self) -> Result<usize, Refusal> {
        let free = (0..MOST).find(|number| self.is_free(*number));
        free.ok_or(Refusal::TooManyAggregates)
    }

    pub fn watch(&mut self, id: u32, folding: &Folding) -> Checked {
        let number = self.free_number();
        let due = self.model.folding_refusal(folding);
        let due = due.and(number.clone().map(drop)).map(|()| "()".to_owned());
        let handle = match folding.spec() {
            AnySpec::Totals(spec) => self.table.watch(spec).map(Handle::Totals),
            AnySpec::Extrema(spec) => self.table.watch(spec).map(Handle::Extrema),
        };
        let came = told(handle.clone().map(drop));
        if let (true, Ok(handle), Ok(number)) = (self.settle(&came, due, &[])?, handle, number) {
            let watched = Watched {
                handle,
                folding: folding.clone(),
                number,
                pending: (0..self.model.groups()).collect(),
                is_registered: true,
            };
            self.aggregates.insert(id, watched);
        }
        Ok(())
    }

    pub fn question(&mut self, call: &Call) -> Checked {
        let (Call::Unwatch(id) | Call::Ask(id) | Call::Recount(id) | Call::Pending(id)) = call
        else {
            return Ok(());
        };
        let Some(watched) = self.aggregates.get(id) else {
            return Ok(());
        };
        let (handle, is_registered) = (watched.handle, watched.is_registered);
        let refusal = (!is_registered).then_some(Refusal::NoAggregate);
        match call {
            Call::Unwatch(_) => self.unwatch(*id, handle, refusal),
            Call::Ask(_) => self.ask(*id, handle, refusal),
            Call::Recount(_) => self.recount(*id, handle, refusal),
            _ => {
                let pending = watched.pending.len().to_string();
                let came = with_handle!(handle, it => told(self.table.pending(it)));
                let due = refusal.map_or(Ok(pending), Err);
                self.settle(&came, due, &[]).map(drop)
            }
        }
    }

    fn unwatch(&mut self, id: u32, handle: Handle, refusal: Option<Refusal>) -> Checked {
        let came = with_handle!(handle, it => told(self.table.unwatch(it)));
        let due = refusal.map_or(Ok("()".to_owned()), Err);
        if self.settle(&came, due, &[])? {
            let watched = self.aggregates.get_mut(&id);
            watched
                .into_iter()
                .for_each(|watched| watched.is_registered = false);
        }
        Ok(())
    }

    fn ask(&mut self, id: u32, handle: Handle, refusal: Option<Refusal>) -> Checked {
        let watched = &self.aggregates[&id];
        let pending = watched.pending.len() as u32;
        let building = self.is_manual() && pending > 0;
        let refusal = refusal.or(building.then_some(Refusal::Building { pending }));
        let due = refusal.map_or_else(|| Ok(self.model.answer(&watched.folding)), Err);
        let came = with_handle!(handle, it => told(self.table.ask(it).map(|lines| lines.collect::<Vec<_>>())));
        let may = if pending > 0 { self.may() } else { Vec::new() };
        self.settle(&came, due, &may)?;
        self.take_over_pending(id)
    }

    // Updates the pending row groups after an ask with an automatic policy, which builds those before the
    // first that fails.
    fn take_over_pending(&mut self, id: u32) -> Checked {
        let Some(watched) = self.aggregates.get_mut(&id) else {
            return Ok(());
        };
        if self.policy == fullercoral::Policy::Manual || !watched.is_registered {
            return Ok(());
        }
        let left = with_handle!(watched.handle, it => self.table.pending(it)).unwrap_or(0);
        while watched.pending.len() > left as usize {
            watched.pending.pop_first();
        }
        Ok(())
    }

    fn recount(&mut self, id: u32, handle: Handle, refusal: Option<Refusal>) -> Checked {
        let folding = &self.aggregates[&id].folding;
        let groups = self.model.groups();
        let mut absent = Ok(());
        for column in folding.columns() {
            for group in 0..groups {
                absent = absent.and_then(|()| self.model.all_local([column].into_iter(), group));
            }
        }
        let absent = absent.err();
        let is_away = absent.is_some();
        let other = if self.is_manual() {
            absent
        } else {
            absent.and_then(|_| self.free_number().err())
        };
        let refusal = refusal.or(other);
        let due = refusal.map_or_else(|| Ok(self.model.answer(folding)), Err);
        let came = with_handle!(handle, it => told(self.table.recount(it).map(|lines| lines.collect::<Vec<_>>())));
        let may = if is_away { self.may() } else { Vec::new() };
        self.settle(&came, due, &may).map(drop)
    }

    // Why a row group cannot be scanned or built into an aggregate, whatever is local.
    pub fn pending_refusal(&self, id: u32, group: u32) -> Result<(), Refusal> {
        let watched = self.aggregates.get(&id).filter(|it| it.is_registered);
        let watched = watched.ok_or(Refusal::NoAggregate)?;
        if group >= self.model.groups() {
            return Err(self.model.no_group(group));
        }
        if !watched.pending.contains(&group) {
            return Err(Refusal::StaleJob);
        }
        Ok(())
    }

    pub fn is_scanned(&mut self, id: u32, group: u32) {
        if let Some(watched) = self.aggregates.get_mut(&id) {
            watched.pending.remove(&group);
        }
    }

    pub fn scan(&mut self, id: u32, group: u32) -> Checked {
        let Some(watched) = self.aggregates.get(&id) else {
            return Ok(());
        };
        let handle = watched.handle;
        let mut due = self.pending_refusal(id, group);
        if due.is_ok() && self.is_manual() {
            let columns: BTreeSet<usize> = watched.folding.columns().collect();
            due = self.model.all_local(columns.into_iter(), group);
        }
        let (due, may) = (due.map(|()| "()".to_owned()), self.may());
        let came = with_handle!(handle, it => told(self.table.scan(it, group)));
        if self.settle(&came, due, &may)? {
            self.is_scanned(id, group);
        }
        Ok(())
    }

    // Why a row group cannot be built from copies, and whether the model knows that.
    pub fn build_refusal(&self, id: u32, group: u32) -> (Result<(), Refusal>, bool) {
        if let Err(refusal) = self.pending_refusal(id, group) {
            return (Err(refusal), true);
        }
        let columns = self.aggregates[&id].folding.columns();
        let dirty = columns.map(|column| self.model.objects[column][group as usize].dirty);
        let dirty: Vec<Option<bool>> = dirty.collect();
        if dirty.contains(&Some(true)) {
            return (Err(Refusal::StaleJob), true);
        }
        (self.model.begin_refusal(), !dirty.contains(&None))
    }

    pub fn build(&mut self, id: u32, group: u32) -> Checked {
        let Some(watched) = self.aggregates.get(&id) else {
            return Ok(());
        };
        let handle = watched.handle;
        let (due, is_known) = self.build_refusal(id, group);
        let begins = due.is_ok();
        let may: &[u32] = if is_known { &[] } else { &[20] };
        let came = with_handle!(handle, it => told(self.table.build(it, group)));
        self.model.begun += u64::from(begins);
        if self.settle(&came, due.map(|()| "()".to_owned()), may)? {
            self.is_scanned(id, group);
        }
        Ok(())
    }
}

/// Converts the reply of an engine to a reply of a table.
pub fn of_engine(result: Result<(), Down>) -> Result<(), Error<Down>> {
    result.map_err(Error::Engine)
}
