//! Evicts and fetches objects, in one call or in phases.

use std::fmt::Debug;

use fullercoral::Engine;

use crate::{Reply, Run};

impl<E: Engine> Run<E>
where
    E::Error: Debug,
{
    pub fn evict(&mut self) {
        let (column, group) = (
            self.random.below(5),
            self.random.below(self.table.groups().max(1)),
        );
        let there = group < self.table.groups();
        let due = if !there { Some(14) } else { None };
        let due = due.or(self.away.contains(&(column, group)).then_some(16));
        let result = self.table.evict(column as usize, group);
        match (self.reply(result), due) {
            (Reply::Value(()), None) => {
                self.note_away(column, group);
                assert!(!self.table.is_local(column as usize, group).unwrap());
            }
            (Reply::Fault, _) => {}
            (reply, Some(due)) => assert_eq!(reply, Reply::Refused(due)),
            (reply, None) => assert!(!self.manual() && reply == Reply::Refused(16)),
        }
    }

    pub fn note_away(&mut self, column: u32, group: u32) {
        if self.manual() {
            self.away.insert((column, group));
        }
    }

    pub fn evict_coldest(&mut self) {
        let result = self.table.evict_coldest();
        if let Reply::Value(Some((column, group))) = self.reply(result) {
            self.note_away(column as u32, group);
        }
    }

    pub fn fetch(&mut self) {
        let (column, group) = (
            self.random.below(5),
            self.random.below(self.table.groups().max(1)),
        );
        let there = group < self.table.groups();
        let result = self.table.fetch(column as usize, group);
        match self.reply(result) {
            Reply::Value(()) => {
                assert!(there && (!self.manual() || self.away.remove(&(column, group))));
            }
            Reply::Refused(14) => assert!(!there),
            Reply::Refused(number) => {
                assert!(number == 20 && !self.away.contains(&(column, group)));
            }
            Reply::Fault => {}
        }
    }

    pub fn move_in_phases(&mut self) {
        let (column, group) = (
            self.random.below(5),
            self.random.below(self.table.groups().max(1)),
        );
        if group >= self.table.groups() {
            return;
        }
        if self.table.is_local(column as usize, group).unwrap() {
            let outgoing = self.table.begin_evict(column as usize, group).unwrap();
            let put = outgoing.put(self.table.engine_mut());
            if let (Ok(stored), false) = (put, self.random.one_in(5)) {
                self.table.commit(stored).unwrap();
                self.note_away(column, group);
            }
        } else {
            let mut incoming = self.table.begin_fetch(column as usize, group).unwrap();
            if incoming.get(self.table.engine_mut()).is_ok() && !self.random.one_in(5) {
                let result = self.table.install(incoming);
                if self.reply(result) == Reply::Value(()) {
                    self.away.remove(&(column, group));
                }
            }
        }
    }
}
