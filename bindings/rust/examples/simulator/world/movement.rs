//! Evicts and fetches objects in one call, and pins, compacts and migrates.

use fullercoral::{Pinned, Refusal};

use super::{Checked, World, Wrong, no_space};
use crate::call::{Call, name};
use crate::repeat::told;

impl World {
    pub fn movement(&mut self, call: &Call) -> Checked {
        match call {
            Call::Evict(column, group) => self.evict(*column, *group),
            Call::EvictColdest => self.evict_coldest(),
            Call::Fetch(column, group) => self.fetch(*column, *group),
            Call::Pin(column, group) => self.pin(*column, *group),
            Call::Unpin(column, group) => self.unpin(*column, *group),
            Call::Compact => self.compact(),
            Call::Migrate => self.migrate(),
            Call::Proposals(column) => self.proposals(*column),
            _ => Ok(()),
        }
    }

    // Why an eviction is refused.
    pub fn evict_refusal(&self, column: usize, group: u32) -> Result<(), Refusal> {
        if !self.model.object(column, group)?.local {
            let column = name(column).into();
            return Err(Refusal::Absent { column, group });
        }
        self.model.begin_refusal()
    }

    // Counts an eviction that was begun and carried. Without a number left, the table renews the numbers
    // and begins again, or refuses.
    pub fn count_carried(&mut self, column: usize, group: u32, migrations: u64) {
        self.model.begun += 1;
        if self.before.migrations != migrations {
            self.model.begun += 1;
            self.model.contents += 1;
        } else if self.model.object_mut(column, group).dirty != Some(false) {
            self.model.contents = self.model.capacity.min(self.model.contents + 1);
        }
    }

    // The refusals of an eviction that are right besides the expected one.
    pub fn may_of_eviction(&self, column: usize, group: u32) -> Vec<u32> {
        let object = self.model.object(column, group);
        let puts = object.is_ok_and(|object| object.dirty != Some(false));
        if puts && self.model.may_be_full() {
            vec![22]
        } else {
            Vec::new()
        }
    }

    fn evict(&mut self, column: usize, group: u32) -> Checked {
        let may = self.may_of_eviction(column, group);
        let mut due = self.evict_refusal(column, group);
        let begins = due.is_ok();
        if begins && self.model.object(column, group)?.pins > 0 {
            due = Err(Refusal::Pinned);
        }
        let migrations = self.before.migrations;
        let came = told(self.table.evict(column, group));
        let done = self.settle(&came, due.map(|()| "()".to_owned()), &may);
        if begins {
            self.count_carried(column, group, migrations);
        }
        if done? {
            self.model.leave(column, group);
        }
        Ok(())
    }

    // Whether there may be no object to evict: the kind with less space has none without a pin.
    fn may_have_no_coldest(&self) -> bool {
        [fullercoral::Kind::Int, fullercoral::Kind::Text]
            .iter()
            .any(|kind| {
                let columns = 0..self.model.kinds.len();
                let columns = columns.filter(|column| self.model.kinds[*column] == *kind);
                let mut objects = columns.flat_map(|column| &self.model.objects[column]);
                !objects.any(|object| object.local && object.pins == 0)
            })
    }

    fn evict_coldest(&mut self) -> Checked {
        let full = self.model.may_be_full();
        let (migrations, begin) = (self.before.migrations, self.model.begin_refusal());
        let reply = self.table.evict_coldest();
        let victim = reply.clone().ok().flatten();
        let came = told(reply);
        let is_right = match victim {
            Some((column, group)) => {
                let object = self.model.object(column, group);
                object.is_ok_and(|object| object.local && object.pins == 0)
            }
            None => came != "None" || self.may_have_no_coldest(),
        };
        if !is_right {
            let due = "a local object without a pin, or none if there is none".to_owned();
            return Err(Wrong::state(due, came));
        }
        let due = match begin {
            Err(refusal) if came != "None" => Err(refusal),
            _ if victim.is_some() || came == "None" => Ok(came.clone()),
            _ => Ok("an object".to_owned()),
        };
        let begins = due.is_ok() && came != "None";
        let may: &[u32] = if full { &[22] } else { &[] };
        self.settle(&came, due, may)?;
        self.model.is_heat_known = false;
        if let Some((column, group)) = victim {
            self.count_carried(column, group, migrations);
            self.model.leave(column, group);
        } else if begins {
            self.model.begun += 1;
            // (a failed put may have been kept)
            self.model.contents += 1;
        }
        Ok(())
    }

    // Why a fetch is refused.
    pub fn fetch_refusal(&self, column: usize, group: u32) -> Result<(), Refusal> {
        if self.model.object(column, group)?.local {
            let column = name(column).into();
            return Err(Refusal::IsLocal { column, group });
        }
        self.model.begin_refusal()
    }

    fn fetch(&mut self, column: usize, group: u32) -> Checked {
        let may = self.may();
        let mut due = self.fetch_refusal(column, group);
        let begins = due.is_ok();
        if begins && self.is_manual() && !self.model.has_space_for(column, group) {
            due = Err(Refusal::RegionFull);
        }
        let came = told(self.table.fetch(column, group));
        self.model.begun += u64::from(begins);
        if self.settle(&came, due.map(|()| "()".to_owned()), &may)?
            && !self.model.arrive(column, group)
        {
            return Err(no_space());
        }
        Ok(())
    }

    fn pin(&mut self, column: usize, group: u32) -> Checked {
        let may = self.may();
        let mut due = self.model.object(column, group).map(drop);
        if due.is_ok() && self.is_manual() {
            due = self.model.all_local([column].into_iter(), group);
        }
        let came = told(self.table.pin(column, group).map(Pinned::keep));
        if self.settle(&came, due.map(|()| "()".to_owned()), &may)? {
            self.model.object_mut(column, group).pins += 1;
        }
        Ok(())
    }

    fn unpin(&mut self, column: usize, group: u32) -> Checked {
        let due = match self.model.object(column, group) {
            Ok(object) if object.pins == 0 => Err(Refusal::NotPinned),
            other => other.map(|_| "()".to_owned()),
        };
        let came = told(self.table.unpin(column, group));
        if self.settle(&came, due, &[])? {
            self.model.object_mut(column, group).pins -= 1;
        }
        Ok(())
    }

    fn compact(&mut self) -> Checked {
        let freed = self.table.compact();
        let placed = self.model.is_placed;
        let due = self.model.compact();
        if placed && freed != due {
            let (due, came) = (format!("{due} bytes freed"), format!("{freed} bytes freed"));
            return Err(Wrong::state(due, came));
        }
        if !self.model.is_heat_known {
            self.model.lose_places();
        }
        self.before = self.table.stats();
        Ok(())
    }

    fn migrate(&mut self) -> Checked {
        let away = self.model.away();
        let due = if away > self.model.capacity {
            Err(Refusal::FarFull)
        } else {
            Ok("()".to_owned())
        };
        let came = told(self.table.migrate());
        if self.settle(&came, due, &[])? {
            self.model.migrated();
        }
        Ok(())
    }

    fn proposals(&mut self, column: usize) -> Checked {
        let due = self.model.column(column);
        let due = due.map(|()| format!("{:?}", self.model.proposals(column)));
        let came = told(self.table.proposals(column));
        self.settle(&came, due, &[]).map(drop)
    }
}

impl From<Refusal> for Wrong {
    fn from(refusal: Refusal) -> Wrong {
        let came = format!("the plain table refuses: {refusal}");
        let due = String::new();
        Wrong::state(due, came)
    }
}
