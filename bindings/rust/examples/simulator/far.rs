use std::collections::{BTreeMap, BTreeSet};

use fullercoral::Engine;

/// Why a call of the far side failed.
#[derive(Debug, Clone, Copy, PartialEq, Eq)]
pub enum Down {
    /// On purpose.
    Failed,
    /// It has no space for another content.
    Full,
    /// It cannot be reached.
    Outage,
}

impl std::fmt::Display for Down {
    fn fmt(&self, f: &mut std::fmt::Formatter<'_>) -> std::fmt::Result {
        f.write_str("the far side is down")
    }
}

impl std::error::Error for Down {}

/// Storage with faults, which a number before each call draws: it fails, is late, repeats or reorders
/// calls, cuts contents, flips bits, mixes contents up, returns older ones, or loses them. It can be full,
/// go away and come back.
#[derive(Debug, Default)]
pub struct Far {
    /// All contents that were ever put, unchanged.
    truth: BTreeMap<u64, Vec<u8>>,
    acknowledged: BTreeSet<u64>,
    kept: BTreeMap<u64, Vec<u8>>,
    /// Puts that arrive late.
    late: Vec<(u64, Vec<u8>)>,
    forgotten: Vec<u64>,
    mood: u64,
    room: Option<u64>,
    outage: u32,
    /// Whether the last call failed.
    pub failed: bool,
    /// Whether it returned wrong bytes since the mood was set.
    pub lied: bool,
    /// Whether the table got a forgotten number since the mood was set.
    pub asked_forgotten: bool,
    /// A call of the table that breaks the rules of engines.
    pub misuse: Option<&'static str>,
}

impl Far {
    /// Sets its behaviour from now on: without faults for 0, else with faults drawn by this seed.
    pub fn behave(&mut self, mood: u64) {
        self.mood = mood;
        (self.failed, self.lied, self.asked_forgotten) = (false, false, false);
    }

    /// Gives it space for `room` more contents.
    pub fn limit(&mut self, room: u64) {
        self.room = Some(room);
    }

    /// Lets the next `calls` calls fail.
    pub fn go_away(&mut self, calls: u32) {
        self.outage = calls;
    }

    /// Brings it back, with all contents that were ever put.
    pub fn come_back(&mut self) {
        self.room = None;
        self.outage = 0;
        self.late.clear();
        self.kept = self.truth.clone();
    }

    // A number below `end`, or 0 if it has no faults, by splitmix64.
    fn draw(&mut self, end: u64) -> u64 {
        if self.mood == 0 {
            return 0;
        }
        self.mood = self.mood.wrapping_add(0x9e37_79b9_7f4a_7c15) | 1;
        let mut z = self.mood;
        z = (z ^ (z >> 30)).wrapping_mul(0xbf58_476d_1ce4_e5b9);
        z = (z ^ (z >> 27)).wrapping_mul(0x94d0_49bb_1331_11eb);
        (z ^ (z >> 31)) % end.max(1)
    }

    // The fault of this call: 0 for none, or one up to `faults`.
    fn fault(&mut self, faults: u64) -> u64 {
        let drawn = self.draw(2 * faults + 1);
        if drawn <= faults { drawn } else { 0 }
    }

    // Keeps the contents that were put late, the last first.
    fn arrive(&mut self) {
        if let Some((number, bytes)) = self.late.pop() {
            self.kept.insert(number, bytes);
        }
    }

    fn is_there(&mut self) -> Result<(), Down> {
        if self.outage > 0 {
            self.outage -= 1;
            return Err(Down::Outage);
        }
        Ok(())
    }

    fn try_put(&mut self, number: u64, bytes: &[u8]) -> Result<(), Down> {
        self.is_there()?;
        if let Some(room) = self.room {
            self.room = Some(room.checked_sub(1).ok_or(Down::Full)?);
        }
        let fault = self.fault(6);
        match fault {
            1 | 3 => {} // the content is lost
            4 => self.late.push((number, bytes.to_vec())),
            5 => self.late.insert(0, (number, bytes.to_vec())),
            _ => {
                self.arrive();
                self.kept.insert(number, bytes.to_vec());
                if fault == 6 {
                    self.late.push((number, bytes.to_vec()));
                }
            }
        }
        if fault == 1 || fault == 2 {
            return Err(Down::Failed);
        }
        Ok(())
    }

    // The content of another number.
    fn other(&mut self, forgotten: bool) -> Vec<u8> {
        let numbers: Vec<u64> = if forgotten {
            self.forgotten.clone()
        } else {
            self.kept.keys().copied().collect()
        };
        let index = self.draw(numbers.len() as u64) as usize;
        let content = numbers.get(index).and_then(|number| self.truth.get(number));
        content.cloned().unwrap_or_default()
    }

    fn try_get(&mut self, number: u64) -> Result<Vec<u8>, (Down, Vec<u8>)> {
        self.arrive();
        self.is_there().map_err(|down| (down, Vec::new()))?;
        let mut bytes = self.kept.get(&number).cloned().unwrap_or_default();
        let half = bytes.len() / 2;
        let at = self.draw(bytes.len() as u64) as usize;
        match self.fault(8) {
            1 => return Err((Down::Failed, Vec::new())),
            2 => return Err((Down::Failed, bytes[..half].to_vec())),
            3 if !bytes.is_empty() => bytes[at] ^= 1 << self.draw(8),
            4 => bytes.truncate(at),
            5 => bytes = self.other(false),
            6 => bytes = self.other(true),
            7 => bytes.extend_from_within(..),
            8 => bytes.clear(),
            _ => {}
        }
        Ok(bytes)
    }
}

impl Engine for Far {
    type Error = Down;

    fn put(&mut self, number: u64, bytes: &[u8]) -> Result<(), Down> {
        if self.acknowledged.contains(&number) {
            self.misuse = Some("a number was put twice");
        }
        self.truth.insert(number, bytes.to_vec());
        let put = self.try_put(number, bytes);
        self.failed = put.is_err();
        if put.is_ok() {
            self.acknowledged.insert(number);
        }
        put
    }

    fn get(&mut self, number: u64, buffer: &mut Vec<u8>) -> Result<(), Down> {
        if !buffer.is_empty() {
            self.misuse = Some("a buffer was not empty");
        }
        self.asked_forgotten |= self.forgotten.contains(&number);
        let got = self.try_get(number);
        self.failed = got.is_err();
        let (bytes, end) = match got {
            Ok(bytes) => (bytes, Ok(())),
            Err((down, bytes)) => (bytes, Err(down)),
        };
        buffer.extend(&bytes);
        self.lied |= end.is_ok() && self.truth.get(&number) != Some(&bytes);
        end
    }

    fn forget(&mut self, number: u64) {
        self.forgotten.push(number);
        self.kept.remove(&number);
        self.room = self.room.map(|room| room + 1);
    }
}
