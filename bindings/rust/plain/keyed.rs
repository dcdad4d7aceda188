//! Values by key: a hash map of slots, sorted when the order is needed.

use std::borrow::Borrow;
use std::collections::HashMap;
use std::hash::{BuildHasherDefault, Hash, Hasher};

/// A hash by multiplication, for keys that no adversary chooses.
#[derive(Debug, Default, Clone)]
pub struct Quick(u64);

impl Quick {
    fn add(&mut self, word: u64) {
        let mixed = (self.0 ^ word).wrapping_mul(0xd6e8_feb8_6659_fd93);
        self.0 = mixed ^ (mixed >> 32);
    }
}

impl Hasher for Quick {
    fn finish(&self) -> u64 {
        self.0
    }

    fn write(&mut self, bytes: &[u8]) {
        for chunk in bytes.chunks(8) {
            let mut word = [0; 8];
            word[..chunk.len()].copy_from_slice(chunk);
            self.add(u64::from_le_bytes(word) ^ chunk.len() as u64);
        }
    }

    fn write_i64(&mut self, number: i64) {
        self.add(number as u64);
    }

    fn write_u8(&mut self, _: u8) {}
}

#[derive(Debug)]
pub struct Keyed<K, V> {
    index: HashMap<K, u32, BuildHasherDefault<Quick>>,
    slots: Vec<(K, V)>,
    order: Vec<u32>,
}

impl<K: Hash + Ord + Clone, V: Default> Keyed<K, V> {
    pub fn new() -> Keyed<K, V> {
        Keyed {
            index: HashMap::default(),
            slots: Vec::new(),
            order: Vec::new(),
        }
    }

    /// The value of a key, which is inserted if it is new.
    #[inline]
    pub fn at<Q: ?Sized + Hash + Eq>(&mut self, key: &Q) -> &mut V
    where
        K: Borrow<Q> + for<'a> From<&'a Q>,
    {
        let slot = match self.index.get(key) {
            Some(slot) => *slot as usize,
            None => {
                let own = K::from(key);
                self.index.insert(own.clone(), self.slots.len() as u32);
                self.slots.push((own, V::default()));
                self.slots.len() - 1
            }
        };
        &mut self.slots[slot].1
    }

    /// All keys in order, with their values.
    pub fn sorted(&mut self) -> impl Iterator<Item = &(K, V)> {
        let slots = &self.slots;
        if self.order.len() < slots.len() {
            self.order = (0..slots.len() as u32).collect();
            self.order
                .sort_unstable_by(|a, b| slots[*a as usize].0.cmp(&slots[*b as usize].0));
        }
        self.order.iter().map(|slot| &slots[*slot as usize])
    }
}

/// A number as a key.
#[derive(Debug, Clone, Copy, PartialEq, Eq, PartialOrd, Ord, Hash)]
pub struct Int(pub i64);

impl From<&Int> for Int {
    fn from(number: &Int) -> Int {
        *number
    }
}
