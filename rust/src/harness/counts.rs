//! How often generated cases came to something, so that a generator gone shallow shows.

use std::collections::BTreeMap;
use std::fmt::Debug;

/// A thing is taken for reached if so many cases come to it.
const REACHED: u32 = 100;

#[derive(Debug)]
pub struct Counts<K>(BTreeMap<K, u32>);

impl<K: Ord + Debug> Counts<K> {
    pub fn note(&mut self, key: K) {
        *self.0.entry(key).or_default() += 1;
    }

    pub fn of(&self, key: &K) -> u32 {
        self.0.get(key).copied().unwrap_or(0)
    }

    pub fn assert_reached(&self, keys: impl IntoIterator<Item = K>) {
        for key in keys {
            assert!(self.of(&key) >= REACHED, "{key:?} in {self:?}");
        }
    }
}

impl<K> Default for Counts<K> {
    fn default() -> Self {
        Self(BTreeMap::new())
    }
}
