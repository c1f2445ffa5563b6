//! A child module of the Rust's util.rs: copies of its timers and caches, and what a cache holds.

use super::*;

impl<T: Clone> Clone for TimerMap<T> {
    fn clone(&self) -> Self {
        Self {
            heap: self.heap.clone(),
            seq: self.seq,
        }
    }
}

impl<K: Clone, V: Clone, S: Clone> Clone for TimeBoundCache<K, V, S> {
    fn clone(&self) -> Self {
        Self {
            map: self.map.clone(),
            expiry: self.expiry.clone(),
        }
    }
}

impl<K, V, S> TimeBoundCache<K, V, S> {
    /// The number of entries, which the Rust itself gives to its tests alone.
    pub fn held(&self) -> usize {
        self.map.len()
    }

    /// Each key with the time at which it expires and its value, in no order.
    pub fn entries(&self) -> impl Iterator<Item = (&K, Instant, &V)> {
        self.map
            .iter()
            .map(|(key, (expires, value))| (key, *expires, value))
    }
}
