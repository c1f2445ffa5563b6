//! 02's limits on the lists of plumtree.rs (S-7): an entry more than fits is refused (15).

use std::{
    cell::Cell,
    collections::{hash_map::RandomState, BTreeSet},
    hash::{BuildHasher, Hash},
    ops::{Deref, DerefMut},
};

use n0_future::time::Instant;

pub use crate::collections::HashSet;
use crate::{collections::Limit, proto::util};

/// The most ids received, cached, grafted or with a graft timer, and announcements received or queued.
pub const LIST: usize = 64;
/// The most peers, eager and lazy together.
pub const PEERS: usize = 8;
/// The most bytes of a body.
pub const BODY: usize = 256;

pub const FULL_LIST: Limit = Limit {
    most: LIST,
    code: refusal::FULL,
};

/// Refuses one entry more where as many are held as may be.
pub fn require(held: usize, most: usize) {
    if held >= most {
        refusal::refuse(refusal::FULL);
    }
}

/// Refuses a ninth peer; one that is eager already needs no place.
pub fn require_peer<PI: Ord>(eager: &BTreeSet<PI>, lazy: &BTreeSet<PI>, peer: &PI) {
    if !eager.contains(peer) {
        require(eager.len() + lazy.len(), PEERS);
    }
}

/// The Rust's cache, which refuses a new key past the limit; a known one is renewed.
#[derive(Clone, Debug)]
pub struct TimeBoundCache<K, V, S = RandomState> {
    inner: util::TimeBoundCache<K, V, S>,
}

impl<K, V> Default for TimeBoundCache<K, V> {
    fn default() -> Self {
        Self::with_hasher(RandomState::new())
    }
}

impl<K, V, S> TimeBoundCache<K, V, S> {
    pub fn with_hasher(hasher: S) -> Self {
        Self {
            inner: util::TimeBoundCache::with_hasher(hasher),
        }
    }
}

impl<K: Hash + Eq + Clone, V, S: BuildHasher> TimeBoundCache<K, V, S> {
    pub fn insert(&mut self, key: K, value: V, expires: Instant) {
        if !self.contains_key(&key) {
            require(self.held(), LIST);
        }
        self.inner.insert(key, value, expires);
    }
}

impl<K, V, S> Deref for TimeBoundCache<K, V, S> {
    type Target = util::TimeBoundCache<K, V, S>;
    fn deref(&self) -> &Self::Target {
        &self.inner
    }
}

impl<K, V, S> DerefMut for TimeBoundCache<K, V, S> {
    fn deref_mut(&mut self) -> &mut Self::Target {
        &mut self.inner
    }
}

thread_local! {
    static SKIPS_GRAFTED: Cell<bool> = const { Cell::new(false) };
}

/// Whether this thread runs plumtree.rs as it is: an order does not go to peers grafted for it.
pub fn skip_grafted(skips: bool) {
    SKIPS_GRAFTED.set(skips);
}

/// The peers that an order leaves out: none (02, S-7), or in the file as it is those grafted for it.
pub fn skipped<PI>(grafted: &[PI]) -> &[PI] {
    if SKIPS_GRAFTED.get() {
        grafted
    } else {
        &[]
    }
}
