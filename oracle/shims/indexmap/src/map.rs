//! A map in the order put in. plumtree.rs keeps messages in it that a full queue dropped: none here.

use std::{marker::PhantomData, ops::RangeTo};

#[derive(Clone, Debug)]
pub struct IndexMap<K, V, S> {
    items: Vec<(K, V)>,
    hasher: PhantomData<S>,
}

impl<K, V, S> Default for IndexMap<K, V, S> {
    fn default() -> Self {
        Self {
            items: Vec::new(),
            hasher: PhantomData,
        }
    }
}

impl<K: PartialEq, V, S> IndexMap<K, V, S> {
    pub fn contains_key(&self, key: &K) -> bool {
        self.items.iter().any(|(known, _)| known == key)
    }

    /// Appends a new key; a known one stays where it stands and gets the value.
    pub fn insert(&mut self, key: K, value: V) {
        match self.items.iter_mut().find(|(known, _)| *known == key) {
            Some((_, held)) => *held = value,
            None => self.items.push((key, value)),
        }
    }
}

impl<K, V, S> IndexMap<K, V, S> {
    pub fn len(&self) -> usize {
        self.items.len()
    }

    pub fn is_empty(&self) -> bool {
        self.items.is_empty()
    }

    pub fn retain(&mut self, mut keep: impl FnMut(&K, &mut V) -> bool) {
        self.items.retain_mut(|(key, value)| keep(key, value));
    }

    pub fn drain(&mut self, range: RangeTo<usize>) -> std::vec::Drain<'_, (K, V)> {
        self.items.drain(range)
    }
}
