//! The standard collections with 01's limits: a new entry past the limit is refused (6, 7, 8).

use std::{
    collections,
    hash::Hash,
    ops::{Deref, DerefMut},
};

pub use std::collections::VecDeque;

/// The most entries that a collection may hold, and the code of the refusal of one more.
#[derive(Clone, Copy, Debug)]
pub struct Limit {
    pub most: usize,
    pub code: u8,
}

impl Limit {
    fn require(limit: Option<Self>, len: usize, known: impl FnOnce() -> bool) {
        match limit {
            Some(limit) if len >= limit.most && !known() => refusal::refuse(limit.code),
            _ => {}
        }
    }
}

macro_rules! limited {
    ($name:ident, $($parameter:ident),+) => {
        #[derive(Debug)]
        pub struct $name<$($parameter),+> {
            inner: collections::$name<$($parameter),+>,
            limit: Option<Limit>,
        }

        impl<$($parameter),+> $name<$($parameter),+> {
            pub fn set_limit(&mut self, limit: Limit) {
                self.limit = Some(limit);
            }
        }

        // By hand, so that a copy can be made in the memory of an older one.
        impl<$($parameter: Clone),+> Clone for $name<$($parameter),+> {
            fn clone(&self) -> Self {
                Self {
                    inner: self.inner.clone(),
                    limit: self.limit,
                }
            }

            fn clone_from(&mut self, other: &Self) {
                self.inner.clone_from(&other.inner);
                self.limit = other.limit;
            }
        }

        impl<$($parameter),+> Default for $name<$($parameter),+> {
            fn default() -> Self {
                Self {
                    inner: Default::default(),
                    limit: None,
                }
            }
        }

        impl<$($parameter),+> Deref for $name<$($parameter),+> {
            type Target = collections::$name<$($parameter),+>;
            fn deref(&self) -> &Self::Target {
                &self.inner
            }
        }

        impl<$($parameter),+> DerefMut for $name<$($parameter),+> {
            fn deref_mut(&mut self) -> &mut Self::Target {
                &mut self.inner
            }
        }
    };
}

limited!(HashMap, K, V);
limited!(HashSet, K);

impl<K: Hash + Eq> HashSet<K> {
    pub fn insert(&mut self, key: K) -> bool {
        Limit::require(self.limit, self.len(), || self.contains(&key));
        self.inner.insert(key)
    }
}

impl<K: Hash + Eq, V> HashMap<K, V> {
    pub fn insert(&mut self, key: K, value: V) -> Option<V> {
        Limit::require(self.limit, self.len(), || self.contains_key(&key));
        self.inner.insert(key, value)
    }

    pub fn entry(&mut self, key: K) -> hash_map::Entry<'_, K, V> {
        let (len, limit) = (self.len(), self.limit);
        match self.inner.entry(key) {
            collections::hash_map::Entry::Occupied(_) => hash_map::Entry::Occupied,
            collections::hash_map::Entry::Vacant(inner) => {
                hash_map::Entry::Vacant(hash_map::VacantEntry { inner, len, limit })
            }
        }
    }
}

pub mod hash_map {
    use std::collections::hash_map;

    use super::Limit;

    pub enum Entry<'a, K, V> {
        Occupied,
        Vacant(VacantEntry<'a, K, V>),
    }

    pub struct VacantEntry<'a, K, V> {
        pub(super) inner: hash_map::VacantEntry<'a, K, V>,
        pub(super) len: usize,
        pub(super) limit: Option<Limit>,
    }

    impl<'a, K, V> VacantEntry<'a, K, V> {
        pub fn insert(self, value: V) -> &'a mut V {
            Limit::require(self.limit, self.len, || false);
            self.inner.insert(value)
        }
    }
}
