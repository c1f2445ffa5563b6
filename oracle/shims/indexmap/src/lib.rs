//! Stand-in for `indexmap`: a set and a map that keep the order that indexmap documents.
//!
//! A vector searched from the front serves, as no set of the station passes 32 items.

mod map;

pub use map::IndexMap;

#[derive(Clone, Debug)]
pub struct IndexSet<T> {
    items: Vec<T>,
}

impl<T> Default for IndexSet<T> {
    fn default() -> Self {
        Self { items: Vec::new() }
    }
}

impl<T: PartialEq> IndexSet<T> {
    pub fn new() -> Self {
        Self::default()
    }

    /// Appends an item that is not in the set; one that is stays where it stands.
    pub fn insert(&mut self, value: T) -> bool {
        let new = !self.contains(&value);
        if new {
            self.items.push(value);
        }
        new
    }

    pub fn contains(&self, value: &T) -> bool {
        self.items.contains(value)
    }

    pub fn get_index_of(&self, value: &T) -> Option<usize> {
        self.items.iter().position(|item| item == value)
    }

    /// Removes an item by moving the last item into its place.
    pub fn swap_remove_full(&mut self, value: &T) -> Option<(usize, T)> {
        let index = self.get_index_of(value)?;
        Some((index, self.items.swap_remove(index)))
    }
}

impl<T> IndexSet<T> {
    pub fn len(&self) -> usize {
        self.items.len()
    }

    pub fn is_empty(&self) -> bool {
        self.items.is_empty()
    }

    pub fn get_index(&self, index: usize) -> Option<&T> {
        self.items.get(index)
    }

    /// Removes the item at an index by moving the last item into its place.
    pub fn swap_remove_index(&mut self, index: usize) -> Option<T> {
        (index < self.items.len()).then(|| self.items.swap_remove(index))
    }

    /// Removes the item at an index and moves all later ones down by one.
    pub fn shift_remove_index(&mut self, index: usize) -> Option<T> {
        (index < self.items.len()).then(|| self.items.remove(index))
    }

    pub fn iter(&self) -> std::slice::Iter<'_, T> {
        self.items.iter()
    }
}

/// Sets are equal when they hold the same items, in whatever order.
impl<T: PartialEq> PartialEq for IndexSet<T> {
    fn eq(&self, other: &Self) -> bool {
        self.len() == other.len() && self.iter().all(|item| other.contains(item))
    }
}

impl<T> IntoIterator for IndexSet<T> {
    type Item = T;
    type IntoIter = std::vec::IntoIter<T>;
    fn into_iter(self) -> Self::IntoIter {
        self.items.into_iter()
    }
}

impl<T: PartialEq> FromIterator<T> for IndexSet<T> {
    fn from_iter<I: IntoIterator<Item = T>>(items: I) -> Self {
        let mut set = Self::new();
        for item in items {
            set.insert(item);
        }
        set
    }
}

#[cfg(test)]
mod tests {
    use super::IndexSet;

    fn set() -> IndexSet<u32> {
        [10, 11, 12, 13].into_iter().collect()
    }

    fn items(set: IndexSet<u32>) -> Vec<u32> {
        set.into_iter().collect()
    }

    /// indexmap documents: a new item goes to the end; an equal one stays, its place unaltered.
    #[test]
    fn insert_appends_and_keeps_the_place_of_a_known_item() {
        let mut set = set();
        assert!(set.insert(9));
        assert!(!set.insert(11));
        assert_eq!(items(set), [10, 11, 12, 13, 9]);
    }

    /// indexmap documents: swapped with the last item and popped off. The items are 01's example.
    #[test]
    fn swap_remove_moves_the_last_item_into_the_gap() {
        let mut set = set();
        assert_eq!(set.swap_remove_full(&11), Some((1, 11)));
        assert_eq!(set.swap_remove_full(&11), None);
        assert_eq!(items(set), [10, 13, 12]);
    }

    /// indexmap documents: as `Vec::swap_remove`, and nothing for an index past the end.
    #[test]
    fn swap_remove_index_moves_the_last_item_into_the_gap() {
        let mut set = set();
        assert_eq!(set.swap_remove_index(0), Some(10));
        assert_eq!(set.swap_remove_index(3), None);
        assert_eq!(set.swap_remove_index(2), Some(12));
        assert_eq!(items(set), [13, 11]);
    }

    /// indexmap documents: as `Vec::remove`, all later items keep their order.
    #[test]
    fn shift_remove_keeps_the_order_of_the_others() {
        let mut set = set();
        assert_eq!(set.shift_remove_index(1), Some(11));
        assert_eq!(set.shift_remove_index(3), None);
        assert_eq!(items(set), [10, 12, 13]);
    }

    /// indexmap documents: sets with the same items are equal in any order.
    #[test]
    fn equality_ignores_order() {
        let turned: IndexSet<u32> = [13, 12, 11, 10].into_iter().collect();
        assert_eq!(set(), turned);
        assert_ne!(set(), [10, 11, 12].into_iter().collect());
    }

    #[test]
    fn places_are_found_by_item_and_items_by_place() {
        assert_eq!(set().get_index_of(&12), Some(2));
        assert_eq!(set().get_index(2), Some(&12));
        assert_eq!((set().get_index_of(&9), set().get_index(4)), (None, None));
    }
}
