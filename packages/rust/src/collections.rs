//! Maps and sets with the fast hasher.

use crate::fast::RandomState;
use std::collections::{HashMap, HashSet};

/// The map of std with [`RandomState`](crate::fast::RandomState).
///
/// ```
/// use rapidhash::RapidHashMap;
///
/// let mut counts = RapidHashMap::default();
/// for word in "to be or not to be".split(' ') {
///     *counts.entry(word).or_insert(0) += 1;
/// }
/// assert_eq!(counts["to"], 2);
/// ```
pub type RapidHashMap<K, V> = HashMap<K, V, RandomState>;

/// The set of std with [`RandomState`](crate::fast::RandomState).
///
/// ```
/// use rapidhash::RapidHashSet;
///
/// let names: RapidHashSet<&str> = ["ada", "grace", "ada"].into_iter().collect();
/// assert_eq!(names.len(), 2);
/// ```
pub type RapidHashSet<K> = HashSet<K, RandomState>;

/// Creates maps with a new state. The functions have the same names as in std.
///
/// ```
/// use rapidhash::{HashMapExt, RapidHashMap};
///
/// let sizes: RapidHashMap<&str, u64> = RapidHashMap::with_capacity(10);
/// assert!(sizes.capacity() >= 10);
/// ```
pub trait HashMapExt {
    /// Returns an empty map, which allocates nothing.
    fn new() -> Self;

    /// Returns an empty map with room for `capacity` entries.
    fn with_capacity(capacity: usize) -> Self;
}

/// Creates sets with a new state. The functions have the same names as in std.
///
/// ```
/// use rapidhash::{HashSetExt, RapidHashSet};
///
/// let names: RapidHashSet<&str> = RapidHashSet::with_capacity(10);
/// assert!(names.capacity() >= 10);
/// ```
pub trait HashSetExt {
    /// Returns an empty set, which allocates nothing.
    fn new() -> Self;

    /// Returns an empty set with room for `capacity` keys.
    fn with_capacity(capacity: usize) -> Self;
}

impl<K, V> HashMapExt for RapidHashMap<K, V> {
    #[inline]
    fn new() -> Self {
        Self::default()
    }

    #[inline]
    fn with_capacity(capacity: usize) -> Self {
        Self::with_capacity_and_hasher(capacity, RandomState::new())
    }
}

impl<K> HashSetExt for RapidHashSet<K> {
    #[inline]
    fn new() -> Self {
        Self::default()
    }

    #[inline]
    fn with_capacity(capacity: usize) -> Self {
        Self::with_capacity_and_hasher(capacity, RandomState::new())
    }
}
