//! Stands for crate range_map_vec: a map from disjoint inclusive ranges to values.
//! Assumed, as its documentation says: `insert` gives false and changes nothing where the range shares a key with one that is there, else
//! it gives true and the range is there afterwards. Ranges that touch do not overlap.
//! The ranges are kept in order and found by halves, so that measured times are not this stand-in's.

use std::ops::RangeInclusive;

#[derive(Debug, Clone)]
pub struct RangeMap<K, V> {
    entries: Vec<(RangeInclusive<K>, V)>,
}

impl<K: Ord, V> RangeMap<K, V> {
    pub fn new() -> Self {
        RangeMap { entries: Vec::new() }
    }

    pub fn insert(&mut self, range: RangeInclusive<K>, value: V) -> bool {
        let at = self.entries.partition_point(|(other, _)| other.end() < range.start());
        if self.entries.get(at).is_some_and(|(other, _)| other.start() <= range.end()) {
            return false;
        }
        self.entries.insert(at, (range, value));
        true
    }
}
