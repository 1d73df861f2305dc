//! Stands in for range_map_vec: a vector sorted by address, searched by halving, as the published crate has it.

use std::cmp::Ordering;
use std::ops::RangeInclusive;

#[derive(Debug, Clone)]
pub struct RangeMap<K, V> {
    ranges: Vec<(K, K, V)>,
}

impl<K: Ord + Copy, V> RangeMap<K, V> {
    pub fn new() -> Self {
        RangeMap { ranges: Vec::new() }
    }

    /// Where a range is that shares a key with this one, or where this one belongs.
    fn place(&self, range: &RangeInclusive<K>) -> Result<usize, usize> {
        self.ranges.binary_search_by(|(first, last, _)| {
            if last < range.start() {
                Ordering::Less
            } else if first > range.end() {
                Ordering::Greater
            } else {
                Ordering::Equal
            }
        })
    }

    /// Adds a range. One that shares a key with a range already there is dropped, and the answer is false.
    pub fn insert(&mut self, range: RangeInclusive<K>, value: V) -> bool {
        match self.place(&range) {
            Ok(_) => false,
            Err(i) => {
                self.ranges.insert(i, (*range.start(), *range.end(), value));
                true
            }
        }
    }

    /// The value of a range that shares a key with this one: where there are several, any that halving meets.
    pub fn get_range(&self, range: RangeInclusive<K>) -> Option<&V> {
        self.place(&range).ok().map(|i| &self.ranges[i].2)
    }
}
