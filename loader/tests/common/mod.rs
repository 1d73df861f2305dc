//! Images, refusals and reports, as the tests write them.
// Each test has some of them.
#![allow(dead_code)]

use archwend::{mapping_size, Error, Place, Report, Rule};

/// Table, entry, word.
pub type Entry = (usize, usize, u64);

/// The specification's base example.
pub const BASE: [Entry; 3] = [(0, 0, 0x101023), (1, 0, 0x102023), (2, 1, 0x2000e3)];

/// An image of so many tables; an entry given twice is the later.
pub fn tables(count: usize, entries: &[Entry]) -> Vec<u8> {
    let mut words = vec![0u64; 512 * count];
    for (t, e, w) in entries {
        words[512 * t + e] = *w;
    }
    words.iter().flat_map(|w| w.to_le_bytes()).collect()
}

/// A refusal without a place.
pub fn refusal(number: u64) -> Error {
    let mut e = mapping_size(5).unwrap_err();
    (e.number, e.place, e.rule) = (number, None, None);
    e
}

pub fn refusal_at(number: u64, address: u64, level: u64, offset: i64) -> Error {
    let mut place = Place::default();
    (place.address, place.level, place.offset) = (address, level, offset);
    let mut e = refusal(number);
    e.place = Some(place);
    e
}

/// A refusal for one of its rules.
pub fn refusal_by(number: u64, rule: Rule) -> Error {
    let mut e = refusal(number);
    e.rule = Some(rule);
    e
}

pub fn report(used: u64, moved: u64, merged: u64, reached: u64) -> Report {
    let mut r = Report::default();
    (r.used, r.moved, r.merged, r.reached) = (used, moved, merged, reached);
    r
}
