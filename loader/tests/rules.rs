//! After each 1 and each 8 the rule that is named is one that the input breaks; over random regions and ranges.
#![cfg(feature = "alloc")]

mod common;

use archwend::*;
use common::*;

/// A linear congruential generator, of which the upper half is taken.
struct Random(u64);

impl Random {
    fn below(&mut self, n: u64) -> u64 {
        self.0 = self.0.wrapping_mul(6364136223846793005).wrapping_add(1442695040888963407);
        (self.0 >> 32) % n
    }

    fn of(&mut self, list: &[u64]) -> u64 {
        list[self.below(list.len() as u64) as usize]
    }

    fn word(&mut self) -> u64 {
        let shift = self.below(64);
        (self.below(1 << 32) << 32 | self.below(1 << 32)) >> shift
    }
}

fn bound(cr4: u64) -> u128 {
    1 << if cr4 & 0x1000 != 0 { 52 } else { 48 }
}

/// Whether a region breaks the rule.
fn region_breaks(r: Region, cr4: u64, rule: Rule) -> bool {
    match rule {
        Rule::RegionNotPages => r.gpa % 4096 != 0 || r.size % 4096 != 0,
        Rule::UsedNotPages => r.used % 4096 != 0,
        Rule::RegionEmpty => r.size == 0,
        Rule::RegionTooLarge => r.size > 512 * 4096,
        Rule::UsedAboveSize => r.used > r.size,
        Rule::RegionPastBound { bound: b } => b as u128 == bound(cr4) && r.gpa as u128 + r.size as u128 > bound(cr4),
        _ => false,
    }
}

/// Whether the list breaks the rule, and no range before the one that is named breaks any.
fn ranges_break(words: &[u64], r: Region, cr4: u64, rule: Rule) -> bool {
    let list: Vec<(u64, u64)> = words.chunks_exact(3).map(|w| (w[0], w[1])).collect();
    let end = r.gpa as u128 + r.size as u128;
    let over = |w: &(u64, u64)| (w.0 as u128) < end && w.1 >= r.gpa;
    let bad = |i: usize| {
        let w = list[i];
        w.0 > w.1 || w.1 as u128 >= bound(cr4) || over(&w) || (i > 0 && w.0 <= list[i - 1].1)
    };
    let named = (0..list.len()).find(|i| bad(*i));
    let is = |first, last| named.map_or(false, |i| list[i] == (first, last));
    match rule {
        Rule::RangesNotInThrees => words.len() % 3 != 0,
        Rule::TooManyRanges => list.len() > 1024,
        Rule::RangeBackward { first, last } => is(first, last) && first > last,
        Rule::RangePastBound { first, last, bound: b } => is(first, last) && b as u128 == bound(cr4) && last >= b,
        Rule::RangeNotAbove { first, last, before } => {
            is(first, last) && named.map_or(false, |i| i > 0 && list[i - 1].1 == before) && first <= before
        }
        Rule::RangeOverRegion { first, last } => is(first, last) && over(&(first, last)),
        _ => false,
    }
}

/// Often a good region, else one with a number changed.
fn some_region(r: &mut Random) -> Region {
    let size = 4096 * (1 + r.below(4));
    let mut region = Region { gpa: 4096 * r.below(1 << 20), size, used: 4096 * r.below(size / 4096 + 1) };
    let odd = [0, 1, 0xfff, 0x1000, 0x1001, 0x200000, 0x201000, 1 << 48, (1 << 48) - 0x1000, 1 << 52, u64::MAX - 0xfff, u64::MAX];
    let value = if r.below(2) == 0 { r.of(&odd) } else { r.word() };
    match r.below(6) {
        0 => region.gpa = value,
        1 => region.size = value,
        2 => region.used = value,
        3 => region = Region { gpa: r.word(), size: r.word(), used: r.word() },
        _ => {}
    }
    region
}

/// Ascending ranges, and then some change that may break a rule.
fn some_ranges(r: &mut Random, region: Region) -> Vec<u64> {
    let count = if r.below(40) == 0 { 1020 + r.below(8) } else { r.below(6) };
    let (mut words, mut at) = (Vec::new(), r.below(0x8000));
    for _ in 0..count {
        let last = at + r.below(0x3000);
        words.extend([at, last, r.word()]);
        at = last + 1 + r.below(0x3000);
    }
    if r.below(4) == 0 {
        words.truncate(words.len().saturating_sub(1 + r.below(2) as usize));
    }
    if !words.is_empty() && r.below(3) > 0 {
        let i = r.below(words.len() as u64) as usize;
        let odd = [0, region.gpa, region.gpa.wrapping_add(region.size), 1 << 48, (1 << 48) - 1, 1 << 52, u64::MAX];
        words[i] = if r.below(3) == 0 { r.word() } else { r.of(&odd) };
    }
    words
}

/// A name for the rule, to count by.
fn name(rule: Rule) -> String {
    format!("{rule:?}").split(' ').next().unwrap().to_string()
}

#[test]
fn each_refused_region_breaks_its_rule() {
    let (mut r, mut met) = (Random(1), std::collections::BTreeMap::new());
    for _ in 0..30_000 {
        let (region, cr4) = (some_region(&mut r), r.of(&[0, 0x1000, !0x1000]));
        let load = set_page_data_in(&mut [], region, 0, &[], cr4).err();
        let build = build_in(&[], &mut [], &mut [], &[], region, 0, CpuPagingState { cr3: 0, cr4 }).err();
        for e in [load, build].into_iter().flatten().filter(|e| e.number == 1) {
            let rule = e.rule.expect("a rule");
            assert!(region_breaks(region, cr4, rule), "{region:x?} with {cr4:x}: {rule:x?}");
            assert_eq!(e, refusal_by(1, rule));
            *met.entry(name(rule)).or_insert(0) += 1;
        }
        // No other refusal has one.
        assert!([load, build].into_iter().flatten().all(|e| e.number == 1 || e.rule.is_none()));
    }
    assert!(met.len() == 6 && met.values().all(|n| *n > 100), "{met:?}");
}

#[test]
fn each_refused_list_breaks_its_rule() {
    let (mut r, mut met, mut accepted) = (Random(2), std::collections::BTreeMap::new(), 0);
    let (image, mut output) = ([0; 4096], [0; 0x4000]);
    for _ in 0..30_000 {
        let region = Region { gpa: 4096 * r.below(0x20), size: 4096 * (1 + r.below(4)), used: 4096 };
        let (words, cr4) = (some_ranges(&mut r, region), r.of(&[0, 0x1000, !0x1000]));
        let cpu = CpuPagingState { cr3: region.gpa, cr4 };
        match build_in(&image, &mut output, &mut [], &words, region, 0, cpu) {
            Ok(_) => accepted += 1,
            Err(e) => {
                let rule = e.rule.expect("a rule");
                assert!(ranges_break(&words, region, cr4, rule), "{region:x?} with {cr4:x}, {words:x?}: {rule:x?}");
                assert_eq!(e, refusal_by(8, rule));
                *met.entry(name(rule)).or_insert(0) += 1;
            }
        }
    }
    assert!(accepted > 1000 && met.len() == 6 && met.values().all(|n| *n > 100), "{accepted}, {met:?}");
}

/// The moved region is no matter of the ranges, and a range of another offset over it is none either.
#[test]
fn the_moved_region_is_not_looked_at() {
    let region = Region { gpa: 0x100000, size: 0x1000, used: 0x1000 };
    let cpu = CpuPagingState { cr3: 0x100000, cr4: 0 };
    let build = |words: &[u64]| build_in(&[0; 4096], &mut [0; 4096], &mut [], words, region, 0x1000, cpu).map(|r| r.reached);
    assert_eq!(build(&[0x101000, 0x101fff, 0]), Ok(1));
    assert_eq!(build(&[0x100fff, 0x101fff, 0]), Err(refusal_by(8, Rule::RangeOverRegion { first: 0x100fff, last: 0x101fff })));
}

/// What just keeps a rule is not named, where another is broken after it.
#[test]
fn the_edges_of_rules() {
    let load = |gpa, size, used| set_page_data_in(&mut [], Region { gpa, size, used }, 0, &[], 0).unwrap_err();
    assert_eq!(load(0, 0x200000, 0x201000), refusal_by(1, Rule::UsedAboveSize));
    assert_eq!(load(0, 0x201000, 0x201000), refusal_by(1, Rule::RegionTooLarge));
    let past = Rule::RegionPastBound { bound: 1 << 48 };
    assert_eq!(load((1 << 48) - 0x1ff000, 0x200000, 0x200000), refusal_by(1, past));
    let region = Region { gpa: 0x100000, size: 0x1000, used: 0x1000 };
    let cpu = CpuPagingState { cr3: 0x100000, cr4: 0 };
    let build = |words: &[u64]| build_in(&[0; 4096], &mut [0; 4096], &mut [], words, region, 0, cpu).unwrap_err();
    let not_above = Rule::RangeNotAbove { first: 0x1fff, last: 0x2fff, before: 0x1fff };
    assert_eq!(build(&[0x1000, 0x1fff, 0, 0x1fff, 0x2fff, 0]), refusal_by(8, not_above));
    // Up to the region and from its end on, one address each after the other, and up to the bound.
    let good = [0, 0xfffff, 0, 0x101000, 0x101000, 0, 0x101001, (1 << 48) - 1, 0];
    let backward = Rule::RangeBackward { first: 1 << 48, last: 0 };
    assert_eq!(build(&[&good[..], &[1 << 48, 0, 0]].concat()), refusal_by(8, backward));
}

#[test]
fn rules_in_words() {
    let text = |rule: Rule| rule.to_string();
    assert_eq!(text(Rule::RegionPastBound { bound: 1 << 48 }), "the region ends past the bound, 0x1000000000000");
    assert_eq!(text(Rule::RangeBackward { first: 5, last: 4 }), "the range 0x5 to 0x4 ends before it begins");
    let past = Rule::RangePastBound { first: 0, last: 1 << 52, bound: 1 << 52 };
    assert_eq!(text(past), "the range 0x0 to 0x10000000000000 ends past the bound, 0x10000000000000");
    assert_eq!(text(Rule::RangeOverRegion { first: 1, last: 2 }), "the range 0x1 to 0x2 lies over the table region");
    use Rule::*;
    let of_region = [RegionNotPages, UsedNotPages, RegionEmpty, RegionTooLarge, UsedAboveSize];
    let mut all: Vec<String> = of_region.into_iter().chain([RangesNotInThrees, TooManyRanges]).map(text).collect();
    all.sort();
    all.dedup();
    assert_eq!(all.len(), 7);
}
