//! Which rule was broken, where a number has several. The proved library says the number; this looks at the same rules (§4.1 and
//! §5.4 of docs/SPECIFICATION.md) again, after it refused, and decides nothing.

use crate::{Region, MAX_REGION, X64_CR4_LA57, X64_PAGE_SIZE};
use core::fmt;

/// The rule that a region (1) or a list of ranges (8) breaks; of a list, with the first range that breaks one.
#[non_exhaustive]
#[derive(Debug, Clone, Copy, PartialEq, Eq, Hash)]
pub enum Rule {
    /// The region's start or size is not a multiple of 4096.
    RegionNotPages,
    /// The used length is not a multiple of 4096.
    UsedNotPages,
    /// The region has no table.
    RegionEmpty,
    /// The region has more than 512 tables.
    RegionTooLarge,
    /// The used length is above the size.
    UsedAboveSize,
    /// The region ends past the bound.
    RegionPastBound {
        /// 2^48, or 2^52 with five levels.
        bound: u64,
    },
    /// The list is no whole number of ranges.
    RangesNotInThrees,
    /// The list has more than 1,024 ranges.
    TooManyRanges,
    /// The range's last address is below its first.
    RangeBackward {
        /// Its first address.
        first: u64,
        /// Its last address.
        last: u64,
    },
    /// The range's last address is not below the bound.
    RangePastBound {
        /// Its first address.
        first: u64,
        /// Its last address.
        last: u64,
        /// 2^48, or 2^52 with five levels.
        bound: u64,
    },
    /// The range does not begin above the last address of the one before.
    RangeNotAbove {
        /// Its first address.
        first: u64,
        /// Its last address.
        last: u64,
        /// The last address of the one before.
        before: u64,
    },
    /// The range has an address of the table region.
    RangeOverRegion {
        /// Its first address.
        first: u64,
        /// Its last address.
        last: u64,
    },
}

impl fmt::Display for Rule {
    fn fmt(&self, f: &mut fmt::Formatter<'_>) -> fmt::Result {
        match *self {
            Rule::RegionNotPages => write!(f, "the region's start or size is not a multiple of 4096"),
            Rule::UsedNotPages => write!(f, "the used length is not a multiple of 4096"),
            Rule::RegionEmpty => write!(f, "the region's size is 0"),
            Rule::RegionTooLarge => write!(f, "the region has more than 512 tables"),
            Rule::UsedAboveSize => write!(f, "the used length is above the size"),
            Rule::RegionPastBound { bound } => write!(f, "the region ends past the bound, {bound:#x}"),
            Rule::RangesNotInThrees => write!(f, "the list is not words in threes"),
            Rule::TooManyRanges => write!(f, "the list has more than 1024 ranges"),
            Rule::RangeBackward { first, last } => write!(f, "the range {first:#x} to {last:#x} ends before it begins"),
            Rule::RangePastBound { first, last, bound } => {
                write!(f, "the range {first:#x} to {last:#x} ends past the bound, {bound:#x}")
            }
            Rule::RangeNotAbove { first, last, before } => {
                write!(f, "the range {first:#x} to {last:#x} does not begin above {before:#x}, where the one before it ends")
            }
            Rule::RangeOverRegion { first, last } => write!(f, "the range {first:#x} to {last:#x} lies over the table region"),
        }
    }
}

fn bound(cr4: u64) -> u64 {
    1 << if cr4 & X64_CR4_LA57 == 0 { 48 } else { 52 }
}

/// The first of the rules that holds.
fn first_broken(rules: &[(bool, Rule)]) -> Option<Rule> {
    rules.iter().find(|r| r.0).map(|r| r.1)
}

/// What the region breaks.
pub(crate) fn of_region(region: Region, cr4: u64) -> Option<Rule> {
    let Region { gpa, size, used } = region;
    let bound = bound(cr4);
    first_broken(&[
        (gpa % X64_PAGE_SIZE != 0 || size % X64_PAGE_SIZE != 0, Rule::RegionNotPages),
        (used % X64_PAGE_SIZE != 0, Rule::UsedNotPages),
        (size == 0, Rule::RegionEmpty),
        (size > MAX_REGION, Rule::RegionTooLarge),
        (used > size, Rule::UsedAboveSize),
        (gpa.checked_add(size).map_or(true, |end| end > bound), Rule::RegionPastBound { bound }),
    ])
}

/// What the list of ranges breaks, beside a good region.
pub(crate) fn of_ranges(ranges: &[u64], region: Region, cr4: u64) -> Option<Rule> {
    let list = [(ranges.len() % 3 != 0, Rule::RangesNotInThrees), (ranges.len() / 3 > 1024, Rule::TooManyRanges)];
    let before = core::iter::once(None).chain(ranges.chunks_exact(3).map(|r| Some(r[1])));
    let each = || ranges.chunks_exact(3).zip(before).find_map(|(r, before)| of_range(r[0], r[1], before, region, bound(cr4)));
    first_broken(&list).or_else(each)
}

fn of_range(first: u64, last: u64, before: Option<u64>, region: Region, bound: u64) -> Option<Rule> {
    let not_above = before.filter(|b| first <= *b).map(|before| Rule::RangeNotAbove { first, last, before });
    let over = first < region.gpa + region.size && last >= region.gpa;
    let past = Rule::RangePastBound { first, last, bound };
    let ends = [(first > last, Rule::RangeBackward { first, last }), (last >= bound, past)];
    first_broken(&ends).or(not_above).or_else(|| first_broken(&[(over, Rule::RangeOverRegion { first, last })]))
}
