//! The specification's examples, each refusal, five levels, and buffers too short, through the public calls.
#![cfg(feature = "std")]

mod common;

use archwend::*;
use common::*;

const GPA: u64 = 0x100000;
const CPU: CpuPagingState = CpuPagingState { cr3: GPA, cr4: 0 };
const FIVE: CpuPagingState = CpuPagingState { cr3: GPA, cr4: 0x1000 };
/// Every bit of cr4 but the one for five levels.
const OTHERS: u64 = !0x1000;
const PAGE: u64 = 0x200000;
const LIMIT: u64 = 1 << 48;
const WIDE_LIMIT: u64 = 1 << 52;

/// The base below a root whose entries are of level 4.
const DEEP: [Entry; 4] = [(0, 0, 0x101023), (1, 0, 0x102023), (2, 0, 0x103023), (3, 1, 0x2000e3)];

/// A builder of a region with so many tables, loaded page by page.
fn builder_at(gpa: u64, size: u64, count: usize, entries: &[Entry]) -> PageTableRelocationBuilder {
    let mut b = PageTableRelocationBuilder::new(gpa, size, 4096 * count as u64).unwrap();
    for (i, page) in tables(count, entries).chunks(4096).enumerate() {
        b.set_page_data(gpa + 4096 * i as u64, page).unwrap();
    }
    b
}

fn builder(size: u64, entries: &[Entry]) -> PageTableRelocationBuilder {
    builder_at(GPA, size, 3, entries)
}

/// The base with some entries more, and its one range by an offset.
fn base(offset: i64, size: u64, more: &[Entry]) -> Result<(Vec<u8>, Report), Error> {
    let entries = [&BASE, more].concat();
    builder(size, &entries).build_and_report(0, &[(PAGE..=0x3fffff, offset)], CPU)
}

/// The same with five levels; an entry given twice is the later.
fn deep(offset: i64, size: u64, more: &[Entry]) -> Result<(Vec<u8>, Report), Error> {
    let entries = [&DEEP, more].concat();
    builder_at(GPA, size, 4, &entries).build_and_report(0, &[(PAGE..=0x3fffff, offset)], FIVE)
}

fn number<T>(answer: Result<T, Error>) -> u64 {
    answer.err().map_or(0, |e| e.number)
}

#[test]
fn the_checked_examples() {
    let report = |used, moved, merged| report(used, moved, merged, 3);
    assert_eq!(base(0x1ff000, 0x8000, &[]), Ok((tables(3, &BASE), report(0x3000, 0, 0))));
    let up = [BASE[0], BASE[1], (2, 2, 0x4000e3)];
    assert_eq!(base(0x200000, 0x8000, &[]), Ok((tables(3, &up), report(0x3000, 1, 0))));
    assert_eq!(base(0x201000, 0x8000, &[]), Err(refusal_at(12, PAGE, 1, 0x201000)));
    let far = [BASE[0], BASE[1], (1, 1, 0x103023), (3, 1, 0x402000e3)];
    assert_eq!(base(0x40000000, 0x8000, &[]), Ok((tables(4, &far), report(0x4000, 1, 0))));
    assert_eq!(base(0x40000000, 0x3000, &[]), Err(refusal_at(19, 0x40200000, 2, 0)));
    let down = [BASE[0], BASE[1], (2, 0, 0xe3)];
    assert_eq!(base(-0x200000, 0x8000, &[]), Ok((tables(3, &down), report(0x3000, 1, 0))));
    assert_eq!(base(-0x400000, 0x8000, &[]), Err(refusal_at(13, PAGE, 1, -0x400000)));
    assert_eq!(base(0x200000, 0x8000, &[(2, 2, 0x4000e3)]), Ok((tables(3, &up), report(0x3000, 1, 1))));
    assert_eq!(base(0x200000, 0x8000, &[(2, 2, 0x4000e1)]), Err(refusal_at(18, 0x400000, 1, 0)));
    assert_eq!(base(0x200000, 0x8000, &[(0, 511, 0x100023)]), Err(refusal_at(10, 511 << 39, 3, 0)));
    assert_eq!(base(0x200000, 0x8000, &[(2, 0, 0x103023)]), Err(refusal_at(9, 0, 1, 0)));
    let left = [BASE[0], BASE[1], (2, 0, 0x108023), (2, 2, 0x4000e3)];
    assert_eq!(base(0x200000, 0x8000, &[(2, 0, 0x108023)]), Ok((tables(3, &left), report(0x3000, 1, 0))));
    let top = (LIMIT - 2 * PAGE) as i64;
    assert_eq!(base(top, 0x8000, &[]).unwrap().1, report(0x5000, 1, 0));
    assert_eq!(base(top + PAGE as i64, 0x8000, &[]), Err(refusal_at(13, PAGE, 1, top + PAGE as i64)));
}

#[test]
fn five_levels() {
    let report = |used, moved| report(used, moved, 0, 4);
    let [root, third, second, _] = DEEP;
    assert_eq!(deep(0x1ff000, 0x8000, &[]), Ok((tables(4, &DEEP), report(0x4000, 0))));
    let up = [root, third, second, (3, 2, 0x4000e3)];
    assert_eq!(deep(0x200000, 0x8000, &[]), Ok((tables(4, &up), report(0x4000, 1))));
    let down = [root, third, second, (3, 0, 0xe3)];
    assert_eq!(deep(-0x200000, 0x8000, &[]), Ok((tables(4, &down), report(0x4000, 1))));
    assert_eq!(deep(-0x400000, 0x8000, &[]), Err(refusal_at(13, PAGE, 1, -0x400000)));
    // By way of another entry of the root: three tables more, or not so many left.
    let over = [root, third, second, (0, 1, 0x104023), (4, 0, 0x105023), (5, 0, 0x106023), (6, 1, 0x10000002000e3)];
    assert_eq!(deep(1 << 48, 0x7000, &[]), Ok((tables(7, &over), report(0x7000, 1))));
    for (size, level) in [(0x6000, 2), (0x5000, 3), (0x4000, 4)] {
        assert_eq!(deep(1 << 48, size, &[]), Err(refusal_at(19, 0x1000000200000, level, 0)));
    }
    // Back again.
    let b = builder_at(GPA, 0x8000, 4, &[(0, 1, 0x101023), third, second, DEEP[3]]);
    let back = [(0, 1, 0x101023), third, second, (0, 0, 0x104023), (4, 0, 0x105023), (5, 0, 0x106023), (6, 1, 0x2000e3)];
    assert_eq!(b.build(0, &[(0x1000000200000..=0x10000003fffff, -1 << 48)], FIVE), Ok(tables(7, &back)));
    // The last 2 MiB below 2^52, and the next.
    let top = (WIDE_LIMIT - 2 * PAGE) as i64;
    let last = [root, third, second, (0, 15, 0x104023), (4, 511, 0x105023), (5, 511, 0x106023), (6, 511, 0xfffffffe000e3)];
    assert_eq!(deep(top, 0x8000, &[]), Ok((tables(7, &last), report(0x7000, 1))));
    assert_eq!(deep(top + PAGE as i64, 0x8000, &[]), Err(refusal_at(13, PAGE, 1, top + PAGE as i64)));
}

/// Level 4 in places, and entries that map from 2^52 up: these are walked, and their leaves stay.
#[test]
fn level_four() {
    let report = |moved| report(0x4000, moved, 0, 4);
    let wide = (DEEP[0].0, 16, DEEP[0].2);
    let high = [(0, 0, 0), wide, DEEP[1], DEEP[2], DEEP[3]];
    assert_eq!(deep(0x200000, 0x8000, &high), Ok((tables(4, &high), report(0))));
    assert_eq!(deep(0x200000, 0x8000, &[(0, 16, 0x104023)]), Err(refusal_at(9, 1 << 52, 4, 0)));
    assert_eq!(deep(0x200000, 0x8000, &[(0, 511, 0x100023)]), Err(refusal_at(10, 511 << 48, 4, 0)));
    let b = builder_at(GPA, 0x8000, 4, &[&DEEP[..], &[(0, 16, 0x108023)]].concat());
    assert_eq!(b.build(0x8000, &[], FIVE), Err(refusal_at(11, 1 << 52, 4, 0)));
    assert_eq!(deep(1 << 48, 0x8000, &[(0, 1, 0x500023)]), Err(refusal_at(17, 0x1000000200000, 4, 0)));
    // The root itself, one level above its entries.
    let b = builder_at(GPA, 0x8000, 4, &DEEP);
    assert_eq!(b.build(0, &[], CpuPagingState { cr3: 0x104000, ..FIVE }), Err(refusal_at(9, 0, 5, 0)));
    // Bit 7 means nothing at levels 4 and 3, on the walk and on the way of a moved leaf.
    let marked = [(0, 0, 0x1010a3), (1, 0, 0x1020a3)];
    let up = [marked[0], marked[1], DEEP[2], (3, 2, 0x4000e3)];
    assert_eq!(deep(0x200000, 0x8000, &marked), Ok((tables(4, &up), report(1))));
}

/// Ranges and the moved region end at the bound, and no bit of cr4 counts but one.
#[test]
fn the_bound_of_ranges_and_of_the_moved_region() {
    let build = |cr4: u64, entries: &[Entry], offset: u64, last: u64| {
        let b = builder_at(GPA, 0x8000, entries.len(), entries);
        number(b.build(offset as i64, &[(PAGE..=last, 0)], CpuPagingState { cr4, ..CPU }))
    };
    for cr4 in [0, OTHERS] {
        assert_eq!([LIMIT - 1, LIMIT, WIDE_LIMIT - 1].map(|last| build(cr4, &BASE, 0, last)), [0, 8, 8]);
        let end = LIMIT - GPA - 0x8000;
        assert_eq!([end, end + 0x1000, LIMIT].map(|offset| build(cr4, &BASE, offset, PAGE)), [0, 7, 7]);
    }
    for cr4 in [0x1000, u64::MAX] {
        assert_eq!([LIMIT, WIDE_LIMIT - 1, WIDE_LIMIT].map(|last| build(cr4, &DEEP, 0, last)), [0, 0, 8]);
        let end = WIDE_LIMIT - GPA - 0x8000;
        assert_eq!([LIMIT, end, end + 0x1000].map(|offset| build(cr4, &DEEP, offset, PAGE)), [0, 0, 7]);
    }
}

#[test]
fn the_bound_of_a_region() {
    let load = |cr4: u64, gpa: u64| {
        let mut image = [0; 4096];
        let n = number(set_page_data_in(&mut image, Region { gpa, size: 0x8000, used: 0x1000 }, gpa, &[0x5a; 4096], cr4));
        assert_eq!(image, [if n == 0 { 0x5a } else { 0 }; 4096]);
        n
    };
    for cr4 in [0, OTHERS] {
        assert_eq!([LIMIT - 0x8000, LIMIT - 0x7000, LIMIT].map(|gpa| load(cr4, gpa)), [0, 1, 1]);
    }
    for cr4 in [0x1000, u64::MAX] {
        assert_eq!([LIMIT, WIDE_LIMIT - 0x8000, WIDE_LIMIT - 0x7000, WIDE_LIMIT].map(|gpa| load(cr4, gpa)), [0, 0, 1, 1]);
    }
    // The builder has the wider bound until its build.
    let new = |gpa| PageTableRelocationBuilder::new(gpa, 0x8000, 0x4000).err();
    assert_eq!([LIMIT, WIDE_LIMIT - 0x8000].map(new), [None, None]);
    assert_eq!(new(WIDE_LIMIT - 0x7000), Some(refusal_by(1, Rule::RegionPastBound { bound: WIDE_LIMIT })));
    let entries = [(0, 0, LIMIT + 0x1023), (1, 0, LIMIT + 0x2023), (2, 0, LIMIT + 0x3023), DEEP[3]];
    let b = builder_at(LIMIT, 0x8000, 4, &entries);
    let refused = refusal_by(1, Rule::RegionPastBound { bound: LIMIT });
    assert_eq!(b.clone().build(0, &[], CpuPagingState { cr3: LIMIT, cr4: OTHERS }), Err(refused));
    assert_eq!(b.build(0, &[], CpuPagingState { cr3: LIMIT, cr4: 0x1000 }), Ok(tables(4, &entries)));
}

#[test]
fn build_hands_back_the_tables() {
    let b = builder(0x8000, &BASE);
    assert_eq!(b.build(0, &[], CPU), Ok(tables(3, &BASE)));
    // The region moves, and its pointers with it.
    let b = builder(0x8000, &BASE);
    let moved = tables(3, &[(0, 0, 0x201023), (1, 0, 0x202023), BASE[2]]);
    assert_eq!(b.build(0x100000, &[], CPU), Ok(moved));
}

#[test]
fn contains() {
    let b = builder(0x8000, &BASE);
    assert_eq!([GPA - 1, GPA, GPA + 0x7fff, GPA + 0x8000, 0, u64::MAX].map(|a| b.contains(a)), [false, true, true, false, false, false]);
    let mut b = b;
    b.gpa = u64::MAX;
    b.size = u64::MAX;
    assert!(b.contains(u64::MAX) && !b.contains(0));
}

#[test]
fn loads() {
    let mut b = builder(0x8000, &BASE);
    let page = [0x5a; 8192];
    assert_eq!(number(b.set_page_data(0, &[])), 0);
    assert_eq!(number(b.set_page_data(GPA, &page[..4095])), 2);
    assert_eq!(number(b.set_page_data(GPA, &page)), 2);
    assert_eq!(number(b.set_page_data(GPA - 4096, &page[..4096])), 3);
    assert_eq!(number(b.set_page_data(GPA + 0x8000, &page[..4096])), 3);
    assert_eq!(number(b.set_page_data(GPA + 1, &page[..4096])), 3);
    assert_eq!(number(b.set_page_data(GPA + 0x3000, &page[..4096])), 9);
    // A refused load changed nothing.
    assert_eq!(b.build(0, &[], CPU), Ok(tables(3, &BASE)));
    let region = Region { gpa: GPA, size: 0x1000, used: 0x1000 };
    assert_eq!(number(set_page_data_in(&mut [0; 4095], region, GPA, &[], 0)), 4);
    assert_eq!(number(set_page_data_in(&mut [], Region { size: 5, ..region }, GPA, &[], 0)), 1);
    let mut image = [0; 4096];
    assert_eq!(number(set_page_data_in(&mut image, region, GPA, &page[..4096], 0)), 0);
    assert_eq!(image[..], page[..4096]);
}

#[test]
fn each_refusal_of_a_build() {
    let build = |entries: &[Entry], table: i64, ranges: &[(u64, u64, i64)], cpu: CpuPagingState| {
        let list: Vec<_> = ranges.iter().map(|r| (r.0..=r.1, r.2)).collect();
        builder(0x8000, &[&BASE, entries].concat()).build(table, &list, cpu).unwrap_err()
    };
    assert_eq!(PageTableRelocationBuilder::new(1, 0x1000, 0x1000).unwrap_err(), refusal_by(1, Rule::RegionNotPages));
    assert_eq!(build(&[], 0, &[], CpuPagingState { cr3: 0xff000, ..CPU }), refusal(6));
    assert_eq!(build(&[], 1, &[], CPU), refusal(7));
    assert_eq!(build(&[], -0x101000, &[], CPU), refusal(7));
    assert_eq!(build(&[], 0, &[(5, 4, 0)], CPU), refusal_by(8, Rule::RangeBackward { first: 5, last: 4 }));
    let past = Rule::RangePastBound { first: 0, last: LIMIT, bound: LIMIT };
    assert_eq!(build(&[], 0, &[(0, LIMIT, 0)], CPU), refusal_by(8, past));
    assert_eq!(build(&[], 0, &[(GPA, GPA, 0)], CPU), refusal_by(8, Rule::RangeOverRegion { first: GPA, last: GPA }));
    let many: Vec<_> = (0..1025).map(|i| (PAGE + i, PAGE + i, 0)).collect();
    assert_eq!(build(&[], 0, &many, CPU), refusal_by(8, Rule::TooManyRanges));
    assert_eq!(build(&[], 0, &[], CpuPagingState { cr3: 0x103000, ..CPU }), refusal_at(9, 0, 4, 0));
    assert_eq!(build(&[(2, 2, 0x108023)], 0x8000, &[], CPU), refusal_at(11, 0x400000, 1, 0));
    let meet = [(PAGE, 0x3fffff, 0x400000), (0x400000, 0x5fffff, 0x200000)];
    assert_eq!(build(&[(2, 2, 0x4000e3)], 0, &meet, CPU), refusal_at(14, 0x400000, 1, 0));
    assert_eq!(build(&[(2, 0, 0x101023)], 0, &[], CPU), refusal_at(10, 0, 1, 0));
    assert_eq!(build(&[(1, 1, 0x400000e3)], 0, &[(PAGE, 0x3fffff, 0x40000000)], CPU), refusal_at(16, 0x40200000, 2, 0));
    assert_eq!(build(&[(1, 1, 0x500023)], 0, &[(PAGE, 0x3fffff, 0x40000000)], CPU), refusal_at(17, 0x40200000, 2, 0));
}

#[test]
fn lent_buffers() {
    let region = Region { gpa: GPA, size: 0x8000, used: 0x3000 };
    let image = tables(3, &BASE);
    let words = [PAGE, 0x3fffff, 0x200000];
    let mut output = vec![0xa5; 0x9000];
    let mut scratch = vec![7; 5];
    let report = build_in(&image, &mut output, &mut scratch, &words, region, 0, CPU).unwrap();
    assert_eq!(report, common::report(0x3000, 1, 0, 3));
    assert_eq!(output, tables(9, &[BASE[0], BASE[1], (2, 2, 0x4000e3)]));
    assert_eq!(scratch, [0; 5]);
    // Too short, each in turn: refused, and what was lent is zero.
    let try_with = |image: &[u8], out: usize, room: usize, words: &[u64]| {
        let (mut output, mut scratch) = (vec![0xa5; out], vec![7; room]);
        let e = build_in(image, &mut output, &mut scratch, words, region, 0, CPU).unwrap_err();
        assert!(output.iter().all(|b| *b == 0) && scratch.iter().all(|w| *w == 0));
        e
    };
    assert_eq!(try_with(&image[1..], 0x8000, 3, &words), refusal(4));
    assert_eq!(try_with(&[], 0x8000, 3, &words), refusal(4));
    assert_eq!(try_with(&image, 0x7fff, 3, &words), refusal(4));
    assert_eq!(try_with(&image, 0, 0, &[]), refusal(4));
    assert_eq!(try_with(&image, 0x8000, 3, &words[..2]), refusal_by(8, Rule::RangesNotInThrees));
    assert_eq!(try_with(&image, 0x8000, 2, &words), refusal_at(15, PAGE, 1, 0));
    assert_eq!(try_with(&image, 0x8000, 0, &words), refusal_at(15, PAGE, 1, 0));
}

#[test]
fn any_numbers_are_taken() {
    let odd = [0, 1, 0x1000, 0x3000, 0x100000, 0x200001, LIMIT, WIDE_LIMIT, u64::MAX - 4095, u64::MAX];
    for gpa in odd {
        for size in odd {
            for used in odd {
                let region = Region { gpa, size, used };
                for (cr3, cr4) in [(gpa, 0), (gpa, u64::MAX), (u64::MAX, 0), (u64::MAX, u64::MAX)] {
                    let _ = set_page_data_in(&mut [0; 8], region, size, &[1; 3], cr4);
                    for offset in [0, i64::MIN, -1, i64::MAX] {
                        let _ = build_in(&[], &mut [], &mut [], &[], region, offset, CpuPagingState { cr3, cr4 });
                    }
                }
                // A region changed after it was made; not all of them, as this one takes memory.
                if (gpa ^ size ^ used) % 3 != 0 {
                    continue;
                }
                let mut b = PageTableRelocationBuilder::new(0, 0x1000, 0x1000).unwrap();
                b.gpa = gpa;
                b.size = size;
                b.used_size = used;
                let _ = b.contains(used);
                let _ = b.set_page_data(gpa, &[0; 4096]);
                let _ = b.clone().build(i64::MIN, &[(size..=gpa, i64::MIN)], CPU);
                let _ = b.build(0, &[(0..=u64::MAX, -1)], CpuPagingState { cr3: gpa, cr4: 0 });
                let _ = PageTableRelocationBuilder::new(gpa, size, used);
            }
        }
    }
}

/// A build takes its ranges in any order; those with one first address stay in theirs, so that the first comes first.
#[test]
fn the_builder_sorts_the_ranges() {
    let entries = [&BASE[..], &[(2, 3, 0x6000e3), (2, 5, 0xa000e3)]].concat();
    let build = |ranges: &[(u64, u64, i64)]| {
        let list: Vec<_> = ranges.iter().map(|r| (r.0..=r.1, r.2)).collect();
        builder(0x8000, &entries).build(0, &list, CPU)
    };
    let (low, middle, high) = ((PAGE, 0x3fffff, 0x200000), (0x600000, 0x7fffff, 0x200000), (0xa00000, 0xbfffff, -0xa00000));
    let moved = tables(3, &[BASE[0], BASE[1], (2, 2, 0x4000e3), (2, 4, 0x8000e3), (2, 0, 0xe3)]);
    for (a, b, c) in [(low, middle, high), (middle, high, low), (high, low, middle)] {
        assert_eq!((build(&[a, b, c]), build(&[c, b, a])), (Ok(moved.clone()), Ok(moved.clone())));
    }
    let (long, short) = ((PAGE, 0x3fffff, 0), (PAGE, 0x2fffff, 0));
    let not_above = |last, before| Err(refusal_by(8, Rule::RangeNotAbove { first: PAGE, last, before }));
    assert_eq!(build(&[high, long, short]), not_above(0x2fffff, 0x3fffff));
    assert_eq!(build(&[short, high, long]), not_above(0x3fffff, 0x2fffff));
    // Lent ranges are taken as they come.
    let region = Region { gpa: GPA, size: 0x8000, used: 0x3000 };
    let words = [high, low].map(|r| [r.0, r.1, r.2 as u64]).concat();
    let answer = build_in(&tables(3, &entries), &mut [0; 0x8000], &mut [0; 9], &words, region, 0, CPU);
    assert_eq!(answer, Err(refusal_by(8, Rule::RangeNotAbove { first: PAGE, last: 0x3fffff, before: 0xbfffff })));
}

#[test]
fn each_refusal_has_its_sentence() {
    let numbers = (1..=20).filter(|n| *n != 5).chain([34, Error::NO_MEMORY]);
    let all: Vec<&str> = numbers.map(|n| refusal(n).sentence()).collect();
    let mut single = all.clone();
    single.sort();
    single.dedup();
    assert_eq!(single.len(), all.len());
    // Of a number that is out of use, or that no refusal has yet.
    for n in [5, 21, 33, 35] {
        let unknown = refusal(n);
        assert!(!all.contains(&unknown.sentence()));
        assert_eq!(unknown.to_string(), format!("the number is not known (refusal {n})"));
    }
}

/// What follows the sentence: the number, the place and the rule.
#[test]
fn displayed() {
    let after = |e: Error| e.to_string().strip_prefix(e.sentence()).expect("the sentence").to_string();
    let text = "an offset is not a multiple of the size that the entry maps (refusal 12 at old address 0x200000, level 1, which \
                maps 0x200000, offset -0x1000)";
    assert_eq!(refusal_at(12, PAGE, 1, -0x1000).to_string(), text);
    let lowest = "(refusal 13 at old address 0x0, level 0, which maps 0x1000, offset -0x8000000000000000)";
    assert_eq!(after(refusal_at(13, 0, 0, i64::MIN)), format!(" {lowest}"));
    // The old address to 15, the new one from 16 on, and an offset with 12 and 13 alone.
    for n in 9..=19 {
        let (whose, offset) = (if n <= 15 { "old" } else { "new" }, if n == 12 || n == 13 { ", offset 0x5" } else { "" });
        let text = format!(" (refusal {n} at {whose} address 0x1000000200000, level 4, which maps 0x1000000000000{offset})");
        assert_eq!(after(refusal_at(n, 0x1000000200000, 4, 5)), text);
    }
    // A root of five levels; the page of a load; a list of a comparison.
    assert_eq!(after(refusal_at(9, 0, 5, 0)), " (refusal 9 at old address 0x0, level 5)");
    for n in [1, 8, 9, 15, 20, 34] {
        assert_eq!(after(refusal(n)), format!(" (refusal {n})"));
    }
    let range = Rule::RangeNotAbove { first: 0x10, last: 0x1f, before: 0x12 };
    let text = " (refusal 8): the range 0x10 to 0x1f does not begin above 0x12, where the one before it ends";
    assert_eq!(after(refusal_by(8, range)), text);
    let e: Box<dyn std::error::Error> = Box::new(refusal(6));
    assert_eq!(e.to_string(), "cr3 is not in the region (refusal 6)");
}

#[test]
fn places_of_refusals() {
    let place = |e: Error| e.place.map(|p| (p.address, p.level, p.mapping_size()));
    // Of the root, and of an entry whose place is all zeros.
    let answer = builder(0x8000, &BASE).build(0, &[], CpuPagingState { cr3: 0x103000, ..CPU });
    assert_eq!(answer.map_err(place), Err(Some((0, 4, Some(1 << 48)))));
    let answer = builder_at(GPA, 0x8000, 4, &DEEP).build(0, &[], CpuPagingState { cr3: 0x104000, ..FIVE });
    assert_eq!(answer.map_err(place), Err(Some((0, 5, None))));
    let small = [BASE[0], BASE[1], (2, 0, 0x103023), (3, 0, 0x63)];
    let answer = builder_at(GPA, 0x8000, 4, &small).build(0, &[(0..=0xfff, 0x1001)], CPU);
    assert_eq!(answer.map_err(place), Err(Some((0, 0, Some(0x1000)))));
    let region = Region { gpa: GPA, size: 0x8000, used: 0x4000 };
    let answer = build_in(&tables(4, &small), &mut [0; 0x8000], &mut [], &[0, 0xfff, 0x1000], region, 0, CPU);
    assert_eq!(answer, Err(refusal_at(15, 0, 0, 0)));
    // A load's 9 and a comparison's 15 have none.
    assert_eq!(builder(0x8000, &BASE).set_page_data(GPA + 0x3000, &[0; 4096]), Err(refusal(9)));
    assert_eq!(compare_in(&[0; 4096], &[1; 4096], &mut []).unwrap_err(), refusal(15));
}
