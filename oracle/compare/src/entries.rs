//! The original's entry operations, indices, mapped sizes, tables of a region and masks, beside the library's. `None` is a panic.
//!
//! Two of the original's functions are private, and are run through what is public: its mapped sizes through the place of a 12, and
//! its tables' numbers through the root that a build takes, and through `contains`.

use archwend::Region;
use jobs::document::{leaf_field, span, FIELD};
use jobs::random::Random;
use jobs::{bytes, words, Built, Job, Load};
use original::hv_defs::Vtl;
use original::page_table::{PageTable, PageTableEntry, PageTableEntryType as Kind, PageTableRelocationBuilder};
use std::collections::BTreeMap;
use std::fmt::Debug;
use std::panic::{catch_unwind, AssertUnwindSafe};
use zerocopy::{FromBytes, FromZeros, IntoBytes, Unalign};

/// The refusal of entry operations.
pub const REFUSED: u64 = archwend::Error::ENTRY;

// ---- the library's, as a number and a word; the word is the entry as it is left, or 0

pub mod library {
    use archwend::{Error, PageTableEntry, PageTableEntryType as Kind, Region};

    fn answer(result: Result<u64, Error>, refused: u64) -> (u64, u64) {
        result.map_or_else(|e| (e.number, refused), |w| (0, w))
    }

    fn found(value: Option<u64>) -> (u64, u64) {
        value.map_or((0, 0), |v| (1, v))
    }

    fn changed(word: u64, change: impl FnOnce(&mut PageTableEntry) -> Result<(), Error>) -> (u64, u64) {
        let mut e = PageTableEntry::from(word);
        let number = change(&mut e).err().map_or(0, |e| e.number);
        (number, e.into())
    }

    /// The kinds are numbered as in the header.
    pub fn set_entry(word: u64, kind: u64, a: u64) -> (u64, u64) {
        let kinds = [Kind::Leaf4kPage(a), Kind::Leaf2MbPage(a), Kind::Leaf1GbPage(a), Kind::Pde(a)];
        changed(word, |e| e.set_entry(kinds[kind as usize]))
    }

    pub fn set_addr(word: u64, addr: u64) -> (u64, u64) {
        changed(word, |e| e.set_addr(addr))
    }

    pub fn clear(word: u64) -> u64 {
        let mut e = PageTableEntry::from(word);
        e.clear();
        e.into()
    }

    pub fn gpa(word: u64) -> (u64, u64) {
        found(PageTableEntry::from(word).gpa())
    }

    pub fn set_leaf_addr(word: u64, level: u64, addr: u64) -> (u64, u64) {
        changed(word, |e| e.set_leaf_addr(level, addr))
    }

    pub fn leaf_gpa(word: u64, level: u64) -> (u64, u64) {
        PageTableEntry::from(word).leaf_gpa(level).map_or_else(|e| (e.number, 0), found)
    }

    pub fn mapping_size(level: u64) -> (u64, u64) {
        answer(archwend::mapping_size(level), 0)
    }

    pub fn get_amd64_pte_index(gva: u64, level: u64) -> (u64, u64) {
        answer(archwend::get_amd64_pte_index(gva, level), 0)
    }

    pub fn calculate_page_table_index(region: Region, address: u64) -> (u64, u64) {
        found(region.calculate_page_table_index(address).map(|i| i as u64))
    }
}

// ---- the original's

pub fn entry(word: u64) -> PageTableEntry {
    let mut list = [0; 512];
    list[0] = word;
    <[Unalign<PageTable>]>::ref_from_bytes(&bytes(&list)).expect("one table")[0].into_inner()[0]
}

fn value(e: &PageTableEntry) -> u64 {
    words(e.as_bytes())[0]
}

fn changed(word: u64, change: impl FnOnce(&mut PageTableEntry)) -> Option<u64> {
    let mut e = entry(word);
    catch_unwind(AssertUnwindSafe(|| change(&mut e))).ok().map(|_| value(&e))
}

/// The kinds are numbered as in the header.
pub fn set_entry(word: u64, kind: u64, a: u64) -> Option<u64> {
    let kinds = [Kind::Leaf4kPage(a), Kind::Leaf2MbPage(a), Kind::Leaf1GbPage(a), Kind::Pde(a)];
    changed(word, |e| e.set_entry(kinds[kind as usize]))
}

pub fn set_addr(word: u64, addr: u64) -> Option<u64> {
    changed(word, |e| e.set_addr(addr))
}

pub fn clear(word: u64) -> Option<u64> {
    changed(word, |e| e.clear())
}

/// 1 and the address, or 0 and 0.
pub fn gpa(word: u64) -> (u64, u64) {
    entry(word).gpa().map_or((0, 0), |a| (1, a))
}

pub fn index(gva: u64, level: u8) -> Option<u64> {
    let mut t = PageTable::new_zeroed();
    let first = &t[0] as *const PageTableEntry as usize;
    let at = catch_unwind(AssertUnwindSafe(|| t.entry(gva, level) as *const PageTableEntry as usize));
    at.ok().map(|p| (p - first) as u64 / 8)
}

fn tables(gpa: u64, list: &[[u64; 512]]) -> Job {
    let size = list.len() as u64 * 4096;
    let load = |(i, t): (usize, &[u64; 512])| Load { gpa: gpa + i as u64 * 4096, data: bytes(t) };
    Job { gpa, size, used: size, cr3: gpa, loads: list.iter().enumerate().map(load).collect(), ..Job::default() }
}

/// Where a leaf of the level lies that is reached over these entries, root first, and what it maps: the place of a 12.
pub fn leaf_at(path: &[usize], offset: i64) -> (u64, u64) {
    let gpa = 0x10_0000;
    let mut list = vec![[0; 512]; path.len()];
    for (depth, i) in path.iter().enumerate() {
        let leaf = depth + 1 == path.len();
        list[depth][*i] = if leaf { 0xe3 } else { (gpa + 4096 * (depth as u64 + 1)) | 0x23 };
    }
    let mut job = tables(gpa, &list);
    job.ranges = vec![(0, u64::MAX, offset)];
    match jobs::run(&job).built {
        Built::Refused(12, Some((va, size, _))) => (va, size),
        other => panic!("no 12: {other:x?}"),
    }
}

/// 1 and the number of the table that a build takes as its root for the address, or 0 and 0 for one outside. Every table but the
/// last points to the last, and only the root's pointer moves.
pub fn root_at(gpa: u64, count: u64, address: u64) -> (u64, u64) {
    let mut list = vec![[0; 512]; count as usize];
    let pointer = (gpa + 4096 * (count - 1)) | 0x23;
    list.iter_mut().rev().skip(1).for_each(|t| t[0] = pointer);
    let mut job = tables(gpa, &list);
    job.cr3 = address;
    job.table_offset = 0x1000;
    match jobs::run(&job).built {
        Built::Tables { bytes, .. } => {
            let moved = words(&bytes).chunks(512).position(|t| t[0] == pointer + 0x1000);
            (1, moved.map_or(count - 1, |i| i as u64))
        }
        Built::Refused(6, None) => (0, 0),
        other => panic!("neither taken nor 6: {other:x?}"),
    }
}

// ---- both

/// The calls of the shared domain by operation, those refused here where the original panics, and the differences.
#[derive(Default)]
pub struct Tally {
    pub shared: BTreeMap<&'static str, u64>,
    pub panics: BTreeMap<&'static str, u64>,
    pub wrong: u64,
}

impl Tally {
    fn same<T: PartialEq + Debug>(&mut self, what: &'static str, input: impl Debug, ours: T, theirs: T) {
        *self.shared.entry(what).or_default() += 1;
        self.check(what, input, ours, theirs);
    }

    /// Ours is a number and a word; on 20 the word is the entry as it came.
    fn refusable(&mut self, what: &'static str, input: (u64, u64, u64), ours: (u64, u64), theirs: Option<u64>) {
        match theirs {
            Some(w) => self.same(what, input, ours, (0, w)),
            None => {
                *self.panics.entry(what).or_default() += 1;
                self.check(what, input, ours, (REFUSED, input.0));
            }
        }
    }

    fn check<T: PartialEq + Debug>(&mut self, what: &str, input: impl Debug, ours: T, theirs: T) {
        if ours != theirs {
            println!("DIFFERENCE: {what} of {input:x?}: ours {ours:x?}, the original {theirs:x?}");
            self.wrong += 1;
        }
    }

    pub fn calls(&self) -> u64 {
        self.shared.values().sum()
    }
}

/// One call of each operation.
pub fn round(r: &mut Random, t: &mut Tally) {
    let word = r.word();
    t.same("is_present", word, archwend::PageTableEntry::from(word).is_present(), entry(word).is_present());
    t.same("is_large_page", word, archwend::PageTableEntry::from(word).is_large_page(), entry(word).is_large_page());
    t.same("gpa", word, library::gpa(word), gpa(word));
    t.same("clear", word, Some(library::clear(word)), clear(word));
    set_one(r, t, word);
    leaf_one(r, t);
    let (gva, level) = (r.word(), r.below(5));
    let theirs = (0, index(gva, level as u8).expect("no panic"));
    t.same("get_amd64_pte_index", (gva, level), library::get_amd64_pte_index(gva, level), theirs);
    size_one(r, t);
    table_one(r, t);
    let mut mask = r.word() as u32;
    if r.percent(50) {
        mask &= r.word() as u32;
    }
    let ours = archwend::extract_individual_masks(mask).collect::<Vec<_>>();
    t.same("extract_individual_masks", mask, ours, original::extract_individual_masks(mask));
}

/// In the shared domain an address has no bit past 51.
fn set_one(r: &mut Random, t: &mut Tally, word: u64) {
    let kind = r.below(4);
    let unit = if kind == 3 { 4096 } else { span(kind as usize) };
    let mut a = r.word() & FIELD;
    if r.percent(90) {
        a -= a % unit;
    }
    if r.percent(5) {
        a |= 1 << r.below(12);
    }
    t.refusable("set_entry", (word, kind, a), library::set_entry(word, kind, a), set_entry(word, kind, a));
    let mut a = r.word() & FIELD;
    if r.percent(5) {
        a |= 1 << r.of(&[0, 11, 52, 63]);
    }
    t.refusable("set_addr", (word, a, 0), library::set_addr(word, a), set_addr(word, a));
}

/// In the shared domain neither the entry nor the address has field bits below the level's field.
fn leaf_one(r: &mut Random, t: &mut Tally) {
    let level = r.below(3);
    let field = leaf_field(level as usize);
    let word = r.word() & (!FIELD | field);
    t.same("leaf_gpa", (word, level), library::leaf_gpa(word, level), gpa(word));
    let mut a = r.word() & field;
    if r.percent(5) {
        a |= 1 << r.of(&[0, 11, 52, 63]);
    }
    t.refusable("set_leaf_addr", (word, level, a), library::set_leaf_addr(word, level, a), set_addr(word, a));
}

/// A leaf's address is the sum of what its entries' levels map, each times the entry's place; so that level 3 shows too.
fn size_one(r: &mut Random, t: &mut Tally) {
    let path: Vec<usize> = (0..r.within(2, 4)).map(|_| r.below(512) as usize).collect();
    let level = 4 - path.len() as u64;
    let size = |l: u64| {
        let (n, s) = library::mapping_size(l);
        assert_eq!(n, 0);
        s
    };
    let ours = (path.iter().enumerate().map(|(d, i)| *i as u64 * size(3 - d as u64)).sum(), size(level));
    // At least what the leaf maps, and no multiple of it.
    let offset = (span(level as usize) * r.within(1, 9) + r.within(1, 4095)) as i64;
    t.same("mapping_size", (&path, offset), ours, leaf_at(&path, offset));
}

/// The base of a region and how many tables it has.
pub fn some_region(r: &mut Random) -> (u64, u64) {
    (r.below(1 << 35) * 4096, r.within(1, 6))
}

/// An address of the region, or one a little outside.
pub fn some_address(r: &mut Random, gpa: u64, count: u64) -> u64 {
    (gpa + r.below(4096 * (count + 1))).wrapping_sub(r.of(&[0, 0, 2048]))
}

fn table_one(r: &mut Random, t: &mut Tally) {
    let (gpa, count) = some_region(r);
    let address = some_address(r, gpa, count);
    let ours = library::calculate_page_table_index(Region { gpa, size: count * 4096, used: count * 4096 }, address);
    t.same("calculate_page_table_index", (gpa, count, address), ours, root_at(gpa, count, address));
    // Any region that ends below 2^64, and an address in it, at its ends or anywhere.
    let size = r.word() >> r.below(64);
    let gpa = r.below(u64::MAX - size);
    let address = match r.below(4) {
        0 => r.word(),
        1 => gpa.wrapping_sub(r.below(2)),
        2 => (gpa + size).wrapping_sub(r.below(2)),
        _ => gpa + r.below(size),
    };
    // Its image is of `used` bytes: none.
    let theirs = PageTableRelocationBuilder::new(gpa, size, 0, 0, Vtl::Vtl0).contains(address);
    let ours = library::calculate_page_table_index(Region { gpa, size, used: 0 }, address).0;
    t.same("contains", (gpa, size, address), ours, theirs as u64);
}
