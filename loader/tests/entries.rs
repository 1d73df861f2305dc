//! Entries, tables of them, levels, a region's tables and masks, through the public calls.

use archwend::*;
use std::collections::HashSet;
use PageTableEntryType::*;

/// A word with each bit alone, all but it, and some entries.
fn words() -> Vec<u64> {
    let bits = (0..64).flat_map(|b| [1u64 << b, !(1 << b)]);
    bits.chain([0, u64::MAX, 0x101023, 0x2000e3, 0x8000_0000_0000_0063]).collect()
}

const FIELD: u64 = 0x000f_ffff_ffff_f000;

fn fresh(kind: PageTableEntryType) -> Result<u64, u64> {
    let mut entry = PageTableEntry::from(0xa5a5);
    let answer = entry.set_entry(kind);
    // A refusal leaves it as it came.
    assert!(answer.is_ok() || entry == 0xa5a5.into());
    answer.map(|()| entry.into()).map_err(|e| e.number)
}

#[test]
fn fresh_entries() {
    assert_eq!(fresh(Leaf4kPage(0x3000)), Ok(0x3063));
    assert_eq!(fresh(Leaf2MbPage(0x400000)), Ok(0x4000e3));
    assert_eq!(fresh(Leaf1GbPage(0x80000000)), Ok(0x800000e3));
    assert_eq!(fresh(Pde(0x103000)), Ok(0x103023));
    for a in words() {
        let due = |size: u64, flags| if a % size == 0 && a < 1 << 52 { Ok(a + flags) } else { Err(20) };
        assert_eq!(fresh(Leaf4kPage(a)), due(X64_PAGE_SIZE, 0x63));
        assert_eq!(fresh(Leaf2MbPage(a)), due(X64_LARGE_PAGE_SIZE, 0xe3));
        assert_eq!(fresh(Leaf1GbPage(a)), due(X64_1GB_PAGE_SIZE, 0xe3));
        assert_eq!(fresh(Pde(a)), due(X64_PAGE_SIZE, 0x23));
    }
}

#[test]
fn bits_and_addresses() {
    for word in words() {
        let entry = PageTableEntry::from(word);
        assert_eq!(u64::from(entry), word);
        assert_eq!((entry.is_present(), entry.is_large_page()), (word & 1 != 0, word & 0x80 != 0));
        assert_eq!(entry.gpa(), if word & 1 != 0 { Some(word & FIELD) } else { None });
        let mut cleared = entry;
        cleared.clear();
        assert_eq!(cleared, PageTableEntry::default());
        for a in words() {
            let mut set = entry;
            let answer = set.set_addr(a).map_err(|e| (e.number, e.place, e.rule));
            if a & !FIELD == 0 {
                assert_eq!((answer, u64::from(set)), (Ok(()), (word & !FIELD) | a));
            } else {
                assert_eq!((answer, set), (Err((20, None, None)), entry));
            }
        }
    }
    let shown = "PageTableEntry { entry: 2097379, is_present: true, is_large_page: true, gpa: Some(2097152) }";
    assert_eq!(format!("{:?}", PageTableEntry::from(0x2000e3)), shown);
    assert_eq!(std::mem::size_of::<PageTableEntry>(), 8);
}

/// The field of a leaf's address, by its level.
const LEAF_FIELDS: [u64; 3] = [FIELD, 0x000f_ffff_ffe0_0000, 0x000f_ffff_c000_0000];

#[test]
fn leaves() {
    for word in words() {
        for level in 0..3 {
            let field = LEAF_FIELDS[level as usize];
            let entry = PageTableEntry::from(word);
            assert_eq!(entry.leaf_gpa(level), Ok(if word & 1 != 0 { Some(word & field) } else { None }));
            for a in words() {
                let mut set = entry;
                let answer = set.set_leaf_addr(level, a).map_err(|e| (e.number, e.place, e.rule));
                if a & !field == 0 {
                    assert_eq!((answer, u64::from(set)), (Ok(()), (word & !field) | a));
                } else {
                    assert_eq!((answer, set), (Err((20, None, None)), entry));
                }
            }
        }
    }
    // No leaf has a level above 2, be it present or not.
    for level in [3, 4, 5, 1 << 32, u64::MAX] {
        for word in [0, 0x2010e3] {
            let mut entry = PageTableEntry::from(word);
            assert_eq!(entry.set_leaf_addr(level, 0).unwrap_err().number, Error::ENTRY);
            assert_eq!((entry.leaf_gpa(level).unwrap_err().number, entry), (Error::ENTRY, word.into()));
        }
    }
}

#[test]
fn tables() {
    let mut table = PageTable::default();
    assert_eq!(table.to_bytes(), [0; 4096]);
    for (i, entry) in table.iter_mut().enumerate() {
        *entry = (0x0102_0304_0506_0700 + i as u64).into();
    }
    let bytes = table.to_bytes();
    assert_eq!(bytes[..8], [0, 7, 6, 5, 4, 3, 2, 1]);
    assert_eq!(bytes[511 * 8..], [0xff, 8, 6, 5, 4, 3, 2, 1]);
    assert_eq!(PageTable::from_bytes(&bytes), table);
    assert_eq!((table.iter().len(), u64::from(table[3])), (512, 0x0102_0304_0506_0703));
    table[3].clear();
    assert_ne!(PageTable::from_bytes(&bytes), table);
    table[3] = 0x0102_0304_0506_0703.into();
    // The specification's example: address 0x603000 has the indices 0, 0, 0, 3, 3 from level 4 down.
    for (level, i) in [(0, 3), (1, 3), (2, 0), (3, 0), (4, 0)] {
        let mut marked = table;
        *marked.entry(0x603000, level).unwrap() = 5.into();
        table[i] = 5.into();
        assert_eq!(marked, table);
        table = PageTable::from_bytes(&bytes);
    }
    for level in 5..=255 {
        assert_eq!(table.entry(0, level).unwrap_err().number, Error::ENTRY);
    }
    let set: HashSet<PageTable> = [table, PageTable::default(), table].into_iter().collect();
    assert_eq!((set.len(), std::mem::size_of::<PageTable>()), (2, 4096));
}

#[test]
fn levels() {
    let sizes = [X64_PAGE_SIZE, X64_LARGE_PAGE_SIZE, X64_1GB_PAGE_SIZE, 1 << 39, 1 << 48];
    assert_eq!(sizes[..3], [1 << 12, 1 << 21, 1 << 30]);
    for (level, size) in (0..).zip(sizes) {
        assert_eq!(mapping_size(level), Ok(size));
        for a in words() {
            assert_eq!(get_amd64_pte_index(a, level), Ok(a / size % 512));
        }
    }
    for level in [5, 6, 64, u64::MAX] {
        assert_eq!(mapping_size(level).unwrap_err().number, 20);
        assert_eq!(get_amd64_pte_index(0, level).unwrap_err().number, 20);
    }
}

#[test]
fn tables_of_a_region() {
    let region = Region { gpa: 0x100000, size: 0x3000, used: 0x1000 };
    let index = |a| region.calculate_page_table_index(a);
    assert_eq!([0xfffff, 0x100000, 0x100fff, 0x101000, 0x102fff].map(index), [None, Some(0), Some(0), Some(1), Some(2)]);
    assert_eq!([0, 0x103000, u64::MAX].map(index), [None; 3]);
    // No rule is asked.
    let last = Region { gpa: u64::MAX - 1, size: u64::MAX, used: 7 };
    let index = |a| last.calculate_page_table_index(a);
    assert_eq!([0, u64::MAX - 2, u64::MAX - 1, u64::MAX].map(index), [None, None, Some(0), Some(0)]);
}

#[test]
fn masks() {
    for mask in [0, 1, 0x11000, 0x8000_0001, u32::MAX, 0x5a5a_5a5a] {
        let single: Vec<u32> = (0..32).map(|b| 1 << b).filter(|b| mask & b != 0).collect();
        assert_eq!(extract_individual_masks(mask).len(), single.len());
        assert!(extract_individual_masks(mask).eq(single));
    }
}
