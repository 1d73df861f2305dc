//! The Rust's recorded answers (crates/vectors/data) through the public calls.
#![cfg(feature = "alloc")]

use archwend::*;
use std::collections::BTreeMap;

// What a line is, as crates/vectors names it.
const REGION_LINE: u64 = 1;
const IMAGE_LINE: u64 = 2;
const RANGE_LINE: u64 = 3;
const CPU_LINE: u64 = 4;
const BUILD_LINE: u64 = 5;
const OUTPUT_LINE: u64 = 6;
const BLANK_LINE: u64 = 7;
const LOAD_LINE: u64 = 8;
const FRESH_LINE: u64 = 9;
const SET_LINE: u64 = 10;
const INDEX_LINE: u64 = 11;
const READ_LINE: u64 = 12;
const MASK_LINE: u64 = 13;
const PLACE_LINE: u64 = 14;
const BITS_LINE: u64 = 15;
const CLEAR_LINE: u64 = 16;
const SIZE_LINE: u64 = 17;
const TABLE_LINE: u64 = 18;

/// The words of the tables that are not 0.
fn words(bytes: &[u8]) -> BTreeMap<u64, u64> {
    let word = |c: &[u8]| c.iter().rev().fold(0, |w, b| w << 8 | *b as u64);
    bytes.chunks(8).map(word).enumerate().filter(|(_, w)| *w != 0).map(|(k, w)| (k as u64, w)).collect()
}

fn kind(number: u64, address: u64) -> PageTableEntryType {
    match number {
        0 => PageTableEntryType::Leaf4kPage(address),
        1 => PageTableEntryType::Leaf2MbPage(address),
        2 => PageTableEntryType::Leaf1GbPage(address),
        3 => PageTableEntryType::Pde(address),
        other => panic!("no such kind: {other:x}"),
    }
}

/// A line of an operation on an entry, a level, the region's tables or a mask.
fn operation(w: &[u64], region: Region) {
    let mut entry = PageTableEntry::from(if w[0] == FRESH_LINE { 0 } else { w[1] });
    match w[0] {
        FRESH_LINE => assert_eq!(entry.set_entry(kind(w[1], w[2])).map(|()| entry), Ok(w[3].into())),
        SET_LINE => assert_eq!(entry.set_addr(w[2]).map(|()| entry), Ok(w[3].into())),
        INDEX_LINE => assert_eq!(get_amd64_pte_index(w[1], w[2]), Ok(w[3])),
        READ_LINE => assert_eq!(entry.gpa(), (w[2] == 1).then_some(w[3])),
        MASK_LINE => assert_eq!(extract_individual_masks(w[1] as u32).nth(w[2] as usize).unwrap_or(0) as u64, w[3]),
        BITS_LINE => assert_eq!((entry.is_present(), entry.is_large_page()), (w[2] == 1, w[3] == 1)),
        CLEAR_LINE => {
            entry.clear();
            assert_eq!(u64::from(entry), w[2]);
        }
        SIZE_LINE => assert_eq!(mapping_size(w[1]), Ok(w[2])),
        TABLE_LINE => assert_eq!(region.calculate_page_table_index(w[1]), (w[2] == 1).then_some(w[3] as usize)),
        other => panic!("no such line: {other:x}"),
    }
}

#[test]
fn the_recorded_answers() {
    let file = concat!(env!("CARGO_MANIFEST_DIR"), "/../crates/vectors/data/vectors");
    let text = std::fs::read_to_string(file).expect("the vectors");
    let mut region = Region::default();
    let (mut entries, mut ranges, mut wanted, mut loads) = (BTreeMap::new(), Vec::new(), BTreeMap::new(), Vec::new());
    let (mut cpu, mut offset, mut place, mut answer) = (CpuPagingState::default(), 0, None, [0; 3]);
    let (mut builds, mut operations) = (0, 0);
    for line in text.lines() {
        let mut w: Vec<u64> = line.split(' ').map(|x| u64::from_str_radix(x, 16).expect("hexadecimal")).collect();
        w.resize(4, 0);
        match w[0] {
            REGION_LINE => {
                region = Region { gpa: w[1], size: w[2], used: w[3] };
                entries.clear();
                ranges.clear();
                wanted.clear();
                loads.clear();
                place = None;
            }
            IMAGE_LINE => drop(entries.insert(w[1], w[2])),
            RANGE_LINE => ranges.push((w[1]..=w[2], w[3] as i64)),
            CPU_LINE => {
                cpu = CpuPagingState { cr3: w[1], cr4: w[2] };
                offset = w[3] as i64;
            }
            BUILD_LINE => answer = [w[1], w[2], w[3]],
            OUTPUT_LINE => drop(wanted.insert(w[1], w[2])),
            LOAD_LINE => loads.push((w[1], w[2] as usize, w[3])),
            PLACE_LINE => place = Some((w[1], w[2], w[3] as i64)),
            BLANK_LINE => {
                let mut b = PageTableRelocationBuilder::new(region.gpa, region.size, region.used).unwrap();
                for page in 0..region.used / 4096 {
                    let data: Vec<u8> = (0..512).flat_map(|i| entries.get(&(512 * page + i)).unwrap_or(&0).to_le_bytes()).collect();
                    b.set_page_data(region.gpa + 4096 * page, &data).unwrap();
                }
                for (gpa, len, number) in &loads {
                    assert_eq!(b.set_page_data(*gpa, &vec![0x5a; *len]).err().map_or(0, |e| e.number), *number);
                }
                match b.build_and_report(offset, &ranges, cpu) {
                    Ok((tables, report)) => {
                        assert_eq!(answer, [0, report.used, report.merged]);
                        assert_eq!(tables.len() as u64, report.used);
                        assert_eq!(words(&tables), wanted);
                    }
                    Err(e) => {
                        assert_eq!(answer, [e.number, 0, 0]);
                        let at = e.place.map(|p| (p.address, p.mapping_size().expect("a level"), p.offset));
                        assert!(place.is_none() || place == at);
                    }
                }
                builds += 1;
            }
            _ => {
                operation(&w, region);
                operations += 1;
            }
        }
    }
    assert_eq!(builds, 150);
    assert!(operations > 2000);
}
