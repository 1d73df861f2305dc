//! Two images held against each other, through the public calls: the specification's example, lengths, lists of any length, single
//! entries and bits, and random images, each against a comparison that is written here.
#![cfg(feature = "alloc")]

mod common;

use archwend::*;
use common::*;
use std::ptr;

const LARGEST: usize = 0x200000;

/// What differs, read off the bytes.
fn differing(older: &[u8], newer: &[u8]) -> Vec<Change> {
    let word = |entry: &[u8]| entry.iter().rev().fold(0, |w, b| w << 8 | *b as u64);
    let entries = older.chunks(8).zip(newer.chunks(8)).enumerate().map(|(k, (a, b))| (k as u64, word(a), word(b)));
    let change = |(k, before, after)| Change { table: k / 512, entry: k % 512, before, after };
    entries.filter(|(_, before, after)| before != after).map(change).collect()
}

/// The newer one of the first pages that differ.
fn first_page<'n>(older: &[u8], newer: &'n [u8]) -> &'n [u8] {
    older.chunks(4096).zip(newer.chunks(4096)).find(|(a, b)| a != b).map_or(&[], |(_, b)| b)
}

/// Compares with a dirty list of so many words, and looks at each of them and at what is handed back. Gives the number.
fn compare_with(older: &[u8], newer: &[u8], room: usize) -> u64 {
    let mut list = vec![0x5a5a_5a5a_5a5a_5a5a; room];
    let (number, listed) = match compare_in(older, newer, &mut list) {
        Ok(compared) => {
            let (changes, page) = (differing(older, newer), first_page(older, newer));
            assert_eq!(compared.changes().len(), changes.len());
            assert!(compared.changes().eq(changes.iter().copied()));
            // The very bytes of the newer image, no copy and not those of the older.
            assert_eq!(compared.page().len(), page.len());
            assert!(page.is_empty() || ptr::eq(compared.page(), page));
            (0, changes)
        }
        Err(e) => {
            assert_eq!(e, refusal(e.number));
            (e.number, vec![])
        }
    };
    let mut words: Vec<u64> = listed.iter().flat_map(|c| [c.table, c.entry, c.before, c.after]).collect();
    words.resize(room, 0);
    assert!(list == words);
    number
}

#[test]
fn the_checked_example() {
    let image = tables(3, &BASE);
    let build = |offset| {
        let mut output = vec![0; 0x8000];
        let region = Region { gpa: 0x100000, size: 0x8000, used: 0x3000 };
        let cpu = CpuPagingState { cr3: 0x100000, cr4: 0 };
        let report = build_in(&image, &mut output, &mut [0; 3], &[0x200000, 0x3fffff, offset], region, 0, cpu).unwrap();
        (output, report.used as usize)
    };
    let change = |table, entry, before, after| Change { table, entry, before, after };
    let up = [change(2, 1, 0x2000e3, 0), change(2, 2, 0, 0x4000e3)];
    let (output, used) = build(0x200000);
    assert_eq!(compare(&image, &output[..used]), Ok(up.to_vec()));
    let mut list = [0; 8];
    let compared = compare_in(&image, &output[..used], &mut list).unwrap();
    assert!(compared.changes().eq(up));
    assert!(ptr::eq(compared.page(), &output[0x2000..0x3000]));
    assert_eq!(compared.page(), tables(1, &[(0, 2, 0x4000e3)]));
    assert_eq!(list, [2, 1, 0x2000e3, 0, 2, 2, 0, 0x4000e3]);
    // Against the whole output: the image's free tables are zeros.
    assert_eq!(compare(&image, &output), Err(refusal(34)));
    assert_eq!(compare(&tables(8, &BASE), &output), Ok(up.to_vec()));
    // A table more: the first page that differs is the one that points to it.
    let far = [change(1, 1, 0, 0x103023), change(2, 1, 0x2000e3, 0), change(3, 1, 0, 0x402000e3)];
    let (output, used) = build(0x40000000);
    assert_eq!(compare(&image, &output[..used]), Err(refusal(34)));
    let padded = tables(4, &BASE);
    assert_eq!(compare(&padded, &output[..used]), Ok(far.to_vec()));
    let mut list = [0; 12];
    assert!(ptr::eq(compare_in(&padded, &output[..used], &mut list).unwrap().page(), &output[0x1000..0x2000]));
}

#[test]
fn nothing_differs() {
    for (older, newer) in [(vec![], vec![]), (tables(3, &BASE), tables(3, &BASE)), (vec![0xa5; LARGEST], vec![0xa5; LARGEST])] {
        for room in 0..6 {
            assert_eq!(compare_with(&older, &newer, room), 0);
            assert_eq!(compare_with(&newer, &newer, room), 0);
        }
        assert_eq!(compare(&older, &newer), Ok(vec![]));
    }
}

#[test]
fn lengths() {
    let (older, newer) = (vec![0; 2 * LARGEST], vec![1; 2 * LARGEST]);
    let number = |a: usize, b: usize, room: usize| {
        let n = compare_with(&older[..a], &newer[..b], room);
        assert_eq!(compare(&older[..a], &newer[..b]).err().map_or(0, |e| e.number), if n == 15 { 0 } else { n });
        n
    };
    // Not equal, not whole pages, too long; whether the list has room or not.
    for room in [0, 3, 4, 5, 0x1000] {
        for (a, b) in [(0, 4096), (4096, 0), (4096, 8192), (8192, 4096), (LARGEST, LARGEST - 4096), (LARGEST, LARGEST + 4096)] {
            assert_eq!(number(a, b, room), 34);
        }
        for len in [1, 8, 2048, 4088, 4095, 4097, 4104, 12287, LARGEST - 8, LARGEST + 8] {
            assert_eq!(number(len, len, room), 34);
        }
        for len in [LARGEST + 4096, 2 * LARGEST] {
            assert_eq!(number(len, len, room), 34);
        }
    }
    // Every entry of the longest images, and a list that is a word too short for them.
    assert_eq!(number(LARGEST, LARGEST, LARGEST / 2), 0);
    assert_eq!(number(LARGEST, LARGEST, LARGEST / 2 - 1), 15);
}

#[test]
fn lists_of_any_length() {
    let older = tables(3, &BASE);
    let mut newer = older.clone();
    assert_eq!(compare_with(&older, &newer, 0), 0);
    for (n, at) in [0x17, 0x2000, 0x2ff8].into_iter().enumerate() {
        newer[at] ^= 0x80;
        let needed = 4 * (n + 1);
        for room in 0..needed + 9 {
            assert_eq!(compare_with(&older, &newer, room), if room < needed { 15 } else { 0 });
        }
    }
}

#[test]
fn each_place_and_each_bit() {
    let older: Vec<u8> = (0..3 * 4096).map(|i| (i * 7 + i / 256) as u8).collect();
    for table in 0..3 {
        for entry in [0, 1, 255, 256, 510, 511] {
            for bit in 0..64 {
                let mut newer = older.clone();
                newer[4096 * table + 8 * entry + bit / 8] ^= 1 << (bit % 8);
                assert_eq!(compare_with(&older, &newer, 5), 0);
                let changes = compare(&older, &newer).unwrap();
                assert_eq!(changes.len(), 1);
                assert_eq!((changes[0].table, changes[0].entry), (table as u64, entry as u64));
                assert_eq!(changes[0].before ^ changes[0].after, 1 << bit);
            }
        }
    }
    // The last entry of a page and the first of the next.
    for k in [511, 1023] {
        let mut newer = older.clone();
        newer[8 * k + 7] ^= 1;
        newer[8 * k + 8] ^= 1;
        assert_eq!(compare_with(&older, &newer, 8), 0);
    }
}

#[test]
fn random_images() {
    let mut state = 20261115u64;
    let mut random = |below: u64| {
        state = state.wrapping_mul(6364136223846793005).wrapping_add(1442695040888963407);
        (state >> 33) % below
    };
    let mut met = [0; 2];
    for _ in 0..1000 {
        let len = 4096 * random(6) as usize;
        // Of many equal words, so that equal ones meet also where the images were made apart.
        let mut bytes: Vec<u8> = (0..2 * len).map(|_| if random(20) == 0 { random(256) as u8 } else { 0 }).collect();
        let (older, newer) = bytes.split_at_mut(len);
        if random(4) > 0 {
            newer.copy_from_slice(older);
            for _ in 0..if len > 0 { random(12) } else { 0 } {
                newer[random(len as u64) as usize] ^= 1 << random(8);
            }
        }
        let changes = differing(older, newer);
        let needed = 4 * changes.len();
        let room = (needed + random(12) as usize).saturating_sub(4);
        let number = compare_with(older, newer, room);
        assert_eq!(number, if room < needed { 15 } else { 0 });
        met[(number == 15) as usize] += 1;
        assert_eq!(compare(older, newer), Ok(changes));
    }
    assert!(met.iter().all(|n| *n > 100), "{met:?}");
}
