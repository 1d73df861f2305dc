//! vectors SEED: prints some of the original's answers, in the form that crates/vectors replays: small jobs of the shared domain,
//! so many for each answer, then some hundred calls of each operation on entries, levels, tables and masks. Lines are words in
//! hexadecimal.

use compare::entries::{clear, entry, gpa, index, leaf_at, root_at, set_addr, set_entry, some_address, some_region};
use compare::{difference, in_shared_domain, ours};
use jobs::random::{job, Random};
use jobs::{document, run, words, Answer, Built, Job};

/// The number, whether leaves were merged, and how many jobs are wanted.
const WANTED: [(u64, bool, usize); 5] = [(0, false, 60), (0, true, 30), (6, false, 10), (12, false, 25), (19, false, 25)];

// What a line is, as crates/vectors names it.
const REGION_LINE: u64 = 1;
const IMAGE_LINE: u64 = 2;
const RANGE_LINE: u64 = 3;
const CPU_LINE: u64 = 4;
const BUILD_LINE: u64 = 5;
const OUTPUT_LINE: u64 = 6;
const BLANK_LINE: u64 = 7;
const LOAD_LINE: u64 = 8;
const FRESH_LINE: u64 = 9;
const SET_LINE: u64 = 10;
const INDEX_LINE: u64 = 11;
const READ_LINE: u64 = 12;
const MASK_LINE: u64 = 13;
const PLACE_LINE: u64 = 14;
const BITS_LINE: u64 = 15;
const CLEAR_LINE: u64 = 16;
const SIZE_LINE: u64 = 17;
const TABLE_LINE: u64 = 18;

fn small(job: &Job, image: &[u64]) -> bool {
    job.used <= 0x8000
        && job.size <= 0x20000
        && job.ranges.len() <= 20
        && image.iter().filter(|w| **w != 0).count() <= 24
        && job.loads.iter().all(|l| l.data.len() <= 8192)
}

fn print_words(kind: u64, list: &[u64]) {
    for (k, w) in list.iter().enumerate().filter(|(_, w)| **w != 0) {
        println!("{kind:x} {k:x} {w:x}");
    }
}

fn print_job(job: &Job, image: &[u64], theirs: &Answer) {
    println!("{REGION_LINE:x} {:x} {:x} {:x}", job.gpa, job.size, job.used);
    // The pages are given as words; the loads that changed nothing as loads.
    for (l, n) in job.loads.iter().zip(&theirs.loads) {
        if l.data.is_empty() || *n != Ok(0) {
            println!("{LOAD_LINE:x} {:x} {:x} {:x}", l.gpa, l.data.len(), n.as_ref().expect("no panic"));
        }
    }
    print_words(IMAGE_LINE, image);
    for r in &job.ranges {
        println!("{RANGE_LINE:x} {:x} {:x} {:x}", r.0, r.1, r.2);
    }
    println!("{CPU_LINE:x} {:x} {:x} {:x}", job.cr3, job.cr4, job.table_offset);
    match &theirs.built {
        Built::Tables { bytes, merged } => {
            println!("{BUILD_LINE:x} 0 {:x} {merged:x}", bytes.len());
            print_words(OUTPUT_LINE, &words(bytes));
        }
        Built::Refused(n, place) => {
            println!("{BUILD_LINE:x} {n:x} 0 0");
            if let Some((va, size, offset)) = place {
                println!("{PLACE_LINE:x} {va:x} {size:x} {offset:x}");
            }
        }
        Built::Panic(_) => unreachable!(),
    }
    println!("{BLANK_LINE:x}");
}

/// How many lines of each operation there are.
const EACH: u64 = 300;

fn print_entries(r: &mut Random) {
    for i in 0..EACH {
        let kind = i % 4;
        let unit = if kind == 3 { 4096 } else { document::span(kind as usize) };
        let a = (r.word() & document::FIELD) / unit * unit;
        println!("{FRESH_LINE:x} {kind:x} {a:x} {:x}", set_entry(r.word(), kind, a).expect("no panic"));
        let (word, a, gva) = (r.word(), r.word() & document::FIELD, r.word());
        let (present, address) = gpa(word);
        println!("{READ_LINE:x} {word:x} {present:x} {address:x}");
        println!("{SET_LINE:x} {word:x} {a:x} {:x}", set_addr(word, a).expect("no panic"));
        println!("{INDEX_LINE:x} {gva:x} {kind:x} {:x}", index(gva, kind as u8).expect("no panic"));
        println!("{BITS_LINE:x} {word:x} {:x} {:x}", entry(word).is_present() as u64, entry(word).is_large_page() as u64);
        println!("{CLEAR_LINE:x} {word:x} {:x}", clear(word).expect("no panic"));
    }
    for i in 0..EACH {
        let level = i % 4;
        let mut path: Vec<usize> = (level..4).map(|_| r.below(512) as usize).collect();
        // A root's entry is no leaf: what it maps shows in the address of the first leaf below entry `at`.
        let at = r.within(1, 511) as usize;
        if level == 3 {
            path = vec![at, 0];
        }
        let (va, size) = leaf_at(&path, document::span(level as usize) as i64 + 1);
        println!("{SIZE_LINE:x} {level:x} {:x}", if level == 3 { va / at as u64 } else { size });
    }
    for _ in 0..EACH / 10 {
        let (at, count) = some_region(r);
        println!("{REGION_LINE:x} {at:x} {:x} {:x}", count * 4096, count * 4096);
        for _ in 0..10 {
            let address = some_address(r, at, count);
            let (inside, number) = root_at(at, count, address);
            println!("{TABLE_LINE:x} {address:x} {inside:x} {number:x}");
        }
    }
    let mut masks = vec![0, 1, 0x8000_0000, 0x8000_0001, 0x0001_1000, u32::MAX];
    masks.extend((0..30).map(|_| (r.word() & r.word()) as u32));
    for mask in masks {
        let bits = original::extract_individual_masks(mask);
        for i in 0..(bits.len() + 1).min(32) {
            println!("{MASK_LINE:x} {mask:x} {i:x} {:x}", bits.get(i).unwrap_or(&0));
        }
    }
}

fn main() {
    let seed: u64 = std::env::args().nth(1).and_then(|s| s.parse().ok()).unwrap_or(1);
    jobs::quiet();
    let mut left = WANTED;
    let r = &mut Random(seed);
    while left.iter().any(|w| w.2 > 0) {
        let j = job(r, false);
        let mine = ours(&j, 1000);
        let image = words(&mine.image);
        if !small(&j, &image) || !in_shared_domain(&j, &mine) {
            continue;
        }
        let theirs = run(&j);
        assert_eq!(difference(&mine, &theirs), None, "compare.sh finds it too");
        let (merged, moved) = mine.built.as_ref().map_or((0, 0), |b| (b.0.merged, b.0.moved));
        // Accepted builds that move nothing say little.
        if mine.number() == 0 && moved == 0 {
            continue;
        }
        if let Some(w) = left.iter_mut().find(|w| w.0 == mine.number() && w.1 == (merged > 0) && w.2 > 0) {
            w.2 -= 1;
            print_job(&j, &image, &theirs);
        }
    }
    print_entries(r);
}
