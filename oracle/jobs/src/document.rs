//! A few lines that state the specification: levels, entries, and which jobs are in the domain shared with the Rust.

use crate::{Job, Load};

pub const FIELD: u64 = 0x000f_ffff_ffff_f000;

/// The bit of cr4 that asks for five levels.
pub const LA57: u64 = 0x1000;

pub fn five_levels(job: &Job) -> bool {
    job.cr4 & LA57 != 0
}

/// The level of the root's entries.
pub fn top(job: &Job) -> usize {
    3 + five_levels(job) as usize
}

/// Where the region, the moved region, ranges and new spans end at the latest.
pub fn bound(job: &Job) -> u64 {
    1 << if five_levels(job) { 52 } else { 48 }
}

/// What one entry of the level maps.
pub fn span(level: usize) -> u64 {
    0x1000 << (9 * level)
}

/// The address field of a leaf of the level: bits 51 down to 12, to 21 or to 30. A table entry's is the whole field.
pub fn leaf_field(level: usize) -> u64 {
    FIELD & !(span(level) - 1)
}

pub fn index(address: u64, level: usize) -> usize {
    (address >> (12 + 9 * level)) as usize & 511
}

/// Present, and maps memory itself.
pub fn is_leaf(entry: u64, level: usize) -> bool {
    entry & 1 == 1 && (level == 0 || (level < 3 && entry & 0x80 != 0))
}

pub fn is_pointer(entry: u64, level: usize) -> bool {
    entry & 1 == 1 && !is_leaf(entry, level)
}

/// The present entries that a walk from the root reaches, as address, level and place among the words. A table is walked where
/// pass 1 first meets it: what it would meet again is refused.
pub fn entries(job: &Job, words: &[u64]) -> Vec<(u64, usize, usize)> {
    let mut found = Vec::new();
    let mut reached = vec![false; words.len() / 512];
    if let Some(root) = table(job, job.cr3) {
        walk(job, words, root, top(job), 0, &mut reached, &mut found);
    }
    found
}

/// Those of them that are leaves.
pub fn leaves(job: &Job, words: &[u64]) -> Vec<(u64, usize, usize)> {
    let mut found = entries(job, words);
    found.retain(|&(_, level, at)| is_leaf(words[at], level));
    found
}

/// The table of the region that has the address.
fn table(job: &Job, address: u64) -> Option<usize> {
    (address >= job.gpa && address - job.gpa < job.size).then(|| ((address - job.gpa) / 4096) as usize)
}

fn walk(job: &Job, words: &[u64], t: usize, level: usize, base: u64, reached: &mut [bool], found: &mut Vec<(u64, usize, usize)>) {
    if t >= reached.len() || reached[t] {
        return;
    }
    reached[t] = true;
    for i in 0..512 {
        let e = words[512 * t + i];
        if e & 1 == 0 {
            continue;
        }
        let address = base + i as u64 * span(level);
        found.push((address, level, 512 * t + i));
        if is_pointer(e, level) {
            if let Some(below) = table(job, e & FIELD) {
                walk(job, words, below, level - 1, address, reached, found);
            }
        }
    }
}

/// The ranges in ascending order, the region's own included where it joins.
fn all_ranges(job: &Job) -> Vec<(u64, u64, i64)> {
    let mut all = job.ranges.clone();
    if job.table_offset != 0 {
        all.push((job.gpa, job.gpa + job.size - 1, job.table_offset));
    }
    all.sort();
    all
}

/// Those of them that touch a leaf.
fn touching(all: &[(u64, u64, i64)], address: u64, level: usize) -> impl Iterator<Item = &(u64, u64, i64)> {
    let end = address + (span(level) - 1);
    let from = all.partition_point(|r| r.1 < address);
    all[from..].iter().take_while(move |r| r.0 <= end)
}

/// Whether each leaf is touched by at most one range, the region's own included where it joins.
pub fn touched_once(job: &Job, words: &[u64]) -> bool {
    let all = all_ranges(job);
    leaves(job, words).iter().all(|&(a, level, _)| touching(&all, a, level).count() <= 1)
}

/// The leaves that are to move: the magnitude of the offset of the lowest range that touches one is at least what it maps.
pub fn to_move(job: &Job, words: &[u64]) -> Vec<(u64, usize, usize)> {
    let all = all_ranges(job);
    let mut found = leaves(job, words);
    found.retain(|&(a, level, _)| touching(&all, a, level).next().map_or(false, |r| r.2.unsigned_abs() >= span(level)));
    found
}

/// Whether a leaf that is to move has field bits below its level's field: they stay here, and the original clears them. In a
/// refused job too. At 19 the answers can differ: a leaf that was merged before it here is a panic there. At 12 they can't, but
/// one line for all needs no number. At 6 nothing is walked, so there are no leaves.
pub fn low_bits(job: &Job, words: &[u64]) -> bool {
    to_move(job, words).iter().any(|&(_, level, at)| words[at] & FIELD & !leaf_field(level) != 0)
}

/// Whether a load is in the shared domain, given its number. Whatever cr4 is: the original's loads have no bound, and where the
/// region ends past ours the number is 1.
pub fn load_shared(job: &Job, load: &Load, number: u64) -> bool {
    let at = load.gpa.wrapping_sub(job.gpa);
    [0, 2, 3].contains(&number) && load.gpa % 4096 == 0 && !(job.used..job.size).contains(&at)
}

/// Whether the job is in the shared domain, given the numbers that the proved code answered and the image it was given. Builds of
/// five levels, where the original panics, are not.
pub fn shared(job: &Job, loads: &[u64], built: u64, image: &[u64]) -> bool {
    !five_levels(job)
        && job.loads.iter().zip(loads).all(|(l, n)| load_shared(job, l, *n))
        && [0, 6, 12, 19].contains(&built)
        && job.table_offset >= 0
        && job.ranges.iter().all(|r| r.2 >= 0)
        && touched_once(job, image)
        && !low_bits(job, image)
}
