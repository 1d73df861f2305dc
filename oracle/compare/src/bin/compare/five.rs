//! Five levels, which the original does not build, held to what it does with four: jobs of the shared domain are made into
//! five-level ones whose answer follows from the original's. In two ways:
//!
//! - Under one more table, the page before the region: it is the new root, and its entry k leads to the old one. Every address,
//!   of the tables and of what they map, is k * 2^48 higher.
//! - A level higher: the tables stay where they are, and what they map lies 512 times as high and is 512 times as long. All leaves
//!   are large then, and get bits below their address.

use super::LARGE_EVERY;
use compare::{difference, in_shared_domain, ours, Ours};
use jobs::document::{entries, is_pointer, leaves, span, FIELD, LA57};
use jobs::random::{job, Random};
use jobs::{bytes, print, run, show, words, Answer, Built, Job, Load};
use std::collections::BTreeMap;

/// A five-level job, the answer that is due, how many tables more are reached, and what becomes of a place.
struct Five {
    job: Job,
    due: Answer,
    more: u64,
    place: Box<dyn Fn(&mut archwend::Place)>,
}

/// The present entry with its address so much higher.
fn raised(word: u64, by: u64) -> u64 {
    if word & 1 == 0 {
        return word;
    }
    (word & !FIELD) | (word.wrapping_add(by) & FIELD)
}

/// Why one more table would change the answer, if it would.
fn stopper(job: &Job, image: &[u64]) -> Option<&'static str> {
    let Job { gpa, size, .. } = *job;
    let before = match gpa.checked_sub(4096) {
        Some(before) => before,
        None => return Some("no page before the region"),
    };
    let moved = before + job.table_offset as u64;
    let leads = |a: u64| a == before || (a == moved && a.wrapping_sub(gpa) >= size);
    let pointers = entries(job, image).into_iter().filter(|e| is_pointer(image[e.2], e.1));
    let ends_before = leaves(job, image).iter().any(|l| l.0 + span(l.1) == gpa);
    let reasons = [
        // The region has too many tables: 1.
        (size == 512 * 4096, "512 tables"),
        // It is in the region now.
        (job.cr3 & !0xfff == before, "cr3 in the page before"),
        // It is over the region: 8.
        (job.ranges.iter().any(|r| r.0 < gpa && r.1 >= before), "a range over the page before"),
        // To the new root, which is reached: 10; or from outside to where it moves: 11.
        (pointers.map(|e| image[e.2] & FIELD).any(leads), "a pointer to the page before"),
        // The region's own range is longer and touches it.
        (job.table_offset != 0 && ends_before, "a leaf that ends before the region"),
    ];
    reasons.iter().find(|r| r.0).map(|r| r.1)
}

/// A root whose entry k leads to the address; the other entries are absent, whatever else they say.
fn root(r: &mut Random, k: u64, to: u64) -> Vec<u64> {
    let mut list = vec![0; 512];
    for _ in 0..r.below(4) {
        list[r.below(512) as usize] = r.word() & !1;
    }
    // Bit 7 means nothing here.
    let flags = if r.percent(50) { 0x23 } else { (r.word() & !FIELD) | 1 };
    list[k as usize] = flags | (to & FIELD);
    list
}

fn under(r: &mut Random, job: &Job, theirs: &Answer) -> Five {
    let any = r.below(16);
    let k = r.of(&[0, 1, 15, any]);
    let up = move |a: u64| a.wrapping_add(k << 48);
    let all_up = |list: &[u64]| list.iter().map(|w| raised(*w, k << 48)).collect::<Vec<_>>();
    let before = job.gpa - 4096;
    let mut root = root(r, k, up(job.cr3));
    let page = |data: &[u8]| if data.len() == 4096 { bytes(&all_up(&words(data))) } else { data.to_vec() };
    let (mut loads, mut answers) = (vec![Load { gpa: up(before), data: bytes(&root) }], vec![Ok(0)]);
    // A load of the page before is no longer outside.
    for (l, n) in job.loads.iter().zip(&theirs.loads).filter(|(l, _)| l.gpa != before) {
        loads.push(Load { gpa: up(l.gpa), data: page(&l.data) });
        answers.push(n.clone());
    }
    let built = match &theirs.built {
        Built::Tables { bytes: list, merged } => {
            root[k as usize] = raised(root[k as usize], job.table_offset as u64);
            Built::Tables { bytes: [bytes(&root), bytes(&all_up(&words(list)))].concat(), merged: *merged }
        }
        Built::Refused(n, place) => Built::Refused(*n, place.map(|p| (up(p.0), p.1, p.2))),
        Built::Panic(m) => Built::Panic(m.clone()),
    };
    let mut five = Job { loads, cr3: up(before) + job.cr3 % 4096, cr4: job.cr4 | LA57, ..job.clone() };
    if theirs.built == Built::Refused(6, None) {
        five.cr3 = up(job.cr3);
    }
    (five.gpa, five.size, five.used) = (up(before), job.size + 4096, job.used + 4096);
    five.ranges.iter_mut().for_each(|r| (r.0, r.1) = (up(r.0), up(r.1)));
    Five { job: five, due: Answer { loads: answers, built }, more: 1, place: Box::new(move |p| p.address = up(p.address)) }
}

fn pages(gpa: u64, image: &[u64]) -> Vec<Load> {
    let page = |(i, t): (usize, &[u64])| Load { gpa: gpa + 4096 * i as u64, data: bytes(t) };
    image.chunks(512).enumerate().map(page).collect()
}

/// The four-level job changed so that it can stand a level higher.
fn fitted(job: &Job, image: &[u64]) -> Job {
    let Job { gpa, size, .. } = *job;
    let mut list = image.to_vec();
    for (_, level, at) in leaves(job, image) {
        // There are no leaves of 512 GiB; and leaves of 2 MiB have bit 7, which those of 4 KiB may have.
        list[at] = if level == 2 { 0 } else { list[at] | 0x80 };
    }
    let mut fit = Job { loads: pages(gpa, &list), ..job.clone() };
    // Ranges and new spans are below 2^52 then.
    fit.ranges.retain_mut(|r| {
        let (low, end) = (1 << 43, (r.1 | 0x1f_ffff) + 1);
        if end + r.2 as u64 > low {
            r.2 &= (1 << 42) - 1;
        }
        let over = r.0 << 9 < gpa + size && (r.1 << 9) + 511 >= gpa;
        end + r.2 as u64 <= low && !over
    });
    // The region stays where it is, so its own range is to touch no leaf, neither before nor after.
    let own = |a: u64, length: u64| a < gpa + size && a + length > gpa;
    if leaves(&fit, &list).iter().any(|l| own(l.0, span(l.1)) || own(l.0 << 9, span(l.1) << 9)) {
        fit.table_offset = 0;
    }
    fit
}

/// A leaf of the level as it stands a level higher. Its address is 512 times as high. Below it come flag bits of its own, 60 to 52,
/// which the original keeps in a moved leaf and compares where it merges: so the new bits are to be kept and compared too. What a
/// leaf that stays has below its address is still below it.
fn stretched_leaf(word: u64, level: usize) -> u64 {
    let flags = word >> 52 & 0x1ff;
    let low = (0..=level).map(|l| flags * span(l)).sum::<u64>();
    (word & !FIELD) | ((((word & FIELD) << 9) & FIELD) ^ low)
}

/// The words of a job's tables, with their leaves as they stand a level higher.
fn stretched(job: &Job, list: &[u64]) -> Vec<u64> {
    let mut new = list.to_vec();
    for (_, level, at) in leaves(job, list) {
        new[at] = stretched_leaf(new[at], level);
    }
    new
}

fn higher(job: &Job, image: &[u64], theirs: &Answer) -> Five {
    let mut five = Job { loads: pages(job.gpa, &stretched(job, image)), cr4: job.cr4 | LA57, ..job.clone() };
    five.ranges.iter_mut().for_each(|r| *r = (r.0 << 9, (r.1 << 9) + 511, r.2 << 9));
    let built = match &theirs.built {
        Built::Tables { bytes: list, merged } => {
            let by = job.table_offset as u64;
            let after = Job { gpa: job.gpa + by, cr3: job.cr3 + by, ..job.clone() };
            Built::Tables { bytes: bytes(&stretched(&after, &words(list))), merged: *merged }
        }
        Built::Refused(n, place) => Built::Refused(*n, place.map(|p| (p.0 << 9, p.1 << 9, p.2 << 9))),
        Built::Panic(m) => Built::Panic(m.clone()),
    };
    let place = |p: &mut archwend::Place| (p.address, p.level, p.offset) = (p.address << 9, p.level + 1, p.offset << 9);
    Five { job: five, due: Answer { loads: theirs.loads.clone(), built }, more: 0, place: Box::new(place) }
}

/// Jobs compared, by number; jobs left out, by reason; leaves moved and merged; differences.
#[derive(Default)]
struct Tally {
    builds: BTreeMap<u64, u64>,
    skipped: BTreeMap<&'static str, u64>,
    moved: u64,
    merged: u64,
    differ: u64,
}

impl Tally {
    /// Runs the job, whose four-level answers are at hand.
    fn compare(&mut self, own: u64, five: &Five, mine: &Ours) {
        let got = ours(&five.job, room(&five.job));
        let mut report = mine.built.as_ref().map(|b| b.0).map_err(|e| *e);
        match &mut report {
            Ok(r) => {
                r.used += 4096 * five.more;
                r.reached += five.more;
                self.moved += r.moved;
                self.merged += r.merged;
            }
            Err(e) => e.place.iter_mut().for_each(|p| (five.place)(p)),
        }
        *self.builds.entry(got.number()).or_default() += 1;
        let what = difference(&got, &five.due).or(got.wrong.map(str::to_string));
        let other = (got.built.map(|b| b.0) != report).then(|| format!("not {report:x?}"));
        if let Some(what) = what.or(other) {
            self.differ += 1;
            println!("DIFFERENCE in job {own}: {what}\n{}# due is:\n{}", print(&five.job), show(&five.due));
        }
    }
}

impl std::fmt::Display for Tally {
    fn fmt(&self, f: &mut std::fmt::Formatter<'_>) -> std::fmt::Result {
        let builds: Vec<String> = self.builds.iter().map(|(n, c)| format!("{n}: {c}")).collect();
        let why: Vec<String> = self.skipped.iter().map(|(why, c)| format!("{why}: {c}")).collect();
        let Tally { moved, merged, .. } = self;
        write!(f, "builds {}, {moved} leaves moved, {merged} merged; skipped: {}", builds.join(", "), why.join(", "))
    }
}

/// Room for every leaf.
fn room(job: &Job) -> usize {
    job.used as usize / 8
}

/// Until so many jobs were compared under one more table; the number of differences.
pub fn compare(build: &str, count: u64, seed: u64) -> u64 {
    let (mut one, mut other, mut drawn) = (Tally::default(), Tally::default(), 0);
    while one.builds.values().sum::<u64>() < count {
        let own = seed.wrapping_mul(1 << 32).wrapping_add(drawn);
        let r = &mut Random(own);
        let j = job(r, drawn % LARGE_EVERY == LARGE_EVERY - 1);
        drawn += 1;
        let mine = ours(&j, room(&j));
        if !in_shared_domain(&j, &mine) {
            continue;
        }
        let image = words(&mine.image);
        match stopper(&j, &image) {
            Some(why) => *one.skipped.entry(why).or_default() += 1,
            None => one.compare(own, &under(r, &j, &run(&j)), &mine),
        }
        let fit = fitted(&j, &image);
        let mine = ours(&fit, room(&fit));
        if in_shared_domain(&fit, &mine) {
            other.compare(own, &higher(&fit, &words(&mine.image), &run(&fit)), &mine);
        } else {
            *other.skipped.entry("no longer in the shared domain").or_default() += 1;
        }
    }
    let differ = one.differ + other.differ;
    println!("{build}: five levels of {drawn} jobs; under one more table: {one}; a level higher: {other}; {differ} differences");
    differ
}
