//! The recorded inputs of differences.txt, and classes of differences.

use crate::{build_difference, load_difference, ours, Ours};
use jobs::{document, parse, run, Answer, Job};
use std::collections::BTreeMap;

/// A recorded input: its number in docs/DIFFERENCES.md, and what each answered.
pub struct Case {
    pub name: String,
    pub input: String,
    pub job: Job,
    pub expected: BTreeMap<&'static str, String>,
}

pub const WHO: [&str; 3] = ["ours", "wraps", "checks"];

pub fn recorded(file: &str) -> Vec<Case> {
    let text = std::fs::read_to_string(file).expect("the file of recorded inputs");
    let cases = text.split("\n\n").filter(|c| c.contains("\nregion "));
    cases
        .map(|c| {
            let (mut input, mut expected) = (String::new(), BTreeMap::new());
            for l in c.lines().filter(|l| !l.is_empty()) {
                match l.split_once(' ').and_then(|(key, what)| Some((WHO.iter().find(|w| **w == key)?, what))) {
                    Some((key, what)) => drop(expected.insert(*key, what.to_string())),
                    None => input += &format!("{l}\n"),
                }
            }
            let name = input.split_whitespace().nth(1).unwrap_or("").to_string();
            Case { name, job: parse(&input).expect("a job"), input, expected }
        })
        .collect()
}

impl Case {
    /// The proved code's answer.
    pub fn ours(&self) -> Ours {
        ours(&self.job, if self.job.no_scratch { 0 } else { 1000 })
    }

    pub fn classes(&self) -> Vec<Class> {
        classes(&self.job, &self.ours(), &run(&self.job))
    }
}

/// How two answers differ.
#[derive(Clone, PartialEq, Eq, PartialOrd, Ord)]
pub struct Class {
    /// What was called, and our number.
    pub ours: String,
    /// Which rule was broken, where the number has several.
    pub rule: &'static str,
    /// What else takes the job out of the shared domain.
    pub also: Vec<&'static str>,
    /// What the original did.
    pub theirs: String,
}

/// Where a panic comes from. Its own words have numbers, and depend on the compiler.
fn site(message: &str) -> &str {
    let sites = [
        ("not yet implemented", "todo!"),
        ("used_size <= size", "assert! in new"),
        ("VALID_BITS", "set_addr"),
        ("% X64_PAGE_SIZE", "set_entry"),
        ("entry_map.insert", "assert! on the insert"),
        ("PageTableEntry {", "assert_eq! on the entry"),
        ("left == right", "assert_eq! on the length"),
        ("should be part", "expect, pass 2"),
        ("list of page tables", "expect, tables"),
        ("index out of bounds", "index"),
        ("out of range for slice", "slice"),
        ("with overflow", "overflow"),
        ("capacity overflow", "vec!"),
    ];
    sites.iter().find(|s| message.contains(s.0)).map_or(message, |s| s.1)
}

/// The original's part of what differs.
fn theirs_of(what: &str) -> String {
    match what.split_once(", the original ") {
        Some((_, t)) => t.split_once("panics: ").map_or(t.to_string(), |(_, m)| format!("panics: {}", site(m))),
        None => "accepts, other bytes".to_string(),
    }
}

const PAST: &str = "past the bound";

/// Stands for a rule where the number has several and the job breaks none of them.
pub const NONE_BROKEN: &str = "no rule broken";

/// Takes a job out of the shared domain, whatever else does: the original ends before it looks.
pub const FIVE: &str = "five levels";

/// The first rule of the number that the job breaks.
fn rule(job: &Job, number: u64) -> &'static str {
    let bound = document::bound(job) as i128;
    let (gpa, size) = (job.gpa as i128, job.size as i128);
    let to = gpa + job.table_offset as i128;
    let any = |bad: &dyn Fn(&(u64, u64, i64)) -> bool| job.ranges.iter().any(bad);
    let rules: Vec<(bool, &str)> = match number {
        1 => vec![
            (job.gpa % 4096 != 0, "gpa"),
            (job.size % 4096 != 0, "size"),
            (job.used % 4096 != 0, "used"),
            (job.used > job.size, "used above size"),
            (job.size == 0, "empty"),
            (job.size > 512 * 4096, "many"),
            (gpa + size > bound, PAST),
        ],
        7 => vec![(job.table_offset % 4096 != 0, "no whole pages"), (to < 0, "below 0"), (to + size > bound, PAST)],
        8 => vec![
            (job.ranges.len() > 1024, "many"),
            (any(&|r| r.0 > r.1), "first above last"),
            (any(&|r| r.1 as i128 >= bound), PAST),
            (any(&|r| r.0 < job.gpa + job.size && r.1 >= job.gpa), "over the region"),
            (job.ranges.windows(2).any(|w| w[1].0 <= w[0].1), "not ascending"),
        ],
        _ => vec![(true, "")],
    };
    rules.iter().find(|r| r.0).map_or(NONE_BROKEN, |r| r.1)
}

/// What else takes a job that was walked out of the shared domain.
fn also(job: &Job, image: &[u8]) -> Vec<&'static str> {
    let downward = job.table_offset < 0 || job.ranges.iter().any(|r| r.2 < 0);
    let image = jobs::words(image);
    let reasons = [
        (downward, "downward"),
        (!document::touched_once(job, &image), "two ranges"),
        (document::low_bits(job, &image), "bits below the address"),
    ];
    reasons.iter().filter(|r| r.0).map(|r| r.1).collect()
}

/// How the first load that differs does, and how the build does.
pub fn classes(job: &Job, mine: &Ours, theirs: &Answer) -> Vec<Class> {
    let mut found = Vec::new();
    let load = mine.loads.iter().zip(&theirs.loads).find(|(a, b)| **b != Ok(**a));
    if let (Some((n, _)), Some(what)) = (load, load_difference(mine, theirs)) {
        let (rule, also) = (rule(job, *n), Vec::new());
        found.push(Class { ours: format!("load: ours {n}"), rule, also, theirs: theirs_of(&what) });
    }
    let number = mine.number();
    let not_walked = [1, 4, 7, 8].contains(&number) || document::five_levels(job);
    // After loads that differ the two walk different images.
    if let Some(what) = build_difference(mine, theirs).filter(|_| not_walked || load.is_none()) {
        let also = if document::five_levels(job) { vec![FIVE] } else if not_walked { Vec::new() } else { also(job, &mine.image) };
        found.push(Class { ours: format!("build: ours {number}"), rule: rule(job, number), also, theirs: theirs_of(&what) });
    }
    found
}
