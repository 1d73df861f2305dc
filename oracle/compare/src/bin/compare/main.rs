//! compare COUNT SEED: random jobs through both, until COUNT of them were in the shared domain.
//! compare COUNT SEED five: jobs of it as five-level jobs, until COUNT of them were compared.
//! compare COUNT SEED FILE [JOB]: random jobs until COUNT of them were outside of it, sorted by how the two differ, each class with
//! the rows of FILE that explain it; with JOB that job alone, and both answers.

use compare::{difference, in_shared_domain, ours};
use jobs::random::{job, Random};
use jobs::{print, run, show};
use std::collections::BTreeMap;

mod five;
mod outside;

/// How many in this many jobs have hundreds of tables.
const LARGE_EVERY: u64 = 150;

fn main() {
    let args: Vec<String> = std::env::args().collect();
    let number = |i: usize, default: u64| args.get(i).and_then(|s| s.parse().ok()).unwrap_or(default);
    let (count, seed) = (number(1, 1000), number(2, 1));
    let build = if env!("OVERFLOW") == "checks" { "checks overflow" } else { "wraps" };
    jobs::quiet();
    println!("page_table.rs {} in a build that {build}; seed {seed}", original::PAGE_TABLE);
    if let Some(what) = args.get(3) {
        let bad = match what.as_str() {
            "five" => five::compare(build, count, seed),
            file => outside::compare(file, count, seed, args.get(4).and_then(|s| s.parse().ok())),
        };
        std::process::exit((bad != 0) as i32);
    }
    let mut builds: BTreeMap<u64, u64> = BTreeMap::new();
    let mut loads: BTreeMap<u64, u64> = BTreeMap::new();
    let (mut shared, mut merged, mut moved, mut jobs_run, mut differ, mut large) = (0, 0, 0, 0, 0, 0);
    while shared < count {
        let own = seed.wrapping_mul(1 << 32).wrapping_add(jobs_run);
        let r = &mut Random(own);
        let j = job(r, jobs_run % LARGE_EVERY == LARGE_EVERY - 1);
        jobs_run += 1;
        // Room for every leaf, now and then for few.
        let room = if r.percent(3) { r.below(20) as usize } else { j.used.min(1 << 21) as usize / 8 };
        let mine = ours(&j, room);
        if let Some(what) = mine.wrong {
            println!("{}{what}", print(&j));
            std::process::exit(1);
        }
        let theirs = run(&j);
        let what = difference(&mine, &theirs);
        if in_shared_domain(&j, &mine) {
            shared += 1;
            large += (j.used > 0x40000) as u64;
            *builds.entry(mine.number()).or_default() += 1;
            mine.loads.iter().for_each(|n| *loads.entry(*n).or_default() += 1);
            if let Ok((report, _)) = &mine.built {
                merged += report.merged;
                moved += report.moved;
            }
            if let Some(what) = what {
                differ += 1;
                println!("DIFFERENCE in job {own}: {what}\n{}# the original:\n{}", print(&j), show(&theirs));
            }
        }
    }
    let list = |m: &BTreeMap<u64, u64>| m.iter().map(|(n, c)| format!("{n}: {c}")).collect::<Vec<_>>().join(", ");
    println!(
        "{build}: {shared} jobs in the shared domain ({large} large) of {jobs_run}: {differ} differences; builds {}; loads {}; \
         {moved} leaves moved, {merged} merged",
        list(&builds),
        list(&loads)
    );
    if differ != 0 {
        std::process::exit(1);
    }
}
