//! differences FILE [record]: runs the recorded inputs outside the shared domain through both, and compares with what is
//! recorded: `ours`, and `wraps` or `checks` for the original in this build. `record` prints the file with today's answers.

use compare::classes::{recorded, WHO};
use archwend::Region;
use compare::entries::{self, library};
use compare::Ours;
use jobs::{can_run, run, show, Answer, Built};
use original::hv_defs::Vtl;
use original::page_table::PageTableRelocationBuilder;
use std::panic::{catch_unwind, AssertUnwindSafe};

const THIS: &str = env!("OVERFLOW");

/// One line: the loads that were not plainly taken, then the build. A panic's words depend on the compiler and are left out.
fn line(a: &Answer) -> String {
    let text = show(a);
    let kept = text.lines().filter(|l| *l != "load 0").map(|l| match l.find("panic") {
        Some(at) => &l[..at + 5],
        None => l,
    });
    kept.collect::<Vec<_>>().join("; ")
}

fn our_line(o: &Ours) -> String {
    let loads = o.loads.iter().map(|n| Ok(*n)).collect();
    let tail = match &o.built {
        Ok((r, bytes)) => return line(&Answer { loads, built: Built::Tables { bytes: bytes.clone(), merged: r.merged } }),
        Err(e) => match e.place.filter(|p| *p != Default::default()) {
            Some(p) => format!(" at {:x} level {} offset {:x}", p.address, p.level, p.offset as u64),
            None => String::new(),
        },
    };
    line(&Answer { loads, built: Built::Refused(o.number(), None) }) + &tail
}

fn main() {
    let args: Vec<String> = std::env::args().collect();
    let record = args.iter().any(|a| a == "record");
    jobs::quiet();
    let mut failed = 0;
    let (mut cases, mut left_out) = (0, 0);
    for case in recorded(&args[1]) {
        cases += 1;
        let (input, expected) = (&case.input, &case.expected);
        let mut got = expected.clone();
        got.insert("ours", our_line(&case.ours()));
        got.insert(THIS, line(&run(&case.job)));
        left_out += !can_run(&case.job) as u32;
        if record {
            print!("{input}");
            WHO.iter().for_each(|k| println!("{k} {}", got.get(*k).map_or("", |s| s)));
            println!();
        }
        for (k, v) in &got {
            if !record && expected.get(k) != Some(v) {
                failed += 1;
                println!("{input}DIFFERENT NOW: {k} {v}\n");
            }
        }
    }
    if !record {
        failed += entry_operations();
        print!("differences ({THIS}): {cases} inputs and the entry operations run, ");
        println!("{failed} not as recorded, {left_out} not asked of the original");
    }
    std::process::exit((failed != 0) as i32);
}

/// Entry operations outside the shared domain. Ours is a number and a word; the original gives a word or panics.
fn entry_operations() -> u32 {
    let old = 0x1063;
    let kept = (entries::REFUSED, old);
    let none = (entries::REFUSED, 0);
    let set = |kind, a| (library::set_entry(old, kind, a), entries::set_entry(old, kind, a));
    let addr = |a| (library::set_addr(old, a), entries::set_addr(old, a));
    let at = |gva, level| (library::get_amd64_pte_index(gva, level), entries::index(gva, level as u8));
    // The original's operations know no level.
    let leaf = |word, level, a| (library::set_leaf_addr(word, level, a), entries::set_addr(word, a));
    let read = |word, level| (library::leaf_gpa(word, level), entries::gpa(word));
    // A shift by 66.
    let far = if THIS == "checks" { None } else { Some(1) };
    let list = [
        ("E1", set(3, 1 << 52) == (kept, Some((1 << 52) | 0x23))),
        ("E2", set(1, 0x1000) == (kept, None)),
        ("E3", set(3, 1) == (kept, None)),
        ("E4", addr(1) == (kept, None)),
        ("E5", addr(1 << 52) == (kept, None)),
        ("E6", at(1 << 57, 5) == (none, Some(1))),
        ("E7", at(1 << 2, 6) == (none, far)),
        ("E8", library::mapping_size(4) == (0, 1 << 48) && library::mapping_size(5) == none),
        ("E9", unknown_kind(old) == kept),
        ("E10", contains()),
        ("E11", leaf(0x20_10e3, 1, 0x40_0000) == ((0, 0x40_10e3), Some(0x40_00e3))),
        ("E12", leaf(0x6000_00e3, 2, 0x8000_0000) == ((0, 0xa000_00e3), Some(0x8000_00e3))),
        ("E13", read(0x20_10e3, 1) == ((1, 0x20_0000), (1, 0x20_1000))),
        ("E14", read(0x6000_00e3, 2) == ((1, 0x4000_0000), (1, 0x6000_0000))),
        ("E15", leaf(old, 1, 0x20_1000) == (kept, Some(0x20_1063))),
        ("E16", leaf(old, 3, 0x2000) == (kept, Some(0x2063))),
        ("E17", read(old, 3) == (none, (1, 0x1000)) && read(0, 3) == (none, (0, 0))),
    ];
    let bad: Vec<_> = list.iter().filter(|l| !l.1).collect();
    bad.iter().for_each(|l| println!("DIFFERENT NOW: {}", l.0));
    bad.len() as u32
}

extern "C" {
    fn archwend_set_entry(entry: *mut u64, kind: u64, addr: u64) -> u64;
}

/// A kind that C can name, and the crate's enum can't.
fn unknown_kind(mut entry: u64) -> (u64, u64) {
    // Safety: the pointer is that of a local, and the proved code requires nothing of the numbers.
    let number = unsafe { archwend_set_entry(&mut entry, 4, 0) };
    (number, entry)
}

/// The last page below 2^64.
fn contains() -> bool {
    let base = 0u64.wrapping_sub(4096);
    let ours = library::calculate_page_table_index(Region { gpa: base, size: 4096, used: 0 }, base);
    let b = PageTableRelocationBuilder::new(base, 4096, 0, 0, Vtl::Vtl0);
    let theirs = catch_unwind(AssertUnwindSafe(|| b.contains(base))).ok();
    ours == (1, 0) && theirs == if THIS == "checks" { None } else { Some(false) }
}
