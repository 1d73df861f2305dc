//! entries COUNT SEED: random calls of the original's entry operations, indices, mapped sizes, tables and masks and of the
//! library's, until COUNT of them were in the shared domain.

use compare::entries::{round, Tally};
use jobs::random::Random;
use std::collections::BTreeMap;

fn main() {
    let number = |i: usize, default: u64| std::env::args().nth(i).and_then(|s| s.parse().ok()).unwrap_or(default);
    let (count, seed) = (number(1, 20_000), number(2, 1));
    let build = if env!("OVERFLOW") == "checks" { "checks overflow" } else { "wraps" };
    jobs::quiet();
    println!("page_table.rs {} in a build that {build}; seed {seed}", original::PAGE_TABLE);
    let (mut r, mut t) = (Random(seed), Tally::default());
    while t.calls() < count {
        round(&mut r, &mut t);
    }
    let list = |m: &BTreeMap<&str, u64>| m.iter().map(|(n, c)| format!("{n} {c}")).collect::<Vec<_>>().join(", ");
    println!(
        "{build}: {} calls in the shared domain ({}), and refused here where the original panics: {}; {} differences",
        t.calls(),
        list(&t.shared),
        list(&t.panics),
        t.wrong
    );
    std::process::exit((t.wrong != 0) as i32);
}
