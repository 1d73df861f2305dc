//! Jobs outside the shared domain, sorted by how the two differ.

use compare::classes::{classes, recorded, Class, FIVE, NONE_BROKEN};
use compare::{in_shared_domain, ours, shared_load_differs};
use jobs::random::{outside, Random};
use jobs::{print, run, show};
use std::collections::BTreeMap;

/// Whether the original goes on where we stop.
fn takes(c: &Class) -> bool {
    c.theirs.starts_with("accepts") || c.theirs == "0"
}

/// The rows that explain a class: rows of that class; or rows where the original does not look at what we refuse, and then what it
/// does with such a job; or rows of another rule with that number; or the rows of what else takes the job out of the domain. Five
/// levels explain one panic, whatever our number is: the original looks at them before all that.
fn explained(c: &Class, rows: &[(String, Class)]) -> Option<String> {
    if c.rule == NONE_BROKEN {
        return None;
    }
    let list = |keep: &dyn Fn(&Class) -> bool| {
        let names: Vec<&str> = rows.iter().filter(|r| keep(&r.1)).map(|r| r.0.as_str()).collect();
        (!names.is_empty()).then(|| names.join(" "))
    };
    let plain = Class { also: Vec::new(), ..c.clone() };
    let next = || if c.theirs.starts_with("panics") { list(&|r| r.theirs == c.theirs) } else { Some(c.theirs.clone()) };
    let unseen = || list(&|r| r.ours == c.ours && r.rule == c.rule && r.also.is_empty() && takes(r));
    let alike = || Some(format!("as {}", list(&|r| r.ours == c.ours && r.also.is_empty() && r.theirs == c.theirs)?));
    let other = || {
        let fits = |r: &Class, a| r.ours == "build: ours 0" && r.also == [a] && (a != FIVE || r.theirs == c.theirs);
        let each = c.also.iter().map(|a| list(&|r| fits(r, *a)));
        each.collect::<Option<Vec<_>>>().filter(|l| !l.is_empty()).map(|l| format!("as {}", l.join(" ")))
    };
    let same = list(&|r| r == c).or_else(|| list(&|r| *r == plain));
    let first = || c.also.contains(&FIVE).then(other).flatten();
    same.or_else(first).or_else(|| Some(format!("{}, then {}", unseen()?, next()?))).or_else(alike).or_else(other)
}

/// The number of classes that no row explains; `only` shows that job instead.
pub fn compare(file: &str, count: u64, seed: u64, only: Option<u64>) -> u64 {
    let cases = recorded(file);
    let rows: Vec<(String, Class)> = cases.iter().flat_map(|c| c.classes().into_iter().map(|k| (c.name.clone(), k))).collect();
    let mut found: BTreeMap<Class, (u64, usize, u64)> = BTreeMap::new();
    let (mut left, mut same, mut jobs_run) = (0, 0, 0);
    while left < count {
        let own = only.unwrap_or(seed.wrapping_mul(1 << 32).wrapping_add(jobs_run));
        let r = &mut Random(own);
        let j = outside(r);
        jobs_run += 1;
        let room = if r.percent(5) { r.below(4) as usize } else { j.used.min(1 << 21) as usize / 8 };
        let mine = ours(&j, room);
        let theirs = run(&j);
        if only.is_some() {
            println!("{}# room for {room} leaves\n# ours: loads {:?}, build {:?}", print(&j), mine.loads, mine.built.map(|b| b.0));
            println!("# the original:\n{}", show(&theirs));
            return 0;
        }
        if let Some(what) = mine.wrong {
            println!("job {own}: {what}");
            return 1;
        }
        let differ = classes(&j, &mine, &theirs);
        let shared = in_shared_domain(&j, &mine);
        if shared && differ.is_empty() {
            continue;
        }
        if shared || shared_load_differs(&j, &mine, &theirs) {
            println!("job {own}: a difference in the shared domain");
            return 1;
        }
        left += 1;
        same += differ.is_empty() as u64;
        let size = print(&j).len();
        for c in differ {
            let e = found.entry(c).or_insert((0, usize::MAX, 0));
            *e = (e.0 + 1, e.1.min(size), if size < e.1 { own } else { e.2 });
        }
    }
    let mut bare = 0;
    for (c, (n, _, own)) in &found {
        let by = explained(c, &rows).unwrap_or_else(|| {
            bare += 1;
            "NO ROW".into()
        });
        let why: String = std::iter::once(&c.rule).chain(&c.also).filter(|a| !a.is_empty()).map(|a| format!(" ({a})")).collect();
        println!("{n:7} x {}{why}, the original {}: {by} [job {own}]", c.ours, c.theirs);
    }
    let many = found.len();
    print!("outside the shared domain: {left} jobs of {jobs_run}, {same} answered alike, ");
    println!("{many} classes of differences, {bare} with no row");
    bare
}
