//! The proved code's answers to jobs, and where they differ from the original's.

pub mod classes;
pub mod entries;

use archwend::{build_in, set_page_data_in, CpuPagingState, Error, Region, Report};
use jobs::{document, Answer, Built, Job};

/// What the proved code answered, the image that its build was given, and what it left wrong in the lent buffers.
pub struct Ours {
    pub loads: Vec<u64>,
    pub image: Vec<u8>,
    pub built: Result<(Report, Vec<u8>), Error>,
    pub wrong: Option<&'static str>,
}

impl Ours {
    pub fn number(&self) -> u64 {
        self.built.as_ref().err().map_or(0, |e| e.number)
    }
}

/// Runs a job through the proved code, with a scratch for so many leaves; the lent buffers start full of other bytes.
pub fn ours(job: &Job, room: usize) -> Ours {
    let region = Region { gpa: job.gpa, size: job.size, used: job.used };
    let mut image = vec![0; job.image.unwrap_or(job.used).min(1 << 22) as usize];
    let mut wrong = None;
    let mut loads = Vec::new();
    let mut before = image.clone();
    for l in &job.loads {
        let n = set_page_data_in(&mut image, region, l.gpa, &l.data, job.cr4).err().map_or(0, |e| e.number);
        if n != 0 && image != before {
            wrong = Some("a refused load changed the image");
        }
        if n == 0 && !l.data.is_empty() {
            let at = (l.gpa - job.gpa) as usize;
            before[at..at + 4096].copy_from_slice(&l.data);
        }
        loads.push(n);
    }
    if image != before {
        wrong = Some("a load did not write its page alone");
    }
    let words: Vec<u64> = job.ranges.iter().flat_map(|r| [r.0, r.1, r.2 as u64]).collect();
    let mut output = vec![0xa5; job.size.min(1 << 22) as usize + 64];
    let mut scratch = vec![7; 3 * room];
    let cpu = CpuPagingState { cr3: job.cr3, cr4: job.cr4 };
    let answer = build_in(&image, &mut output, &mut scratch, &words, region, job.table_offset, cpu);
    if scratch.iter().any(|w| *w != 0) {
        wrong = Some("the scratch is not zero");
    }
    let zero_from = answer.map_or(0, |r| r.used as usize);
    if output[zero_from..].iter().any(|b| *b != 0) {
        wrong = Some("the output is not zero where it must be");
    }
    let built = answer.map(|r| {
        output.truncate(zero_from);
        (r, output)
    });
    Ours { loads, image, built, wrong }
}

pub fn in_shared_domain(job: &Job, ours: &Ours) -> bool {
    document::shared(job, &ours.loads, ours.number(), &jobs::words(&ours.image))
}

/// Whether a load of the shared domain was answered differently, be the build in it or not.
pub fn shared_load_differs(job: &Job, ours: &Ours, theirs: &Answer) -> bool {
    let mut all = job.loads.iter().zip(&ours.loads).zip(&theirs.loads);
    all.any(|((l, a), b)| document::load_shared(job, l, *a) && *b != Ok(*a))
}

/// What differs between the two answers, if anything does.
pub fn difference(ours: &Ours, theirs: &Answer) -> Option<String> {
    load_difference(ours, theirs).or_else(|| build_difference(ours, theirs))
}

/// What differs in the first load that differs. Where the original's `new` panics it has no loads.
pub fn load_difference(ours: &Ours, theirs: &Answer) -> Option<String> {
    let (i, (a, b)) = ours.loads.iter().zip(&theirs.loads).enumerate().find(|(_, (a, b))| **b != Ok(**a))?;
    Some(match b {
        Ok(n) => format!("load {i}: ours {a}, the original {n}"),
        Err(m) => format!("load {i}: ours {a}, the original panics: {m}"),
    })
}

pub fn build_difference(ours: &Ours, theirs: &Answer) -> Option<String> {
    let place = |e: &Error| e.place.map(|p| (p.address, document::span(p.level as usize), p.offset));
    match (&ours.built, &theirs.built) {
        (Ok((r, bytes)), Built::Tables { bytes: b, merged }) => {
            if bytes != b {
                Some(format!("build: other bytes, {:x} and {:x} long", bytes.len(), b.len()))
            } else if r.merged != *merged {
                Some(format!("build: merged {} and {merged}", r.merged))
            } else {
                None
            }
        }
        (Err(e), Built::Refused(12, Some(p))) if e.number == 12 && place(e) == Some(*p) => None,
        (Err(e), Built::Refused(n, None)) if e.number == *n => None,
        (Ok(_), Built::Refused(n, _)) => Some(format!("build: ours 0, the original {n}")),
        (Ok(_), Built::Panic(m)) => Some(format!("build: ours 0, the original panics: {m}")),
        (Err(e), Built::Tables { .. }) => Some(format!("build: ours {}, the original accepts", e.number)),
        (Err(e), Built::Refused(n, _)) => Some(format!("build: ours {}, the original {n}", e.number)),
        (Err(e), Built::Panic(m)) => Some(format!("build: ours {}, the original panics: {m}", e.number)),
    }
}
