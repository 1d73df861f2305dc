//! Jobs for the mover, the text form they are stored in, and the original's answers to them.

pub mod document;
pub mod random;

use original::hv_defs::Vtl;
use original::page_table::{CpuPagingState, Error, PageTableRelocationBuilder};
use original::RangeMap;
use std::fmt::Write;
use std::panic::{catch_unwind, AssertUnwindSafe};

/// One page load.
#[derive(Clone, Debug, PartialEq)]
pub struct Load {
    pub gpa: u64,
    pub data: Vec<u8>,
}

/// Loads into a region, and then a build.
#[derive(Clone, Debug, PartialEq, Default)]
pub struct Job {
    pub gpa: u64,
    pub size: u64,
    pub used: u64,
    pub loads: Vec<Load>,
    /// First, last (included), offset.
    pub ranges: Vec<(u64, u64, i64)>,
    pub cr3: u64,
    pub cr4: u64,
    pub table_offset: i64,
    /// Whether the proved code gets a scratch of no words; the original has none.
    pub no_scratch: bool,
    /// The image's length where it is not `used`. The original makes the image in `new`; its field `used_size` is set after that.
    pub image: Option<u64>,
}

/// What a load answered: its number, or the panic's message.
pub type Loaded = Result<u64, String>;

/// What a build answered.
#[derive(Clone, Debug, PartialEq)]
pub enum Built {
    Tables { bytes: Vec<u8>, merged: u64 },
    /// The specification's number, and for 12 the address, mapped size and offset.
    Refused(u64, Option<(u64, u64, i64)>),
    Panic(String),
}

#[derive(Clone, Debug, PartialEq)]
pub struct Answer {
    pub loads: Vec<Loaded>,
    pub built: Built,
}

/// The words of the bytes, the last filled up with zeros.
pub fn words(bytes: &[u8]) -> Vec<u64> {
    bytes
        .chunks(8)
        .map(|c| {
            let mut w = [0; 8];
            w[..c.len()].copy_from_slice(c);
            u64::from_le_bytes(w)
        })
        .collect()
}

pub fn bytes(words: &[u64]) -> Vec<u8> {
    words.iter().flat_map(|w| w.to_le_bytes()).collect()
}

/// Panics are answers here: keeps them off the screen.
pub fn quiet() {
    std::panic::set_hook(Box::new(|_| {}));
}

fn message(e: Box<dyn std::any::Any + Send>) -> String {
    let text = match e.downcast_ref::<&str>() {
        Some(s) => s.to_string(),
        None => e.downcast_ref::<String>().cloned().unwrap_or_default(),
    };
    text.lines().map(str::trim).collect::<Vec<_>>().join(", ")
}

fn refused(e: Error) -> (u64, Option<(u64, u64, i64)>) {
    match e {
        Error::PageDataLength => (2, None),
        Error::PageDataGpa => (3, None),
        Error::Cr3 => (6, None),
        Error::UnalignedOffset { va, page_table_entry_mapping_size, relocation_offset } => {
            (12, Some((va, page_table_entry_mapping_size, relocation_offset)))
        }
        Error::NotEnoughFreeSpace => (19, None),
    }
}

/// Whether the original can be asked: of more than isize::MAX bytes a newer `vec!` panics, and an older one ends the program.
pub fn can_run(job: &Job) -> bool {
    let length = job.image.unwrap_or(job.used) as usize;
    length <= isize::MAX as usize || std::alloc::Layout::array::<u8>(length).is_err()
}

/// Runs a job through the original.
pub fn run(job: &Job) -> Answer {
    let mut loads = Vec::new();
    original::take_warnings();
    if !can_run(job) {
        return Answer { loads, built: Built::Panic("not asked".to_string()) };
    }
    let length = job.image.unwrap_or(job.used);
    let mut b = match catch_unwind(|| PageTableRelocationBuilder::new(job.gpa, job.size, length, 0, Vtl::Vtl0)) {
        Ok(b) => b,
        Err(e) => return Answer { loads, built: Built::Panic(message(e)) },
    };
    b.used_size = job.used;
    for l in &job.loads {
        loads.push(match catch_unwind(AssertUnwindSafe(|| b.set_page_data(l.gpa, &l.data))) {
            Ok(Ok(())) => Ok(0),
            Ok(Err(e)) => Ok(refused(e).0),
            Err(e) => Err(message(e)),
        });
    }
    let mut map = RangeMap::new();
    for (first, last, offset) in &job.ranges {
        map.insert(*first..=*last, *offset);
    }
    let cpu = CpuPagingState { cr3: job.cr3, cr4: job.cr4 };
    let built = match catch_unwind(AssertUnwindSafe(|| b.build(job.table_offset, map, cpu))) {
        Ok(Ok(bytes)) => Built::Tables { bytes, merged: original::take_warnings() },
        Ok(Err(e)) => {
            let (number, place) = refused(e);
            Built::Refused(number, place)
        }
        Err(e) => Built::Panic(message(e)),
    };
    Answer { loads, built }
}

/// `index:word` for each word that is not 0.
fn sparse(bytes: &[u8]) -> String {
    let mut s = String::new();
    for (i, w) in words(bytes).iter().enumerate().filter(|(_, w)| **w != 0) {
        write!(s, " {i:x}:{w:x}").unwrap();
    }
    s
}

/// The text form: hexadecimal, one line a step, offsets as words; `image` where its length is not `used`; `no scratch` where there
/// is none; `build` ends a job.
pub fn print(job: &Job) -> String {
    let mut s = format!("region {:x} {:x} {:x}\n", job.gpa, job.size, job.used);
    if let Some(length) = job.image {
        writeln!(s, "image {length:x}").unwrap();
    }
    for l in &job.loads {
        writeln!(s, "load {:x} {:x}{}", l.gpa, l.data.len(), sparse(&l.data)).unwrap();
    }
    for (first, last, offset) in &job.ranges {
        writeln!(s, "range {first:x} {last:x} {:x}", *offset as u64).unwrap();
    }
    if job.no_scratch {
        s += "no scratch\n";
    }
    writeln!(s, "build {:x} {:x} {:x}", job.cr3, job.cr4, job.table_offset as u64).unwrap();
    s
}

/// Reads a job in the text form. A line that starts with # is skipped; `ranges COUNT FIRST` is so many ranges of one address each,
/// with offset 0.
pub fn parse(text: &str) -> Result<Job, String> {
    let mut job = Job::default();
    for (n, line) in text.lines().enumerate() {
        let bad = |what: &str| format!("line {}: {what}", n + 1);
        let hex = |s: Option<&str>| {
            let s = s.ok_or_else(|| bad("a number is missing"))?;
            u64::from_str_radix(s, 16).map_err(|_| bad("no number in hexadecimal"))
        };
        let mut w = line.split_whitespace();
        match w.next() {
            None => {}
            Some(c) if c.starts_with('#') => {}
            Some("region") => {
                job = Job { gpa: hex(w.next())?, size: hex(w.next())?, used: hex(w.next())?, ..Job::default() };
            }
            Some("image") => job.image = Some(hex(w.next())?),
            Some("load") => {
                let (gpa, len) = (hex(w.next())?, hex(w.next())? as usize);
                if len > 1 << 21 {
                    return Err(bad("a load is at most 2 MiB"));
                }
                let mut ws = vec![0; len / 8 + 1];
                for pair in w {
                    let (i, v) = pair.split_once(':').ok_or_else(|| bad("index:word expected"))?;
                    *ws.get_mut(hex(Some(i))? as usize).ok_or_else(|| bad("a word past the load"))? = hex(Some(v))?;
                }
                let mut data = bytes(&ws);
                data.truncate(len);
                job.loads.push(Load { gpa, data });
            }
            Some("range") => job.ranges.push((hex(w.next())?, hex(w.next())?, hex(w.next())? as i64)),
            Some("ranges") => {
                let (many, first) = (hex(w.next())?, hex(w.next())?);
                job.ranges.extend((first..).take(many as usize).map(|a| (a, a, 0)));
            }
            Some("no") if w.next() == Some("scratch") => job.no_scratch = true,
            Some("build") => {
                job.cr3 = hex(w.next())?;
                job.cr4 = hex(w.next())?;
                job.table_offset = hex(w.next())? as i64;
                return Ok(job);
            }
            Some(_) => return Err(bad("region, image, load, range, ranges, no scratch or build expected")),
        }
    }
    Err("no build".into())
}

/// The answers in text: a line for each load, then one for the build.
pub fn show(a: &Answer) -> String {
    let mut s = String::new();
    for l in &a.loads {
        match l {
            Ok(n) => writeln!(s, "load {n}").unwrap(),
            Err(m) => writeln!(s, "load panic {m}").unwrap(),
        }
    }
    match &a.built {
        Built::Tables { bytes, merged } => writeln!(s, "build 0 used {:x} merged {merged}{}", bytes.len(), sparse(bytes)).unwrap(),
        Built::Refused(n, Some((va, size, offset))) => {
            writeln!(s, "build {n} at {va:x} size {size:x} offset {:x}", *offset as u64).unwrap()
        }
        Built::Refused(n, None) => writeln!(s, "build {n}").unwrap(),
        Built::Panic(m) => writeln!(s, "build panic {m}").unwrap(),
    }
    s
}
