//! Random jobs that mostly leave the domain shared with the Rust.

use super::{Draft, Random};
use crate::document::*;
use crate::{Job, Load};

/// A good job, of five levels now and then, changed in one to three ways; or one that may have bits below the addresses of leaves
/// that are to move, changed in up to three ways.
pub fn outside(r: &mut Random) -> Job {
    let mut d = Draft::new(r);
    if d.r.percent(15) {
        d.job.cr4 = LA57;
    }
    d.region(false);
    d.tree();
    d.ranges();
    let low = d.r.percent(25);
    if low {
        d.low_bits(40);
    } else {
        d.clear_low_bits();
    }
    if d.r.percent(if low { 80 } else { 40 }) {
        d.plant();
    }
    // Some of the equal entries at new places are nearly equal then.
    if low {
        d.low_bits(20);
    }
    for _ in 0..d.r.within(!low as u64, 3) {
        match d.r.below(10) {
            0 | 1 => d.stray_offset(),
            2 => d.stray_table_offset(),
            3 | 4 => d.stray_ranges(),
            5 => d.stray_region(),
            6 => d.stray_pointer(),
            7 => d.stray_way(),
            8 => d.damage_image(),
            _ => d.stray_cpu(),
        }
    }
    d.loads();
    if d.r.percent(8) {
        d.stray_load();
    }
    d.job
}

impl Draft<'_> {
    /// Changes one bit below the address in so many of a hundred large leaves, or clears them all.
    fn low_bits(&mut self, many: u64) {
        for (_, level, at) in leaves(&self.job, &self.image) {
            if level > 0 && self.r.percent(many) {
                let top = 11 + 9 * level as u64;
                let any = self.r.within(12, top);
                match self.r.below(4) {
                    0 | 1 => self.image[at] ^= 1 << self.r.of(&[12, top, any]),
                    _ => self.image[at] &= !FIELD | leaf_field(level),
                }
            }
        }
    }

    /// Offsets that are downward, lead to or past a bound, or lead two leaves together.
    fn stray_offset(&mut self) {
        let many = self.job.ranges.len() as u64;
        if many == 0 {
            return;
        }
        let (one, other) = (self.r.below(many) as usize, self.r.below(many) as usize);
        let (first, offset) = (self.job.ranges[one].0 as i64, self.job.ranges[one].2);
        let unit = span(self.r.below(3) as usize) as i64;
        let few = unit * self.r.below(8) as i64;
        let there = (self.job.ranges[other].0 as i64).wrapping_add(self.job.ranges[other].2);
        let new = match self.r.below(10) {
            0 | 1 => offset.wrapping_neg(),
            2 => -few,
            3 => (bound(&self.job) as i64).wrapping_sub(first),
            4 => (1 << 48) + few,
            5 => (1 << 52) + few,
            6 => self.r.of(&[i64::MIN, i64::MAX, -1, -0x1000, first.wrapping_neg(), (-0x1000i64).wrapping_sub(first)]),
            7 => self.r.word() as i64 & -unit,
            8 => offset.wrapping_add(self.r.of(&[1, 0x800, 0x1000])),
            _ => there.wrapping_sub(first),
        };
        self.job.ranges[one].2 = new;
        if self.r.percent(10) {
            self.job.ranges.iter_mut().for_each(|r| r.2 = r.2.wrapping_neg());
        }
    }

    fn stray_table_offset(&mut self) {
        let (gpa, size) = (self.job.gpa as i64, self.job.size as i64);
        let unit = span(self.r.below(3) as usize) as i64 * self.r.within(1, 4) as i64;
        self.job.table_offset = match self.r.below(7) {
            0 => -unit,
            1 => self.r.of(&[gpa.wrapping_neg(), (-0x1000i64).wrapping_sub(gpa), i64::MIN, i64::MAX]),
            2 => self.r.of(&[1, 0x800, 0x1800, 0x20_0800, -0x800]),
            3 => (bound(&self.job) as i64 - size + self.r.of(&[0, 0x1000, 0x20_0000])).wrapping_sub(gpa),
            4 => (1 << 48) + self.r.of(&[0, 0x1000, 0x20_0000]),
            5 => (1 << 52) + self.r.of(&[0, 0x1000]),
            _ => self.r.word() as i64 & -0x1000,
        };
    }

    /// Ranges that overlap, are out of order, empty, past the bound or over the region, and leaves that two of them touch.
    fn stray_ranges(&mut self) {
        let (gpa, size, bound) = (self.job.gpa, self.job.size, bound(&self.job));
        let o = (span(self.r.below(3) as usize) * self.r.within(1, 4)) as i64;
        let list = &mut self.job.ranges;
        let one = self.r.below(list.len() as u64) as usize;
        match self.r.below(8) {
            0 => list.reverse(),
            1 => list.push((bound - self.r.below(2), bound, o)),
            2 => list.push((gpa.wrapping_add(size / 2), gpa.wrapping_add(size), o)),
            3 => list.insert(0, (gpa, gpa.wrapping_add(size - (size != 0) as u64), o)),
            4 | 5 if !list.is_empty() => {
                // In two, one behind the other.
                let (first, last, _) = list[one];
                if first < last {
                    let cut = first + (last - first) / 2;
                    list[one].1 = cut;
                    list.insert(one + 1, (cut + 1, last, o));
                }
            }
            6 if !list.is_empty() => {
                let (first, last, _) = list[one];
                list.insert(one + 1, (first, last, o));
            }
            7 if !list.is_empty() => list[one] = (list[one].1, list[one].0, o),
            _ => {}
        }
    }

    /// Moves the region, with what points into it.
    fn carry(&mut self, to: u64) {
        let (gpa, size) = (self.job.gpa, self.job.size);
        for e in &mut self.image {
            if *e & 1 == 1 && (*e & FIELD).wrapping_sub(gpa) < size {
                *e = (*e & !FIELD) | ((*e & FIELD).wrapping_sub(gpa).wrapping_add(to) & FIELD);
            }
        }
        self.job.cr3 = self.job.cr3.wrapping_sub(gpa).wrapping_add(to);
        self.job.gpa = to;
    }

    fn stray_region(&mut self) {
        let (gpa, size, used) = (self.job.gpa, self.job.size, self.job.used);
        let few = self.r.below(3) * 0x1000;
        match self.r.below(11) {
            0 => self.job.gpa = gpa.wrapping_add(self.r.of(&[1, 0x800, 0u64.wrapping_sub(0x800)])),
            1 => self.job.size += self.r.of(&[1, 0x800, 0xfff]),
            2 => self.job.used = used.wrapping_sub(self.r.of(&[1, 0x800, 0xfff])).min(size),
            3 => self.job.used = size + self.r.of(&[0x800, 0x1000]),
            4 => (self.job.size, self.job.used) = (self.r.of(&[0, size]), 0),
            5 => self.job.size = 513 * 4096,
            6 => self.carry(bound(&self.job) - 0x1000 + few),
            7 => self.carry(0u64.wrapping_sub(size + few)),
            8 => self.carry(gpa.wrapping_add(0x800)),
            9 => self.job.image = Some(self.r.of(&[0, used.saturating_sub(4096), used.saturating_sub(1)])),
            _ => self.job.image = Some((used + 4096).min(size)),
        }
    }

    /// A pointer that leads to a table reached already, to the free tail or into the moved region.
    fn stray_pointer(&mut self) {
        let n = self.r.below(self.nodes.len() as u64) as usize;
        let (table, level) = (self.nodes[n].table, self.nodes[n].level);
        let at = 512 * table + self.slot(n);
        let Job { gpa, size, used, table_offset, .. } = self.job;
        let any = 4096 * self.r.below(size / 4096);
        if table_offset == 0 && self.r.percent(30) {
            self.job.table_offset = 0x1000 * self.r.within(1, 16) as i64;
        }
        let to = match self.r.below(4) {
            0 => self.nodes[self.r.below(self.nodes.len() as u64) as usize].table as u64 * 4096,
            1 => table as u64 * 4096,
            2 => used + any % size.saturating_sub(used).max(4096),
            _ => (self.job.table_offset as u64).wrapping_add(any),
        };
        if level > 0 {
            self.image[at] = self.flags(false) | (gpa.wrapping_add(to) & FIELD);
        }
    }

    /// Something on the way to a moved leaf's new place.
    fn stray_way(&mut self) {
        let mut moved = leaves(&self.job, &self.image);
        moved.retain_mut(|(a, level, _)| {
            let hit = self.job.ranges.iter().find(|r| r.0 < *a + span(*level) && r.1 >= *a);
            *a = a.wrapping_add(hit.map_or(0, |r| r.2 as u64));
            hit.map_or(false, |r| r.2.unsigned_abs() >= span(*level) && *a % span(*level) == 0)
        });
        if moved.is_empty() {
            return;
        }
        let (to, level, _) = self.r.of(&moved);
        let stop = self.r.within(level as u64, top(&self.job) as u64) as usize;
        let (at, _) = self.end_of_way(to, stop);
        let table = self.job.gpa.wrapping_add(4096 * self.r.below(self.job.size / 4096));
        let large = self.r.percent(60);
        let address = match self.r.below(4) {
            0 => table,
            1 => table.wrapping_add(self.job.table_offset as u64),
            2 => to,
            _ => self.r.word() & (bound(&self.job) - 1),
        };
        self.image[at] = self.flags(large) | (address & FIELD);
    }

    fn stray_cpu(&mut self) {
        let Job { gpa, size, used, .. } = self.job;
        match self.r.below(6) {
            0 => self.job.cr4 ^= LA57,
            1 => self.job.cr3 = gpa.wrapping_add(size),
            2 => self.job.cr3 |= 1 << self.r.within(48, 63),
            _ => self.job.cr3 = gpa.wrapping_add(used),
        }
    }

    /// A load at an odd place, or in the free tail.
    fn stray_load(&mut self) {
        let Job { gpa, size, used, .. } = self.job;
        let at = match self.r.below(4) {
            0 => 4096 * self.r.below(used / 4096) + self.r.of(&[1, 8, 0x800, 0xfff]),
            1 => self.r.below(size),
            2 => used,
            _ => used + self.r.below(size.saturating_sub(used)),
        };
        let data = vec![0x5a; self.r.of(&[4096, 4096, 4096, 4096, 4095, 0])];
        self.job.loads.push(Load { gpa: gpa.wrapping_add(at), data });
    }
}
