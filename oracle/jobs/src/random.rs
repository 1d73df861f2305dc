//! Random jobs.

mod outside;

use crate::document::*;
use crate::{bytes, Job, Load};
pub use outside::outside;

/// splitmix64
pub struct Random(pub u64);

impl Random {
    pub fn word(&mut self) -> u64 {
        self.0 = self.0.wrapping_add(0x9e37_79b9_7f4a_7c15);
        let mut z = self.0;
        z = (z ^ (z >> 30)).wrapping_mul(0xbf58_476d_1ce4_e5b9);
        z = (z ^ (z >> 27)).wrapping_mul(0x94d0_49bb_1331_11eb);
        z ^ (z >> 31)
    }

    pub fn below(&mut self, n: u64) -> u64 {
        self.word() % n.max(1)
    }

    pub fn within(&mut self, low: u64, high: u64) -> u64 {
        low + self.below(high - low + 1)
    }

    /// True in about so many of a hundred.
    pub fn percent(&mut self, n: u64) -> bool {
        self.below(100) < n
    }

    pub fn of<T: Copy>(&mut self, list: &[T]) -> T {
        list[self.below(list.len() as u64) as usize]
    }
}

struct Node {
    table: usize,
    level: usize,
    base: u64,
}

struct Draft<'a> {
    r: &'a mut Random,
    job: Job,
    image: Vec<u64>,
    nodes: Vec<Node>,
    /// Addresses that the tree likes to map.
    likes: Vec<u64>,
}

impl Draft<'_> {
    fn new(r: &mut Random) -> Draft<'_> {
        Draft { r, job: Job::default(), image: Vec::new(), nodes: Vec::new(), likes: Vec::new() }
    }

    /// Bits outside the address field, present; bit 7 as told.
    fn flags(&mut self, large: bool) -> u64 {
        let some = if self.r.percent(60) { 0x63 } else { (self.r.word() & !FIELD) | 1 };
        (some & !0x80) | if large { 0x80 } else { 0 }
    }

    /// An entry of the node's table: one that leads to an address it likes, an end, or any.
    fn slot(&mut self, n: usize) -> usize {
        let Node { table: _, level, base } = self.nodes[n];
        let size = span(level) << 9;
        if self.r.percent(50) {
            let here: Vec<u64> = self.likes.iter().copied().filter(|a| *a >= base && a - base < size).collect();
            if !here.is_empty() {
                let a = self.r.of(&here);
                let near = index(a, level) as u64 + self.r.of(&[0, 0, 1, 2, 511]);
                return (near & 511) as usize;
            }
        }
        if self.r.percent(30) {
            return self.r.of(&[0, 1, 2, 3, 255, 256, 510, 511]);
        }
        self.r.below(512) as usize
    }

    fn region(&mut self, large: bool) {
        let used = if large { self.r.within(100, 512) } else { self.r.within(3, 12) };
        let free = match self.r.below(10) {
            0 | 1 => 0,
            2 | 3 => self.r.within(1, 2),
            _ => self.r.within(3, 24),
        };
        let size = (used + free).min(512) * 4096;
        self.job.used = used * 4096;
        self.job.size = size;
        let bound = bound(&self.job);
        self.job.gpa = match self.r.below(10) {
            0 => 0,
            1 => bound - size,
            2 => bound - size - self.r.below(64) * 4096,
            3..=5 => 0x10_0000,
            6 => self.r.below(64) * 0x20_0000,
            7 => self.r.below(64) * 0x4000_0000,
            _ => self.r.below((bound - size) / 4096 + 1) * 4096,
        };
        let gpa = self.job.gpa;
        self.likes = vec![gpa, gpa + size - 1, 0, 0x20_0000, 0x4000_0000, bound - 1];
        let any = self.r.below(bound);
        self.likes.push(any);
    }

    fn tree(&mut self) {
        let tables = (self.job.used / 4096) as usize;
        self.image = vec![0; 512 * tables];
        let mut order: Vec<usize> = (0..tables).collect();
        for i in (1..tables).rev() {
            let j = self.r.below(i as u64 + 1) as usize;
            order.swap(i, j);
        }
        let root = order.pop().unwrap();
        self.job.cr3 = self.job.gpa + 4096 * root as u64;
        if self.r.percent(20) {
            self.job.cr3 += self.r.below(4096);
        }
        self.nodes = vec![Node { table: root, level: top(&self.job), base: 0 }];
        let unreached = if self.r.percent(20) { self.r.below(3) as usize } else { 0 };
        while order.len() > unreached {
            // The newest table more often, so that trees are deep.
            let last = self.nodes.len() as u64 - 1;
            let n = if self.r.percent(60) { last } else { self.r.below(last + 1) } as usize;
            if self.nodes[n].level == 0 {
                if self.nodes.iter().all(|n| n.level == 0) {
                    break;
                }
                // The table above the newest, as pages of one region lie together.
                if let Some(up) = self.nodes.iter().rposition(|n| n.level == 1) {
                    if self.r.percent(50) {
                        self.link(up, &mut order);
                    }
                }
                continue;
            }
            self.link(n, &mut order);
        }
        for t in order {
            for _ in 0..self.r.below(4) {
                let i = self.r.below(512) as usize;
                self.image[512 * t + i] = self.r.word();
            }
        }
        for n in 0..self.nodes.len() {
            self.fill(n);
        }
    }

    fn link(&mut self, n: usize, order: &mut Vec<usize>) {
        let i = self.slot(n);
        let Node { table, level, base } = self.nodes[n];
        if self.image[512 * table + i] & 1 == 1 {
            return;
        }
        let t = order.pop().unwrap();
        // Bit 7 says nothing from level 3 up.
        let large = level >= 3 && self.r.percent(20);
        self.image[512 * table + i] = self.flags(large) | (self.job.gpa + 4096 * t as u64);
        self.nodes.push(Node { table: t, level: level - 1, base: base + i as u64 * span(level) });
    }

    fn fill(&mut self, n: usize) {
        let Node { table, level, base } = self.nodes[n];
        if level < 3 {
            let many = match self.r.below(20) {
                0 => 512,
                1..=3 => self.r.below(100),
                _ => self.r.below(5),
            };
            let mut i = self.slot(n);
            for _ in 0..many {
                i = if many > 5 { (i + 1) & 511 } else { self.slot(n) };
                let at = 512 * table + i;
                if self.image[at] & 1 == 1 {
                    continue;
                }
                let large = level > 0 || self.r.percent(20);
                let address = if self.r.percent(85) { base + i as u64 * span(level) } else { self.r.word() & FIELD };
                self.image[at] = self.flags(large) | (address & FIELD);
            }
        }
        if level > 0 && self.r.percent(12) {
            let i = self.slot(n);
            let away = self.r.word() & FIELD & (bound(&self.job) - 1);
            let outside = away < self.job.gpa || away - self.job.gpa >= self.job.size;
            if self.image[512 * table + i] & 1 == 0 && outside {
                self.image[512 * table + i] = self.flags(false) | away;
            }
        }
        if self.r.percent(15) {
            let i = self.slot(n);
            if self.image[512 * table + i] & 1 == 0 {
                self.image[512 * table + i] = self.r.word() & !1;
            }
        }
    }

    /// An offset for leaves of up to this level that end at or before the address.
    fn offset(&mut self, level: usize, end: u64) -> i64 {
        let s = span(level);
        let room = bound(&self.job) - 1 - end;
        let k = room / s;
        let o = match self.r.below(28) {
            0 => 0,
            1 => self.r.below(s),
            2 => s - 1,
            3 => s + self.r.below(3) * self.r.of(&[1, 0x1000]),
            4 => s * self.r.within(1, 3) + self.r.below(s),
            5 => k * s,
            6 | 7 => s * self.r.below(k + 1),
            8 | 9 => span(level + 1) * self.r.below(room / span(level + 1) + 1),
            10 => span(level + 1),
            11 => span((level + 2).min(top(&self.job))),
            12 | 13 => s * self.r.within(1, 600),
            _ => s * self.r.within(1, 8),
        };
        if o > room && self.r.percent(95) {
            return (s * self.r.below(k + 1)) as i64;
        }
        o as i64
    }

    fn ranges(&mut self) {
        let (gpa, size, bound) = (self.job.gpa, self.job.size, bound(&self.job));
        let mut leaves = leaves(&self.job, &self.image);
        leaves.sort();
        leaves.retain(|l| l.0 < bound);
        let many = match self.r.below(60) {
            0 => 1024,
            1 => 1025,
            2..=9 => self.r.below(40),
            _ => self.r.within(1, 5),
        };
        let mut next = 0;
        let mut at = 0;
        let step = 1 + leaves.len() as u64 / (many + 1);
        while (self.job.ranges.len() as u64) < many && at < leaves.len() {
            let from = at;
            at += 1 + self.r.below(step) as usize;
            let to = if self.r.percent(50) { from } else { (from + self.r.below(step * 2) as usize).min(leaves.len() - 1) };
            let (mut first, mut last) = (leaves[from].0, leaves[to].0 + span(leaves[to].1) - 1);
            let mut level = leaves[from].1;
            if self.r.percent(15) {
                // A part of a leaf only.
                first += 0x1000 * self.r.below(span(level) / 0x1000);
                if self.r.percent(50) {
                    last = first + 0xfff;
                }
            }
            if first < next || last < first || (first < gpa + size && last >= gpa) {
                continue;
            }
            for l in &leaves[from..=to] {
                level = level.max(l.1);
            }
            at = at.max(to + 1);
            next = last + 1;
            let whole = leaves[to].0 + (span(leaves[to].1) - 1);
            let o = self.offset(level, whole.max(last));
            self.job.ranges.push((first, last, o));
        }
        // Ranges that touch nothing, up to the number wanted.
        while many >= 1024 && (self.job.ranges.len() as u64) < many && next + 0x2000 < bound {
            let first = next + 0x1000;
            if first + 0xfff >= gpa && first < gpa + size {
                next = gpa + size;
                continue;
            }
            let last = first + self.r.below(0x1000);
            self.job.ranges.push((first, last, 0x1000));
            next = last + 1;
        }
        if self.r.percent(35) {
            let room = bound - (gpa + size);
            let unit = self.r.of(&[0x1000, 0x20_0000, 0x20_0000, 0x4000_0000, 0x4000_0000]);
            let o = match self.r.below(5) {
                0 => room / unit * unit,
                1 => unit * self.r.below(room / unit + 1),
                2 => 0x1000 * self.r.within(1, 511),
                _ => unit * self.r.within(1, 20),
            };
            if o <= room {
                self.job.table_offset = o as i64;
            }
        }
    }

    /// Takes the bits below the address, which come now and then, from the leaves that are to move: with them a job is not in the
    /// shared domain. Leaves that stay keep theirs.
    fn clear_low_bits(&mut self) {
        for (_, level, at) in to_move(&self.job, &self.image) {
            self.image[at] &= !FIELD | leaf_field(level);
        }
    }

    /// Where the way to an address ends, at the level or above it: the place among the words, and its level.
    fn end_of_way(&self, to: u64, level: usize) -> (usize, usize) {
        let (mut table, mut l) = (self.nodes[0].table, top(&self.job));
        loop {
            let place = 512 * table + index(to, l);
            let e = self.image[place];
            let below = (e & FIELD).wrapping_sub(self.job.gpa) as usize / 4096;
            if l == level || !is_pointer(e, l) || below >= self.image.len() / 512 {
                return (place, l);
            }
            (table, l) = (below, l - 1);
        }
    }

    /// Puts entries where moved leaves come to stand: the same one to be merged, rarely another.
    fn plant(&mut self) {
        let all = leaves(&self.job, &self.image);
        for (a, level, at) in all {
            let end = a + (span(level) - 1);
            let hit = self.job.ranges.iter().find(|r| r.0 <= end && r.1 >= a);
            let offset = match hit {
                Some(r) if r.2 >= span(level) as i64 && r.2 % span(level) as i64 == 0 => r.2 as u64,
                _ => continue,
            };
            if !self.r.percent(40) || a + offset > bound(&self.job) - span(level) {
                continue;
            }
            let to = a + offset;
            let (slot, l) = self.end_of_way(to, level);
            if l == level && self.image[slot] & 1 == 0 {
                self.image[slot] = (self.image[at] & !leaf_field(level)) | to;
                if self.r.percent(3) {
                    self.image[slot] ^= 1 << self.r.of(&[1u64, 6, 8, 12, 30, 63]);
                }
            }
        }
    }

    fn loads(&mut self) {
        let all = bytes(&self.image);
        let pages: Vec<&[u8]> = all.chunks(4096).collect();
        let gpa = self.job.gpa;
        let wrong = self.r.percent(30);
        for (i, page) in pages.iter().enumerate() {
            let here = gpa.wrapping_add(4096 * i as u64);
            if wrong && self.r.percent(25) {
                let load = self.strange(here);
                self.job.loads.push(load);
            }
            if page.iter().any(|b| *b != 0) {
                self.job.loads.push(Load { gpa: here, data: page.to_vec() });
            }
        }
        if self.r.percent(20) {
            let i = self.r.below(pages.len() as u64);
            self.job.loads.push(Load { gpa: gpa.wrapping_add(4096 * i), data: Vec::new() });
        }
        if wrong {
            let load = self.strange(gpa);
            self.job.loads.push(load);
        }
    }

    /// A load that is refused, or one that a later load covers.
    fn strange(&mut self, here: u64) -> Load {
        let (gpa, size, bound) = (self.job.gpa, self.job.size, bound(&self.job));
        let end = gpa.wrapping_add(size);
        let away = self.r.of(&[gpa.wrapping_sub(4096), end, end.wrapping_add(4096), 0, bound, 1 << 63, u64::MAX - 4095]);
        match self.r.below(5) {
            0 => Load { gpa: here, data: vec![0x5a; self.r.of(&[1, 8, 4095, 4097, 8192, 512])] },
            1 => Load { gpa: away, data: vec![0x5a; self.r.of(&[1, 4095, 4097])] },
            2 => Load { gpa: away, data: Vec::new() },
            3 if away >= gpa && away - gpa < size => Load { gpa: here, data: Vec::new() },
            _ => Load { gpa: away, data: vec![0x5a; 4096] },
        }
    }

    fn damage_image(&mut self) {
        for _ in 0..self.r.within(1, 3) {
            let places: Vec<usize> = (0..self.image.len()).filter(|i| self.image[*i] != 0).collect();
            if places.is_empty() {
                return;
            }
            let at = self.r.of(&places);
            let other = self.r.of(&places);
            match self.r.below(5) {
                0 => self.image[at] ^= 1 << self.r.below(64),
                1 => self.image[at] ^= 1 << self.r.of(&[0, 7, 12, 13, 21]),
                2 => self.image[at] = self.image[other],
                3 => self.image[at] = self.r.word(),
                _ => {
                    let i = self.r.below(self.image.len() as u64) as usize;
                    self.image[i] = self.flags(false) | self.job.gpa.wrapping_add(4096 * self.r.below(self.job.size / 4096 + 2));
                }
            }
        }
    }

    fn damage_job(&mut self) {
        let bound = bound(&self.job);
        let j = &mut self.job;
        let r = &mut *self.r;
        match r.below(14) {
            0 => j.cr4 |= LA57,
            1 => j.cr3 = j.gpa + j.used + r.below(4096),
            2 => j.gpa += r.of(&[1, 8, 0x800]),
            3 => j.size += r.of(&[1, 8, 0x800]),
            4 => j.size = j.used - 4096,
            5 => j.gpa = bound - j.size + 4096,
            6 => j.table_offset = r.of(&[1, 0x800, -0x1000, i64::MIN, i64::MAX, bound as i64, -0x20_0000]),
            7 => j.ranges.reverse(),
            8 => j.ranges.push((j.gpa, j.gpa, 0x20_0000)),
            9 => j.ranges.push((bound, bound, 0)),
            10 => j.ranges.push((bound - 1, bound, 0)),
            11 => {
                if let Some(x) = j.ranges.last_mut() {
                    x.2 = -x.2;
                }
            }
            12 => {
                if let Some(x) = j.ranges.last_mut() {
                    x.2 = r.word() as i64;
                }
            }
            _ => {
                if let Some(x) = j.loads.last_mut() {
                    x.gpa = x.gpa.wrapping_add(r.of(&[1, 8, 2048, 4095]));
                }
            }
        }
    }
}

/// A job of four levels: mostly good, some damaged. `large` is for trees of hundreds of tables.
pub fn job(r: &mut Random, large: bool) -> Job {
    let mut d = Draft::new(r);
    d.region(large);
    d.tree();
    d.ranges();
    d.clear_low_bits();
    if d.r.percent(60) {
        d.plant();
    }
    if d.r.percent(15) {
        d.damage_image();
        d.clear_low_bits();
    }
    if d.r.percent(30) {
        d.job.cr4 = d.r.word() & !LA57;
    }
    d.loads();
    if d.r.percent(4) {
        let (gpa, end, low) = (d.job.gpa, d.job.gpa + d.job.size, d.job.cr3);
        let bound = bound(&d.job);
        d.job.cr3 = d.r.of(&[gpa.wrapping_sub(1), end, end + 4095, 0, bound, low | 1 << 52, low | 1 << 63, u64::MAX]);
    }
    if d.r.percent(10) {
        d.damage_job();
    }
    d.job
}
