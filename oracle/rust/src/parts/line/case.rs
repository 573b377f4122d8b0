//! A case, and what 7.14.6.1 and 7.14.6.2 say of it: for the tally alone.

use crate::part::Record;
use std::array::from_fn;

pub struct Case {
    pub width: u8,
    pub depth: u8,
    pub level: u8,
    pub sharpness: u8,
    /// p6 to p0, then q0 to q6.
    pub samples: [u16; 14],
}

/// What is compared with: limit, blimit, thresh and 1, shifted by the depth.
pub struct Thresholds {
    pub limit: i32,
    pub blimit: i32,
    pub thresh: i32,
    pub one: i32,
}

/// What is compared: the greater of the two sides, or the greatest.
struct Distances {
    /// p1 and p0, q1 and q0.
    first: i32,
    /// Twice p0 and q0, and half of p1 and q1.
    combined: i32,
    /// p2 and p1, q2 and q1.
    second: i32,
    /// p3 and p2, q3 and q2.
    third: i32,
    /// p1 to p2, from width 8 on p3, and p0; q likewise.
    flat: i32,
    /// p4 to p6 and p0; q likewise.
    flat2: i32,
}

/// What is done with a line.
#[derive(Clone, Copy)]
pub enum Kind {
    Kept,
    Two,
    Four,
    Wide6,
    Wide8,
    Wide16,
}

/// The tests; the first four make the filter mask.
#[derive(Clone, Copy)]
pub enum Test {
    First,
    Combined,
    Second,
    Third,
    Flat,
    Flat2,
    Hev,
}

impl Case {
    pub fn read(record: &[u8]) -> Self {
        let sample = |n: usize| u16::from_le_bytes([record[4 + 2 * n], record[5 + 2 * n]]);
        Self {
            width: record[0],
            depth: record[1],
            level: record[2],
            sharpness: record[3],
            samples: from_fn(sample),
        }
    }

    pub fn write(&self) -> Record {
        let mut record = vec![self.width, self.depth, self.level, self.sharpness];
        record.extend(self.samples.map(u16::to_le_bytes).as_flattened());
        record
    }

    pub fn maximum(&self) -> u16 {
        (1 << self.depth) - 1
    }

    /// By 7.14.4.
    pub fn thresholds(&self) -> Thresholds {
        let (level, sharpness) = (i32::from(self.level), i32::from(self.sharpness));
        let limit = match sharpness {
            0 => level.max(1),
            1..=4 => (level >> 1).clamp(1, 9 - sharpness),
            _ => (level >> 2).clamp(1, 9 - sharpness),
        };
        let shift = self.depth - 8;
        Thresholds {
            limit: limit << shift,
            blimit: (2 * (level + 2) + limit) << shift,
            thresh: (level >> 4) << shift,
            one: 1 << shift,
        }
    }

    fn distances(&self) -> Distances {
        let p = |k: usize| i32::from(self.samples[6 - k]);
        let q = |k: usize| i32::from(self.samples[7 + k]);
        let on_both = |a, b| i32::max((p(a) - p(b)).abs(), (q(a) - q(b)).abs());
        let from_0 = |from, to| (from..=to).map(|k| on_both(k, 0)).max().unwrap();
        Distances {
            first: on_both(1, 0),
            combined: 2 * (p(0) - q(0)).abs() + ((p(1) - q(1)).abs() >> 1),
            second: on_both(2, 1),
            third: on_both(3, 2),
            flat: from_0(1, if self.width < 8 { 2 } else { 3 }),
            flat2: from_0(4, 6),
        }
    }

    /// Whether the filter mask's tests are met, each by itself.
    fn filter_mask(&self, t: &Thresholds) -> [bool; 4] {
        let d = self.distances();
        [
            d.first <= t.limit,
            d.combined <= t.blimit,
            self.width < 6 || d.second <= t.limit,
            self.width < 8 || d.third <= t.limit,
        ]
    }

    pub fn kind(&self) -> Kind {
        self.kind_by(&self.thresholds())
    }

    pub fn kind_by(&self, t: &Thresholds) -> Kind {
        let d = self.distances();
        if self.level == 0 || self.filter_mask(t).contains(&false) {
            Kind::Kept
        } else if self.width == 4 || d.flat > t.one {
            if d.first > t.thresh {
                Kind::Two
            } else {
                Kind::Four
            }
        } else if self.width == 6 {
            Kind::Wide6
        } else if self.width == 8 || d.flat2 > t.one {
            Kind::Wide8
        } else {
            Kind::Wide16
        }
    }

    /// Where the outcome hangs on this test: 0 if it is just met, 1 if it is just missed.
    pub fn decides(&self, test: Test) -> Option<usize> {
        let (d, t) = (self.distances(), self.thresholds());
        let mut others = self.filter_mask(&t);
        if let Some(own) = others.get_mut(test as usize) {
            *own = true;
        }
        let width = self.width;
        let (is_asked, distance, threshold) = match test {
            Test::First => (true, d.first, t.limit),
            Test::Combined => (true, d.combined, t.blimit),
            Test::Second => (width >= 6, d.second, t.limit),
            Test::Third => (width >= 8, d.third, t.limit),
            Test::Flat => (width >= 6, d.flat, t.one),
            Test::Flat2 => (width == 16 && d.flat <= t.one, d.flat2, t.one),
            Test::Hev => (width == 4 || d.flat > t.one, d.first, t.thresh),
        };
        let is_asked = is_asked && self.level > 0 && !others.contains(&false);
        match distance - threshold {
            past @ 0..=1 if is_asked => Some(past as usize),
            _ => None,
        }
    }
}
