//! Document 01's table of numbers, row by row, by plain loops.

use super::case::{Call, Grid, Kind, Memory, Pass, DEPTHS, LAYOUTS, RECORD};

/// What 01 refuses. 0 and 1 are U and V, across and down, or luma and chroma; planes are 0 to 2.
#[derive(Clone, Copy, PartialEq, Eq, Debug)]
pub enum Fault {
    Base(usize),
    BaseAt400(usize),
    Depth,
    Layout,
    NoSide(usize),
    LongSide(usize),
    Superblock,
    ShortContext(usize),
    ContextValue(usize),
    Stride,
    ShortLevels,
    ShortMasks,
    /// Of a plane, at a unit of the row or of the line above it.
    Level(usize, Above),
    PlaneStride(usize),
    ShortPlane(usize),
    /// Of a plane, in the row's lines or in those above.
    Sample(usize, Above),
    Row,
    Start,
    Gap(usize),
    OutsideFrame(usize),
    /// Of chroma; a half of luma may hold all its bits.
    OutsideHalf,
}

#[derive(Clone, Copy, PartialEq, Eq, Debug)]
pub enum Above {
    No,
    Yes,
}

use Above::*;
use Fault::*;

/// Faults, their numbers and names, the lowest first, and each fault after those that it builds on.
pub const FAULTS: [(Fault, u8, &str); 42] = [
    (Base(0), 2, "base level of U"),
    (Base(1), 2, "base level of V"),
    (BaseAt400(0), 2, "base level of U at 400"),
    (BaseAt400(1), 2, "base level of V at 400"),
    (Depth, 3, "depth"),
    (Layout, 4, "layout"),
    (NoSide(0), 4, "width 0"),
    (NoSide(1), 4, "height 0"),
    (LongSide(0), 4, "width above 16384"),
    (LongSide(1), 4, "height above 16384"),
    (Superblock, 4, "superblock"),
    (ShortContext(0), 6, "context short"),
    (ShortContext(1), 6, "context short in chroma"),
    (ContextValue(0), 6, "context value"),
    (ContextValue(1), 6, "context value in chroma"),
    (Stride, 7, "stride of levels"),
    (ShortLevels, 7, "levels"),
    (ShortMasks, 7, "masks"),
    (Level(0, No), 8, "level in luma"),
    (Level(0, Yes), 8, "level in luma, above"),
    (Level(1, No), 8, "level in U"),
    (Level(1, Yes), 8, "level in U, above"),
    (Level(2, No), 8, "level in V"),
    (Level(2, Yes), 8, "level in V, above"),
    (PlaneStride(0), 9, "stride of luma"),
    (PlaneStride(1), 9, "stride of chroma"),
    (ShortPlane(0), 9, "luma short"),
    (ShortPlane(1), 9, "U short"),
    (ShortPlane(2), 9, "V short"),
    (Sample(0, No), 9, "sample in luma"),
    (Sample(0, Yes), 9, "sample in luma, above"),
    (Sample(1, No), 9, "sample in U"),
    (Sample(1, Yes), 9, "sample in U, above"),
    (Sample(2, No), 9, "sample in V"),
    (Sample(2, Yes), 9, "sample in V, above"),
    (Row, 10, "row"),
    (Start, 10, "tile start"),
    (Gap(0), 11, "gap in luma"),
    (Gap(1), 11, "gap in chroma"),
    (OutsideFrame(0), 12, "outside the frame in luma"),
    (OutsideFrame(1), 12, "outside the frame in chroma"),
    (OutsideHalf, 12, "outside the half in chroma"),
];

/// A call, and what it is lent.
pub struct Look<'a> {
    pub call: &'a Call,
    pub is_wide: bool,
    pub memory: &'a Memory,
}

impl Look<'_> {
    /// The first fault, whose number is the lowest, by its place in the list.
    pub fn fault(&self) -> Option<usize> {
        FAULTS.iter().position(|(fault, _, _)| self.has(*fault))
    }

    /// Whether a call has the fault, if it has none of those before.
    fn has(&self, fault: Fault) -> bool {
        let c = self.call;
        match fault {
            Layout => return !LAYOUTS.contains(&c.layout),
            NoSide(axis) => return c.frame[axis] == 0,
            LongSide(axis) => return c.frame[axis] > 16384,
            Superblock => return c.superblock != 64 && c.superblock != 128,
            ShortMasks => {
                let records = c.records().map(u64::from);
                return records[0] * records[1] * RECORD as u64 > c.lent.masks.into();
            }
            Row => return c.row >= c.superblocks()[1],
            _ => {}
        }
        match c.kind {
            Kind::Filter(pass) => self.filter_has(pass, fault),
            _ => self.correction_has(fault),
        }
    }

    fn correction_has(&self, fault: Fault) -> bool {
        let c = self.call;
        let is_column = c.kind == Kind::CorrectColumn;
        let is_outside =
            || c.row >= c.superblocks()[1] || is_column && c.start >= c.superblocks()[0];
        let corrected = |n: usize| if is_outside() { 0 } else { c.corrected()[n] };
        match fault {
            ShortContext(n) => c.contexts[n].len() < corrected(n),
            ContextValue(n) => {
                let highest = [2, 1][n];
                c.contexts[n][..corrected(n)].iter().any(|v| *v > highest)
            }
            Start => is_column && c.start >= c.superblocks()[0],
            _ => false,
        }
    }

    fn filter_has(&self, pass: Pass, fault: Fault) -> bool {
        let c = self.call;
        let is_filtered = |plane: usize| plane == 0 || c.filters_chroma();
        let is_inside = || c.row < c.superblocks()[1];
        match fault {
            Base(n) => c.chroma[n] > 63,
            BaseAt400(n) => c.layout == 400 && c.chroma[n] != 0,
            Depth => self.is_wide && !DEPTHS.contains(&c.depth),
            Stride => c.stride < c.frame_units()[0].into(),
            ShortLevels => {
                4 * u128::from(c.stride) * u128::from(c.frame_units()[1]) > c.lent.levels.into()
            }
            Level(plane, above) => {
                is_filtered(plane) && is_inside() && self.level_is_high(pass, plane, above)
            }
            PlaneStride(n) => is_filtered(n) && c.strides[n] < c.stored(n == 0)[0].into(),
            ShortPlane(plane) => {
                let height = u128::from(c.stored(plane == 0)[1]);
                let least = u128::from(c.strides[plane.min(1)]) * height;
                is_filtered(plane) && least > c.lent.planes[plane].into()
            }
            Sample(plane, above) => {
                is_filtered(plane) && is_inside() && self.sample_is_high(pass, plane, above)
            }
            Gap(n) => is_filtered(n) && self.gap_breaks(pass, &c.grid(n == 0)),
            OutsideFrame(n) => {
                is_filtered(n) && self.stray(pass, &c.grid(n == 0), |is_in_half| is_in_half)
            }
            OutsideHalf => {
                is_filtered(1) && self.stray(pass, &c.grid(false), |is_in_half| !is_in_half)
            }
            _ => false,
        }
    }

    fn level_is_high(&self, pass: Pass, plane: usize, above: Above) -> bool {
        let grid = self.call.grid(plane == 0);
        let byte = if plane == 0 { pass as usize } else { plane + 1 };
        let rows = grid.rows(self.call.row);
        let lines = match (above, pass) {
            (No, _) => rows,
            (Yes, Pass::Rows) if rows.start > 0 => rows.start - 1..rows.start,
            (Yes, _) => 0..0,
        };
        let (stride, wide) = (self.call.stride as usize, grid.units[0] as usize);
        let level = |x: usize, y: u32| self.memory.levels[4 * (y as usize * stride + x) + byte];
        lines
            .into_iter()
            .any(|y| (0..wide).any(|x| level(x, y) > 63))
    }

    fn sample_is_high(&self, pass: Pass, plane: usize, above: Above) -> bool {
        let c = self.call;
        if !self.is_wide {
            return false;
        }
        let lines = c.grid(plane == 0).sb[1] * 4;
        let first = c.row * lines;
        let lines = match (above, pass) {
            (No, _) => first..first + lines,
            (Yes, Pass::Rows) if first > 0 => first - 8..first,
            (Yes, _) => 0..0,
        };
        let wide = c.stored(plane == 0)[0] as usize;
        let stride = c.strides[plane.min(1)] as usize;
        let samples = &self.memory.planes[plane];
        let highest = (1u16 << c.depth) - 1;
        let mut lines = lines.map(|y| &samples[y as usize * stride..][..wide]);
        lines.any(|line| line.iter().any(|s| *s > highest))
    }

    fn gap_breaks(&self, pass: Pass, grid: &Grid) -> bool {
        self.close_pair(pass, grid).is_some()
    }

    /// Of a fault of the gap rule the pair, else 0.
    pub fn pair(&self, fault: usize) -> usize {
        match (FAULTS[fault].0, self.call.kind) {
            (Gap(n), Kind::Filter(pass)) => self.close_pair(pass, &self.call.grid(n == 0)).unwrap(),
            _ => 0,
        }
    }

    /// The first pair of neighbours on a line of units of the row that breaks the gap rule.
    fn close_pair(&self, pass: Pass, grid: &Grid) -> Option<usize> {
        let masks = &self.memory.masks;
        let row = self.call.row;
        let rows = grid.rows(row);
        match pass {
            Pass::Columns => rows.into_iter().find_map(|y| {
                let edge = |x: u32| match x < grid.units[0] {
                    true => grid.class(masks, pass, [x, y]),
                    false => None,
                };
                breaks(&edge, grid.records * grid.side(0))
            }),
            Pass::Rows => (0..grid.units[0]).find_map(|x| {
                let edge = |k: u32| match rows.start + k < rows.end {
                    true => grid.class(masks, pass, [x, rows.start + k]),
                    false => None,
                };
                breaks(&edge, grid.sb[1])
            }),
        }
    }

    /// Whether a bit of the row lies outside the frame, and in its half or not.
    fn stray(&self, pass: Pass, grid: &Grid, is_asked: impl Fn(bool) -> bool) -> bool {
        let c = self.call;
        let masks = &self.memory.masks;
        let record_row = c.row * (c.superblock / 64) / 2;
        let first = c.row * c.superblock / 4 % 32;
        // The units across the pass and the halves along it that are the row's.
        let axis = 1 - pass as usize;
        let (units, halves) = match pass {
            Pass::Columns => (0..grid.side(0), first / 16..(first + c.superblock / 4) / 16),
            Pass::Rows => {
                let first = first >> grid.ss[1];
                (first..first + grid.sb[1], 0..2)
            }
        };
        let half_holds = 16 >> grid.ss[axis];
        for record in 0..grid.records {
            for unit in units.clone() {
                for half in halves.clone() {
                    for class in 0..grid.classes() {
                        let at = record_row * grid.records + record;
                        let word = masks[grid.word(at, pass, unit, class, half)];
                        for bit in 0..16 {
                            if word >> bit & 1 == 0 {
                                continue;
                            }
                            let along = half * half_holds + bit;
                            let (x, y) = match pass {
                                Pass::Columns => (unit, along),
                                Pass::Rows => (along, unit),
                            };
                            let x = record * grid.side(0) + x;
                            let y = record_row * grid.side(1) + y;
                            let is_in_half = bit < half_holds;
                            let is_in_frame = x < grid.units[0] && y < grid.units[1];
                            if !(is_in_half && is_in_frame) && is_asked(is_in_half) {
                                return true;
                            }
                        }
                    }
                }
            }
        }
        false
    }
}

/// What is too close, and at which distance: by the start of a line, two edges, and by its end.
pub const PAIRS: [&str; 9] = [
    "start 1", "start 2", "start 3", "edges 1", "edges 2", "edges 3", "end 1", "end 2", "end 3",
];

/// Two neighbours on a line that are too close: marks are its start, its end and its edges.
fn breaks(edge: &dyn Fn(u32) -> Option<usize>, end: u32) -> Option<usize> {
    let marks: Vec<(u32, Option<usize>)> = (0..=end)
        .map(|u| (u, edge(u)))
        .filter(|(u, class)| *u == 0 || *u == end || class.is_some())
        .collect();
    marks.windows(2).find_map(|pair| {
        let [(a, first), (b, second)] = pair else {
            unreachable!()
        };
        let distance = b - a;
        let highest = match distance {
            1 => 0,
            2 | 3 => 1,
            _ => 2,
        };
        let is_high = [first, second]
            .iter()
            .any(|class| class.is_some_and(|c| c > highest));
        let sort = match (first, *b == end) {
            (None, _) => 0,
            (_, false) => 1,
            _ => 2,
        };
        is_high.then(|| 3 * sort + distance as usize - 1)
    })
}
