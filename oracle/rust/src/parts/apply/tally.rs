//! What a run shows, counted by calls, edge pieces and lines.

use super::case::{Call, Case, Grid, Kind, Memory, Pass, Step, KINDS, LAYOUTS, PASSES};
use super::refusal::{Fault, Look, FAULTS, PAIRS};
use crate::part::{Group, Least};
use crate::parts::line::case::{Case as Line, Thresholds};
use std::array::from_fn;

const FAULT_NAMES: [&str; FAULTS.len()] = {
    let mut names = [""; FAULTS.len()];
    let mut n = 0;
    while n < names.len() {
        names[n] = FAULTS[n].2;
        n += 1;
    }
    names
};

pub const NUMBERS: [u8; 11] = [0, 2, 3, 4, 6, 7, 8, 9, 10, 11, 12];

pub static GROUPS: [Group; 22] = [
    Group::shared(
        "number, by calls",
        &["0", "2", "3", "4", "6", "7", "8", "9", "10", "11", "12"],
    ),
    Group::not_empty("fault, by calls", &FAULT_NAMES),
    Group::not_empty("gap too small, by calls", &PAIRS),
    Group::shared(
        "accepted calls",
        &["correct column", "correct row", "columns", "rows"],
    ),
    Group::shared("layout, by accepted calls", &["400", "420", "422", "444"]),
    Group::shared(
        "depth, by accepted passes",
        &["8 in u8", "8 in u16", "10", "12"],
    ),
    Group::shared("superblock, by accepted calls", &["64", "128"]),
    Group::filled("records, by frames", &["1", "2", "3", "4 or more"]),
    Group::filled(
        "corrected tile starts, by frames",
        &["none", "across", "down", "both ways"],
    ),
    Group::filled(
        "frame's end, by frames",
        &["aligned", "cut across", "cut down", "cut both ways"],
    ),
    Group::shared("pieces", &["columns", "rows"]),
    Group::shared("plane, by pieces", &["Y", "U", "V"]),
    Group::shared("class in luma, by pieces", &["0", "1", "2"]),
    Group::shared("class in chroma, by pieces", &["0", "1"]),
    Group::shared("classes set, by pieces", &["one", "several"]),
    Group::shared(
        "level, by pieces",
        &["the unit's", "the one before", "none"],
    ),
    Group::shared("rows' pieces", &["inside", "at a row's boundary"]),
    Group::shared("edges at unit 0", &["columns", "rows"]),
    Group::shared(
        "line",
        &["kept", "two", "four", "wide 6", "wide 8", "wide 16"],
    ),
    Group::shared(
        "line in columns",
        &["kept", "two", "four", "wide 6", "wide 8", "wide 16"],
    ),
    Group::shared(
        "line in rows",
        &["kept", "two", "four", "wide 6", "wide 8", "wide 16"],
    ),
    Group::shared(
        "corrected units",
        &["lowered", "as before", "set where none was"],
    ),
];

const PIECES: usize = 10; // the first group of pieces; those of lines end before the last group

/// For few frames of one size: lines and pieces alone must fill their cells.
pub static LARGE: [Group; GROUPS.len()] = {
    let mut groups = GROUPS;
    let mut n = 0;
    while n < groups.len() {
        if n < PIECES || n == groups.len() - 1 {
            groups[n].least = Least::Nothing;
        }
        n += 1;
    }
    groups
};

pub struct Counts {
    counts: Vec<Vec<u64>>,
    tiles: [bool; 2],
}

impl Counts {
    pub fn new() -> Self {
        Self {
            counts: GROUPS.iter().map(|g| vec![0; g.cells.len()]).collect(),
            tiles: [false; 2],
        }
    }

    fn add(&mut self, group: &str, cell: usize) {
        let n = GROUPS.iter().position(|g| g.name == group).unwrap();
        self.counts[n][cell] += 1;
    }

    /// A call with its first fault, and memory before and after.
    pub fn call(
        &mut self,
        case: &Case,
        call: &Call,
        fault: Option<usize>,
        before: &Memory,
        after: &Memory,
    ) {
        let number = fault.map_or(0, |n| FAULTS[n].1);
        let cell = NUMBERS.iter().position(|n| *n == number).unwrap();
        self.add("number, by calls", cell);
        if let Some(fault) = fault {
            self.add("fault, by calls", fault);
            if let Fault::Gap(_) = FAULTS[fault].0 {
                let look = Look {
                    call,
                    is_wide: case.is_wide,
                    memory: before,
                };
                self.add("gap too small, by calls", look.pair(fault));
            }
            return;
        }
        let kind = KINDS.iter().position(|kind| *kind == call.kind).unwrap();
        self.add("accepted calls", kind);
        let layout = LAYOUTS.iter().position(|layout| *layout == call.layout);
        self.add("layout, by accepted calls", layout.unwrap());
        self.add(
            "superblock, by accepted calls",
            (call.superblock == 128).into(),
        );
        match call.kind {
            Kind::Filter(pass) => {
                let depth = match (case.is_wide, call.depth) {
                    (false, _) => 0,
                    (_, 8) => 1,
                    (_, 10) => 2,
                    _ => 3,
                };
                self.add("depth, by accepted passes", depth);
                for grid in call.filtered() {
                    self.pieces(case, call, pass, &grid, before);
                }
            }
            _ => self.corrected(call, before, after),
        }
    }

    fn corrected(&mut self, call: &Call, before: &Memory, after: &Memory) {
        let is_column = call.kind == Kind::CorrectColumn;
        let corrected = call.corrected();
        if corrected == [0; 2] {
            return;
        }
        self.tiles[usize::from(!is_column)] = true;
        for (is_luma, count) in [true, false].into_iter().zip(corrected) {
            let grid = call.grid(is_luma);
            let y = call.row * grid.sb[1];
            for n in 0..count as u32 {
                let (pass, unit) = match is_column {
                    true => (Pass::Columns, [call.start * grid.sb[0], y + n]),
                    false => (Pass::Rows, [n, y]),
                };
                let cell = match grid.class(&before.masks, pass, unit) {
                    None => 2,
                    old if old == grid.class(&after.masks, pass, unit) => 1,
                    _ => 0,
                };
                self.add("corrected units", cell);
            }
        }
    }

    fn pieces(&mut self, case: &Case, call: &Call, pass: Pass, grid: &Grid, memory: &Memory) {
        for y in grid.rows(call.row) {
            for x in 0..grid.units[0] {
                let Some(class) = grid.class(&memory.masks, pass, [x, y]) else {
                    continue;
                };
                if [x, y][pass as usize] == 0 {
                    self.add("edges at unit 0", pass as usize);
                    continue;
                }
                let set = (0..grid.classes()).filter(|class| {
                    let (word, bit) = grid.bit(pass, *class, [x, y]);
                    memory.masks[word] >> bit & 1 == 1
                });
                let several = usize::from(set.count() > 1);
                for plane in if grid.is_luma { 0..1 } else { 1..3 } {
                    self.add("pieces", pass as usize);
                    self.add("plane, by pieces", plane);
                    self.add("classes set, by pieces", several);
                    match grid.is_luma {
                        true => self.add("class in luma, by pieces", class),
                        false => self.add("class in chroma, by pieces", class),
                    }
                    if pass == Pass::Rows {
                        self.add("rows' pieces", (y % grid.sb[1] == 0).into());
                    }
                    self.lines(case, call, pass, plane, class, [x, y], memory);
                }
            }
        }
    }

    #[allow(clippy::too_many_arguments)]
    fn lines(
        &mut self,
        case: &Case,
        call: &Call,
        pass: Pass,
        plane: usize,
        class: usize,
        [x, y]: [u32; 2],
        memory: &Memory,
    ) {
        let byte = if plane == 0 { pass as usize } else { plane + 1 };
        let stride = call.stride as usize;
        let level = |[x, y]: [u32; 2]| memory.levels[4 * (y as usize * stride + x as usize) + byte];
        let mut before = [x, y];
        before[pass as usize] -= 1;
        let (level, from) = match (level([x, y]), level(before)) {
            (0, 0) => (0, 2),
            (0, level) => (level, 1),
            (level, _) => (level, 0),
        };
        self.add("level, by pieces", from);
        let depth = if case.is_wide { call.depth as u8 } else { 8 };
        let shift = depth - 8;
        let thresholds = Thresholds {
            limit: i32::from(case.i[usize::from(level)]) << shift,
            blimit: i32::from(case.e[usize::from(level)]) << shift,
            thresh: i32::from(level >> 4) << shift,
            one: 1 << shift,
        };
        let width = match (plane, class) {
            (0, class) => 4 << class,
            (_, class) => 4 + 2 * class as u8,
        };
        let stride = call.strides[plane.min(1)] as usize;
        let (across, along) = match pass {
            Pass::Columns => (1, stride),
            Pass::Rows => (stride, 1),
        };
        let first = 4 * (y as usize * stride + x as usize);
        for line in 0..4 {
            let sample = |n: usize| {
                let at = first + line * along + n * across;
                let at = at.checked_sub(7 * across);
                at.and_then(|at| memory.planes[plane].get(at))
                    .copied()
                    .unwrap_or(0)
            };
            let line = Line {
                width,
                depth,
                level,
                sharpness: 0,
                samples: from_fn(sample),
            };
            let kind = line.kind_by(&thresholds) as usize;
            self.add("line", kind);
            self.add(["line in columns", "line in rows"][pass as usize], kind);
        }
    }

    /// The counts of a whole frame.
    pub fn done(mut self, case: &Case) -> Vec<Vec<u64>> {
        let calls = case.steps.iter().filter_map(|step| match step {
            Step::Call(call) => Some(call),
            Step::Put { .. } => None,
        });
        // Faults are rare, so most calls agree.
        let geometry = calls.map(|call| call.frame).collect::<Vec<_>>();
        let frame = *geometry
            .iter()
            .max_by_key(|frame| geometry.iter().filter(|other| other == frame).count())
            .unwrap();
        let records: u32 = frame.iter().map(|side| side.div_ceil(128)).product();
        self.add("records, by frames", records.clamp(1, 4) as usize - 1);
        let tiles = usize::from(self.tiles[0]) + 2 * usize::from(self.tiles[1]);
        self.add("corrected tile starts, by frames", tiles);
        let cut = frame.map(|side| usize::from(!side.is_multiple_of(128)));
        self.add("frame's end, by frames", cut[0] + 2 * cut[1]);
        self.counts
    }
}

/// The passes' names stand for their axes.
const _: () = assert!(PASSES[0] as usize == 0 && PASSES[1] as usize == 1);
