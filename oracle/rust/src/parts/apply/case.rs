//! A case: a frame's memory, and steps on it: calls with all their arguments, and single stores.

use crate::part::Record;
use std::array::from_fn;

pub const LAYOUTS: [u32; 4] = [400, 420, 422, 444];
pub const DEPTHS: [u32; 3] = [8, 10, 12];

/// A 128x128 record's words of masks: luma, then chroma.
pub const RECORD: usize = 640;
pub const LUMA: usize = 384;

/// A case's start and a step's.
pub const HEADER: usize = 160;
const STEP: usize = 96;

#[derive(Clone, Copy, PartialEq, Eq, Debug)]
pub enum Pass {
    Columns,
    Rows,
}
pub const PASSES: [Pass; 2] = [Pass::Columns, Pass::Rows];

#[derive(Clone, Copy, PartialEq, Debug)]
pub enum Kind {
    CorrectColumn,
    CorrectRow,
    Filter(Pass),
}
pub const KINDS: [Kind; 4] = [
    Kind::CorrectColumn,
    Kind::CorrectRow,
    Kind::Filter(Pass::Columns),
    Kind::Filter(Pass::Rows),
];

/// Pairs are across and down, or luma and chroma.
#[derive(Clone, PartialEq, Debug)]
pub struct Call {
    pub kind: Kind,
    pub frame: [u32; 2],
    pub layout: u32,
    /// In samples.
    pub superblock: u32,
    pub row: u32,
    /// Of a tile, in superblocks; for columns' corrections.
    pub start: u32,
    /// For 16-bit filtering.
    pub depth: u32,
    /// The base levels of U and V.
    pub chroma: [u32; 2],
    /// That of the level bytes, in units.
    pub stride: u64,
    pub strides: [u64; 2],
    pub lent: Lent,
    pub contexts: [Vec<u8>; 2],
}

/// How much of each is lent.
#[derive(Clone, Copy, PartialEq, Debug)]
pub struct Lent {
    pub levels: u32,
    pub masks: u32,
    pub planes: [u32; 3],
}

/// What a single store changes.
#[derive(Clone, Copy, PartialEq, Debug)]
pub enum Part {
    Level,
    Mask,
    Sample(usize),
}
pub const PARTS: [Part; 5] = [
    Part::Level,
    Part::Mask,
    Part::Sample(0),
    Part::Sample(1),
    Part::Sample(2),
];

#[derive(Clone, PartialEq, Debug)]
pub enum Step {
    Call(Call),
    Put { part: Part, at: usize, value: u16 },
}

#[derive(Clone, PartialEq)]
pub struct Memory {
    pub levels: Vec<u8>,
    pub masks: Vec<u16>,
    pub planes: [Vec<u16>; 3],
}

#[derive(Clone)]
pub struct Case {
    /// Whether samples are u16.
    pub is_wide: bool,
    pub e: [u8; 64],
    pub i: [u8; 64],
    pub memory: Memory,
    pub steps: Vec<Step>,
}

/// A plane's geometry: 0 is luma, 1 and 2 chroma.
#[derive(Clone, Copy)]
pub struct Grid {
    pub is_luma: bool,
    /// Subsampling, 0 in luma.
    pub ss: [u32; 2],
    /// Its units across and down in the frame, and those of a superblock.
    pub units: [u32; 2],
    pub sb: [u32; 2],
    /// Records across.
    pub records: u32,
}

impl Call {
    pub fn frame_units(&self) -> [u32; 2] {
        self.frame.map(|side| side.div_ceil(4))
    }

    pub fn ss(&self) -> [u32; 2] {
        [self.layout != 444, self.layout == 420].map(u32::from)
    }

    pub fn records(&self) -> [u32; 2] {
        self.frame_units().map(|n| n.div_ceil(32))
    }

    /// Width and height of a stored plane.
    pub fn stored(&self, is_luma: bool) -> [u32; 2] {
        let ss = if is_luma { [0; 2] } else { self.ss() };
        from_fn(|axis| self.frame[axis].next_multiple_of(128) >> ss[axis])
    }

    /// The frame's superblocks across and down.
    pub fn superblocks(&self) -> [u32; 2] {
        self.frame.map(|side| side.div_ceil(self.superblock))
    }

    pub fn filters_chroma(&self) -> bool {
        self.layout != 400 && self.chroma != [0, 0]
    }

    pub fn grid(&self, is_luma: bool) -> Grid {
        let ss = if is_luma { [0; 2] } else { self.ss() };
        let units = self.frame_units();
        Grid {
            is_luma,
            ss,
            units: from_fn(|axis| (units[axis] + ss[axis]) >> ss[axis]),
            sb: ss.map(|ss| (self.superblock / 4) >> ss),
            records: self.records()[0],
        }
    }

    /// Luma, and chroma if it is filtered.
    pub fn filtered(&self) -> Vec<Grid> {
        match self.filters_chroma() {
            true => vec![self.grid(true), self.grid(false)],
            false => vec![self.grid(true)],
        }
    }

    /// How many units of luma and of chroma are corrected along the contexts.
    pub fn corrected(&self) -> [usize; 2] {
        let along = match self.kind {
            Kind::CorrectColumn if self.start == 0 => return [0; 2],
            Kind::CorrectRow if self.row == 0 => return [0; 2],
            Kind::CorrectColumn => |grid: Grid, row| {
                let first = row * grid.sb[1];
                grid.units[1].min(first + grid.sb[1]) - first
            },
            _ => |grid: Grid, _| grid.units[0],
        };
        [true, false].map(|is_luma| match is_luma || self.layout != 400 {
            true => along(self.grid(is_luma), self.row) as usize,
            false => 0,
        })
    }
}

impl Grid {
    pub fn classes(&self) -> usize {
        if self.is_luma {
            3
        } else {
            2
        }
    }

    /// Lines of units of a superblock row, cut at the frame's end.
    pub fn rows(&self, row: u32) -> std::ops::Range<u32> {
        row * self.sb[1]..self.units[1].min((row + 1) * self.sb[1])
    }

    /// The units of a record along an axis.
    pub fn side(&self, axis: usize) -> u32 {
        32 >> self.ss[axis]
    }

    /// The word and the bit of a unit in the frame's records.
    pub fn bit(&self, pass: Pass, class: usize, [x, y]: [u32; 2]) -> (usize, u32) {
        let record = y / self.side(1) * self.records + x / self.side(0);
        let (x, y) = (x % self.side(0), y % self.side(1));
        let (across, along, ss) = match pass {
            Pass::Columns => (x, y, self.ss[1]),
            Pass::Rows => (y, x, self.ss[0]),
        };
        let half = 16 >> ss;
        let word = self.word(record, pass, across, class, along / half);
        (word, along % half)
    }

    /// The word of a half.
    pub fn word(&self, record: u32, pass: Pass, across: u32, class: usize, half: u32) -> usize {
        let start = if self.is_luma { 0 } else { LUMA };
        let unit = pass as usize * 32 + across as usize;
        RECORD * record as usize + start + (unit * self.classes() + class) * 2 + half as usize
    }

    /// The highest class of a unit.
    pub fn class(&self, masks: &[u16], pass: Pass, unit: [u32; 2]) -> Option<usize> {
        (0..self.classes()).rev().find(|class| {
            let (word, bit) = self.bit(pass, *class, unit);
            masks[word] >> bit & 1 == 1
        })
    }
}

struct Reader<'a>(&'a [u8]);

impl<'a> Reader<'a> {
    fn take(&mut self, n: usize) -> &'a [u8] {
        let (taken, rest) = self.0.split_at(n);
        self.0 = rest;
        taken
    }

    fn u16(&mut self) -> u16 {
        u16::from_le_bytes(self.take(2).try_into().unwrap())
    }

    fn u32(&mut self) -> u32 {
        u32::from_le_bytes(self.take(4).try_into().unwrap())
    }

    fn u64(&mut self) -> u64 {
        u64::from_le_bytes(self.take(8).try_into().unwrap())
    }

    fn u16s(&mut self, n: usize) -> Vec<u16> {
        (0..n).map(|_| self.u16()).collect()
    }

    fn samples(&mut self, n: usize, is_wide: bool) -> Vec<u16> {
        match is_wide {
            true => self.u16s(n),
            false => self.take(n).iter().map(|s| u16::from(*s)).collect(),
        }
    }
}

fn put_samples(samples: &[u16], is_wide: bool, to: &mut Record) {
    match is_wide {
        true => to.extend(samples.iter().flat_map(|s| s.to_le_bytes())),
        false => to.extend(samples.iter().map(|s| *s as u8)),
    }
}

impl Step {
    fn read(from: &mut Reader) -> Self {
        let step = &mut Reader(from.take(STEP));
        let kind = step.u32() as usize;
        let frame = from_fn(|_| step.u32());
        let (layout, superblock, row, start) = (step.u32(), step.u32(), step.u32(), step.u32());
        if let Some(part) = kind.checked_sub(KINDS.len()) {
            return Step::Put {
                part: PARTS[part],
                at: row as usize,
                value: start as u16,
            };
        }
        let (depth, chroma) = (step.u32(), from_fn(|_| step.u32()));
        let lent = Lent {
            levels: step.u32(),
            masks: step.u32(),
            planes: from_fn(|_| step.u32()),
        };
        let contexts: [u16; 2] = from_fn(|_| step.u16());
        let (stride, strides) = (step.u64(), from_fn(|_| step.u64()));
        Step::Call(Call {
            kind: KINDS[kind],
            frame,
            layout,
            superblock,
            row,
            start,
            depth,
            chroma,
            stride,
            strides,
            lent,
            contexts: contexts.map(|n| from.take(n.into()).to_vec()),
        })
    }

    fn write(&self, to: &mut Record) {
        let end = to.len() + STEP;
        let words =
            |words: &[u32]| -> Record { words.iter().flat_map(|w| w.to_le_bytes()).collect() };
        match self {
            Step::Put { part, at, value } => {
                let part = PARTS.iter().position(|other| other == part).unwrap();
                let kind = (KINDS.len() + part) as u32;
                to.extend(words(&[kind, 0, 0, 0, 0, *at as u32, u32::from(*value)]));
                to.resize(end, 0);
            }
            Step::Call(c) => {
                let kind = KINDS.iter().position(|kind| *kind == c.kind).unwrap() as u32;
                let place = [
                    kind,
                    c.frame[0],
                    c.frame[1],
                    c.layout,
                    c.superblock,
                    c.row,
                    c.start,
                ];
                to.extend(words(&place));
                to.extend(words(&[c.depth, c.chroma[0], c.chroma[1]]));
                to.extend(words(&[c.lent.levels, c.lent.masks]));
                to.extend(words(&c.lent.planes));
                to.extend(
                    c.contexts
                        .iter()
                        .flat_map(|b| (b.len() as u16).to_le_bytes()),
                );
                let strides = [c.stride, c.strides[0], c.strides[1]];
                to.extend(strides.iter().flat_map(|s| s.to_le_bytes()));
                to.resize(end, 0);
                to.extend(c.contexts.concat());
            }
        }
    }
}

impl Case {
    /// The case's length, from its start.
    pub fn length(start: &[u8]) -> usize {
        Reader(start).u32() as usize
    }

    pub fn read(record: &[u8]) -> Self {
        let from = &mut Reader(record);
        let start = &mut Reader(from.take(HEADER));
        let (_, is_wide) = (start.u32(), start.u32() != 0);
        let [levels, masks, luma, u, v, steps]: [usize; 6] = from_fn(|_| start.u32() as usize);
        let [e, i] = from_fn(|_| start.take(64).try_into().unwrap());
        Self {
            is_wide,
            e,
            i,
            memory: Memory {
                levels: from.take(levels).to_vec(),
                masks: from.u16s(masks),
                planes: [luma, u, v].map(|n| from.samples(n, is_wide)),
            },
            steps: (0..steps).map(|_| Step::read(from)).collect(),
        }
    }

    pub fn write(&self) -> Record {
        let m = &self.memory;
        let mut record = vec![0; 4];
        let sizes = [m.levels.len(), m.masks.len()];
        let planes = m.planes.each_ref().map(Vec::len);
        let words = [
            &[usize::from(self.is_wide)],
            &sizes[..],
            &planes,
            &[self.steps.len()],
        ];
        let words = words.concat();
        record.extend(words.iter().flat_map(|n| (*n as u32).to_le_bytes()));
        record.extend(self.e);
        record.extend(self.i);
        assert_eq!(record.len(), HEADER);
        record.extend(&m.levels);
        m.write(self.is_wide, &mut record);
        for step in &self.steps {
            step.write(&mut record);
        }
        let length = record.len() as u32;
        record[..4].copy_from_slice(&length.to_le_bytes());
        record
    }

    /// The answer: each step's number, and memory afterwards.
    pub fn answer(&self, numbers: &[u8], after: &Memory) -> Record {
        let mut record = numbers.to_vec();
        after.write(self.is_wide, &mut record);
        record
    }

    /// An answer's numbers, masks and planes.
    pub fn answered(&self, answer: &[u8]) -> (Vec<u8>, Vec<u16>, [Vec<u16>; 3]) {
        let from = &mut Reader(answer);
        let numbers = from.take(self.steps.len()).to_vec();
        let masks = from.u16s(self.memory.masks.len());
        let planes = self.memory.planes.each_ref();
        (
            numbers,
            masks,
            planes.map(|plane| from.samples(plane.len(), self.is_wide)),
        )
    }
}

impl Memory {
    /// What calls may change.
    fn write(&self, is_wide: bool, to: &mut Record) {
        put_samples(&self.masks, true, to);
        for plane in &self.planes {
            put_samples(plane, is_wide, to);
        }
    }

    pub fn put(&mut self, part: Part, at: usize, value: u16) {
        match part {
            Part::Level => self.levels[at] = value as u8,
            Part::Mask => self.masks[at] = value,
            Part::Sample(plane) => self.planes[plane][at] = value,
        }
    }

    pub fn get(&self, part: Part, at: usize) -> u16 {
        match part {
            Part::Level => self.levels[at].into(),
            Part::Mask => self.masks[at],
            Part::Sample(plane) => self.planes[plane][at],
        }
    }
}
