//! Frames for counting instructions, each made from a seed with its blocks; and rav1d's filtering and
//! recording of one. `speed/run` does the counting.

use super::apply::case::{Call, Case, Kind, Pass, Step};
use super::apply::filter::Stage;
use super::apply::make;
use super::apply::tally::{Counts, GROUPS};
use super::record::case::Block;
use super::record::recorder::{self, Recorder};
use super::record::tiling::{self, Kinds};
use crate::include::common::bitdepth::{BitDepth, BitDepth16, BitDepth8};
use crate::part::Record;
use crate::rng::Rng;
use crate::src::levels::BlockSize;
use std::array::from_fn;

/// A frame, its blocks in order, and the level values of segments, of which each block has one.
pub struct Counted {
    case: Case,
    call: Call,
    blocks: Vec<Block>,
    segments: Vec<[u8; 64]>,
}

/// A node above 16x16 is split once in so many, and else by chance.
const SPLIT: i32 = 2;

impl Counted {
    /// A frame at 4:2:0, of one tile and superblocks of 64. A key frame has intra blocks, another inter
    /// ones. It has all edge classes, and levels from 0 to 63.
    pub fn new(frame: [u32; 2], depth: u32, is_key: bool, seed: u64) -> Self {
        let rng = &mut Rng::new(seed, 0);
        let is_wide = depth > 8;
        let mut call = make::sized(frame, 420, is_wide, rng);
        (call.depth, call.superblock, call.chroma) = (depth, 64, [31, 33]);
        let mut frame = make::whole(call, is_wide, rng);
        frame.starts = [vec![0], vec![0]];
        let segments = make::segments(frame.call.chroma, rng);
        let kinds = if is_key { Kinds::Intra } else { Kinds::Inter };
        let blocks = make::record(&mut frame, &segments, (SPLIT, kinds), rng);
        let rows = 0..frame.call.superblocks()[1];
        let passes = rows.flat_map(|row| [(row, Pass::Columns), (row, Pass::Rows)]);
        let steps = passes.map(|(row, pass)| {
            let kind = Kind::Filter(pass);
            Step::Call(Call {
                kind,
                row,
                ..frame.call.clone()
            })
        });
        Self {
            case: Case {
                is_wide,
                e: frame.e,
                i: frame.i,
                memory: frame.memory,
                steps: steps.collect(),
            },
            call: frame.call,
            blocks,
            segments,
        }
    }

    /// As FORMATS.md has it: a record of part `frames`, then segments and blocks.
    pub fn write(&self) -> Record {
        let mut record = self.case.write();
        let counts = [self.blocks.len(), self.segments.len()];
        record.extend(counts.map(|n| (n as u32).to_le_bytes()).as_flattened());
        record.extend(self.segments.as_flattened());
        for b in &self.blocks {
            let segment = self.segments.iter().position(|s| *s == b.values).unwrap();
            let size = BlockSize::from_standard(b.size as u8).unwrap();
            let uvtx = if b.chroma != 0 { b.uvtx as u8 } else { 0 };
            record.extend(b.place.map(|n| (n as u16).to_le_bytes()).as_flattened());
            record.extend(b.tx_masks.map(u16::to_le_bytes).as_flattened());
            record.extend([b.size as u8, size as u8, b.tx as u8, uvtx]);
            record.extend([b.is_inter.into(), b.chroma, b.skip, b.mode]);
            record.extend([b.reference as u8, segment as u8, 0, 0]);
        }
        record
    }

    /// What the frame holds, in words. All its calls must be accepted.
    pub fn tally(&self) -> String {
        let mut counts = Counts::new();
        self.case.run(|call, fault, before, after| {
            assert!(fault.is_none());
            counts.call(&self.case, call, fault, before, after);
        });
        let counts = counts.done(&self.case);
        let shown = [
            "pieces",
            "plane, by pieces",
            "class in luma, by pieces",
            "class in chroma, by pieces",
            "level, by pieces",
            "line",
        ];
        let mut text = format!("blocks: {}\n", self.blocks.len());
        for (group, counts) in GROUPS.iter().zip(counts) {
            if shown.contains(&group.name) {
                let cells = group.cells.iter().zip(counts);
                let cells: Vec<_> = cells.map(|(cell, n)| format!("{cell} {n}")).collect();
                text += &format!("{}: {}\n", group.name, cells.join(", "));
            }
        }
        text
    }

    /// Filters a fresh frame, and before it, if there are two times, another. The answer is a sum over
    /// the planes.
    pub fn filter(&self, times: u32) -> u64 {
        match self.case.is_wide {
            true => self.filter_as::<BitDepth16>(times),
            false => self.filter_as::<BitDepth8>(times),
        }
    }

    fn filter_as<BD: BitDepth>(&self, times: u32) -> u64 {
        let stages =
            [(); 2].map(|_| Stage::new::<BD>(&self.case, &self.call, &[], &self.case.memory));
        for stage in &stages[2 - times as usize..] {
            self.filter_once::<BD>(stage);
        }
        let mut memory = self.case.memory.clone();
        stages[1].store::<BD>(&mut memory);
        let samples = memory.planes.iter().flatten();
        samples.fold(0, |sum, s| sum.wrapping_mul(31).wrapping_add(u64::from(*s)))
    }

    #[inline(never)]
    fn filter_once<BD: BitDepth>(&self, stage: &Stage) {
        for step in &self.case.steps {
            if let Step::Call(call) = step {
                if let Kind::Filter(pass) = call.kind {
                    stage.pass::<BD>(call, pass);
                }
            }
        }
    }

    /// Records all blocks into fresh memory, and before it, if there are two times, into other. The
    /// answer is whether the frame's masks and levels are what is recorded.
    pub fn record(&self, times: u32) -> bool {
        let calls: Vec<_> = self.blocks.iter().map(recorder::Call::new).collect();
        let (mut masks, mut levels) = (self.case.memory.masks.clone(), vec![]);
        levels.resize(self.case.memory.levels.len(), 0);
        masks.fill(0);
        let mut recorders = [(); 2].map(|_| Recorder::new(&masks, &levels));
        for recorder in &mut recorders[2 - times as usize..] {
            self.record_once(recorder, &calls);
        }
        let [_, recorder] = recorders;
        recorder.store(&mut masks, &mut levels);
        masks == self.case.memory.masks && levels == self.case.memory.levels
    }

    #[inline(never)]
    fn record_once(&self, recorder: &Recorder, calls: &[recorder::Call]) {
        let Some(first) = self.blocks.first() else {
            return;
        };
        let mut contexts = tiling::contexts(first);
        let across = first.records()[0];
        for (b, call) in self.blocks.iter().zip(calls) {
            let [x, y] = b.place;
            if x == 0 && y.is_multiple_of(16) {
                contexts[1].fill(2);
                contexts[3].fill(1);
            }
            let at = tiling::places(b);
            let mut rest = contexts.each_mut().into_iter().zip(at);
            let lent = from_fn(|_| rest.next().map(|(context, at)| &mut context[at..]).unwrap());
            recorder.call_at((y / 32 * across + x / 32) as usize, call, lent);
        }
    }
}
