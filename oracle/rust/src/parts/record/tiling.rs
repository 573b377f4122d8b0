//! Legal tilings: one block, with memory as the blocks before it left it; or a whole frame of tiles.

use super::case::{tx_of, Block, Case, BLOCKS};
use super::make;
use super::recorder::Recorder;
use crate::rng::Rng;
use crate::src::tables::dav1d_txfm_dimensions;
use std::array::from_fn;
use std::collections::HashMap;

struct Tiling<'a> {
    rng: &'a mut Rng,
    /// Frame, layout and stride; the rest is each block's own.
    frame: Block,
    /// The frame in units, rounded up to 8 samples: blocks cover it.
    covered: [u32; 2],
    /// The unit whose block is the case, if one is asked for.
    target: Option<[u32; 2]>,
    /// A node is split once in so many, and else by chance.
    split: i32,
    recorder: Recorder,
    /// Above and left in luma, then in chroma.
    contexts: [Vec<u8>; 4],
    /// The level values of segments, of which blocks have one; else each block has any.
    segments: &'a [[u8; 64]],
    kinds: Kinds,
    /// All blocks so far, in order.
    blocks: Vec<Block>,
}

/// Which blocks a tiling has.
#[derive(Clone, Copy, PartialEq)]
pub enum Kinds {
    Both,
    Intra,
    Inter,
}

/// A block at any unit, so large ones more often than small ones, and more at an odd frame's end.
pub fn tiled(rng: &mut Rng) -> Case {
    let frame = make::frame(rng);
    let covered = frame.frame_units().map(|n| n.next_multiple_of(2));
    let target = from_fn(|axis| {
        let is_odd = covered[axis] > frame.frame_units()[axis];
        match is_odd && rng.once_in(2) {
            true => covered[axis] - 1,
            false => rng.range(0, covered[axis] as i32 - 1) as u32,
        }
    });
    let mut memory = make::memory(rng);
    let masks = &mut memory.masks[..frame.masks() as usize];
    masks.fill(0);
    let recorder = Recorder::new(masks, &memory.levels[..frame.levels() as usize]);
    let superblock = rng.pick(&[16, 32]);
    let mut tiling = Tiling {
        frame,
        covered,
        target: Some(target),
        split: any_split(rng),
        recorder,
        contexts: contexts(&frame),
        segments: &[],
        kinds: Kinds::Both,
        blocks: vec![],
        rng,
    };
    let block = tiling.superblocks(superblock);
    tiling.recorder.store(&mut memory.masks, &mut memory.levels);
    for (n, at) in places(&block).into_iter().enumerate() {
        let along = block.along()[n];
        memory.contexts[n][..along].copy_from_slice(&tiling.contexts[n][at..][..along]);
    }
    Case {
        block,
        lent: make::lent(&block, rng),
        memory,
    }
}

/// Contexts as they start, with room for a block past the frame.
pub fn contexts(frame: &Block) -> [Vec<u8>; 4] {
    let across = frame.frame_units()[0] as usize + 32;
    [(2, across), (2, 64), (1, across), (1, 64)].map(|(start, n)| vec![start; n])
}

/// What tile corrections ask for: of a superblock row of a tile the contexts at its right end, and of a
/// row of tiles those at its lower end; in luma and in chroma.
#[derive(Default)]
pub struct Ends {
    /// By the superblock column after the tile, and the superblock row.
    pub right: HashMap<(u32, u32), [Vec<u8>; 2]>,
    /// By the superblock row after the tiles.
    pub lower: HashMap<u32, [Vec<u8>; 2]>,
}

/// How often a node is split, for `whole`.
pub fn any_split(rng: &mut Rng) -> i32 {
    rng.pick(&[1, 2, 2, 4])
}

/// Records all blocks of a frame, and gives them in order. Tile starts are in superblocks, 0 among them;
/// `superblock` is in units.
#[allow(clippy::too_many_arguments)]
pub fn whole(
    rng: &mut Rng,
    frame: Block,
    superblock: u32,
    starts: [&[u32]; 2],
    segments: &[[u8; 64]],
    (split, kinds): (i32, Kinds),
    masks: &mut [u16],
    levels: &mut [u8],
) -> (Ends, Vec<Block>) {
    let mut tiling = Tiling {
        frame,
        covered: frame.frame_units().map(|n| n.next_multiple_of(2)),
        target: None,
        split,
        recorder: Recorder::new(masks, levels),
        contexts: contexts(&frame),
        segments,
        kinds,
        blocks: vec![],
        rng,
    };
    let mut ends = Ends::default();
    let count = tiling.covered.map(|side| side.div_ceil(superblock));
    let tiles = |axis: usize| {
        let next = starts[axis].iter().skip(1).copied().chain([count[axis]]);
        starts[axis].iter().copied().zip(next)
    };
    for (top, bottom) in tiles(1) {
        tiling.contexts[0].fill(2);
        tiling.contexts[2].fill(1);
        for (first, last) in tiles(0) {
            for row in top..bottom {
                tiling.contexts[1].fill(2);
                tiling.contexts[3].fill(1);
                for column in first..last {
                    tiling.node([column, row].map(|n| n * superblock), superblock);
                }
                let from = |ss: u32| ((row * superblock % 32) >> ss) as usize;
                let [_, ss_ver] = frame.ss();
                let luma = tiling.contexts[1][from(0)..].to_vec();
                let chroma = tiling.contexts[3][from(ss_ver)..].to_vec();
                ends.right.insert((last, row), [luma, chroma]);
            }
        }
        let above = [0, 2].map(|n| tiling.contexts[n].clone());
        ends.lower.insert(bottom, above);
    }
    let blocks = tiling.blocks;
    tiling.recorder.store(masks, levels);
    (ends, blocks)
}

/// A block's places in the contexts.
pub fn places(block: &Block) -> [usize; 4] {
    let ([x, y], ss) = (block.place, block.ss());
    [x, y % 32, x >> ss[0], (y % 32) >> ss[1]].map(|n| n as usize)
}

/// The number of the kind that has four nodes.
const SPLIT: u8 = 3;

/// Places and sizes of a node's blocks, or of its four nodes, by the kind's number in the standard.
fn children(kind: u8, n: u32) -> Vec<[u32; 4]> {
    let (h, q) = (n / 2, n / 4);
    match kind {
        0 => vec![[0, 0, n, n]],
        1 => vec![[0, 0, n, h], [0, h, n, h]],
        2 => vec![[0, 0, h, n], [h, 0, h, n]],
        SPLIT => vec![[0, 0, h, h], [h, 0, h, h], [0, h, h, h], [h, h, h, h]],
        4 => vec![[0, 0, h, h], [h, 0, h, h], [0, h, n, h]],
        5 => vec![[0, 0, n, h], [0, h, h, h], [h, h, h, h]],
        6 => vec![[0, 0, h, h], [0, h, h, h], [h, 0, h, n]],
        7 => vec![[0, 0, h, n], [h, 0, h, h], [h, h, h, h]],
        8 => (0..4).map(|k| [0, k * q, n, q]).collect(),
        _ => (0..4).map(|k| [k * q, 0, q, n]).collect(),
    }
}

impl Tiling<'_> {
    /// Records superblocks in raster order up to the case.
    fn superblocks(&mut self, n: u32) -> Block {
        let [w, h] = self.covered.map(|side| side.div_ceil(n));
        let mut places = (0..w * h).map(|k| [k % w * n, k / w * n]);
        let found = places.find_map(|place| {
            if place[0] == 0 {
                self.contexts[1].fill(2);
                self.contexts[3].fill(1);
            }
            self.node(place, n)
        });
        found.expect("a block that covers the target")
    }

    fn node(&mut self, [x, y]: [u32; 2], n: u32) -> Option<Block> {
        if x >= self.covered[0] || y >= self.covered[1] {
            return None;
        }
        let kind = self.kind([x, y], n);
        children(kind, n).into_iter().find_map(|[dx, dy, w, h]| {
            let place = [x + dx, y + dy];
            match kind {
                SPLIT if n > 2 => self.node(place, w),
                _ => self.block(place, [w, h]),
            }
        })
    }

    /// One of the kinds that the standard allows at a node.
    fn kind(&mut self, place: [u32; 2], n: u32) -> u8 {
        let has_half = |axis| place[axis] + n / 2 < self.covered[axis];
        let mut kinds: Vec<u8> = match [has_half(0), has_half(1)] {
            [true, true] => match n {
                2 => (0..=3).collect(),
                32 => (0..=7).collect(),
                _ => (0..=9).collect(),
            },
            [true, false] => vec![1, SPLIT],
            [false, true] => vec![2, SPLIT],
            [false, false] => vec![SPLIT],
        };
        if self.frame.layout == 422 {
            kinds.retain(|kind| ![2, 6, 7, 9].contains(kind));
        }
        match self.rng.once_in(self.split) && n > 4 {
            true => SPLIT,
            false => self.rng.pick(&kinds),
        }
    }

    /// Records a block, unless it is the case.
    fn block(&mut self, place: [u32; 2], units: [u32; 2]) -> Option<Block> {
        if place[0] >= self.covered[0] || place[1] >= self.covered[1] {
            return None;
        }
        let block = self.coded(place, units);
        let covers = |target: [u32; 2], axis: usize| {
            target[axis] < place[axis] + units[axis] && target[axis] >= place[axis]
        };
        if self
            .target
            .is_some_and(|unit| covers(unit, 0) && covers(unit, 1))
        {
            return Some(block);
        }
        let mut at = places(&block).into_iter();
        let contexts = self.contexts.each_mut();
        let contexts = contexts.map(|context| &mut context[at.next().unwrap()..]);
        self.recorder.record(&block, contexts);
        self.blocks.push(block);
        None
    }

    /// A block as a stream can have it.
    fn coded(&mut self, place: [u32; 2], units: [u32; 2]) -> Block {
        let rng = &mut *self.rng;
        let mut block = Block {
            place,
            size: BLOCKS.iter().position(|block| *block == units).unwrap() as u32,
            ..self.frame
        };
        let ss = block.ss();
        // Of blocks that share a chroma unit the last has the pair.
        let shares =
            |axis: usize| units[axis] == 1 && ss[axis] == 1 && place[axis].is_multiple_of(2);
        let has_pair = block.layout != 400 && !shares(0) && !shares(1);
        block.is_inter = match self.kinds {
            Kinds::Both => rng.once_in(2),
            kinds => kinds == Kinds::Inter,
        };
        make::code(&mut block, has_pair, rng);
        if !self.segments.is_empty() {
            block.values = rng.pick(self.segments);
        }
        if rng.once_in(8) {
            // Lossless.
            (block.tx, block.uvtx) = (0, 0);
            return block;
        }
        block.tx = block.largest_tx();
        if !block.is_inter {
            for _ in 0..rng.range(0, 2) {
                block.tx = dav1d_txfm_dimensions[block.tx as usize].sub as u32;
            }
        }
        if has_pair {
            block.uvtx = tx_of(block.chroma_units().map(|n| n.min(8)));
        }
        block
    }
}
