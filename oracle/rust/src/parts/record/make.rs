//! Isolated blocks, and what cases of any sort are made of.

use super::case::{Block, Case, Lent, Memory, CONTEXT, LAYOUTS, LEVELS, MASKS, TRANSFORMS};
use super::refusal::RANGES;
use crate::rng::Rng;
use std::array::from_fn;

/// The transforms that fit into these units.
fn fitting(units: [u32; 2]) -> Vec<u32> {
    let fits = |tx: &u32| {
        let [w, h] = TRANSFORMS[*tx as usize];
        w <= units[0] && h <= units[1]
    };
    (0..TRANSFORMS.len() as u32).filter(fits).collect()
}

pub fn up_to(n: u32, rng: &mut Rng) -> u32 {
    rng.range(0, n as i32) as u32
}

pub fn flag(is_on: bool, rng: &mut Rng) -> u8 {
    if is_on {
        rng.pick(&[1, 1, 2, 255])
    } else {
        0
    }
}

/// A frame of at most four records whose levels fit; the block is a 4x4 at its start.
pub fn frame(rng: &mut Rng) -> Block {
    let units = loop {
        let few = rng.pick(&[[1, 1], [1, 1], [2, 1], [1, 2]]);
        let many = rng.pick(&[[2, 2], [3, 1], [1, 3], [4, 1], [1, 4]]);
        let records = rng.pick(&[few, few, many]);
        let less = records.map(|_| up_to(31, rng) * up_to(3, rng).min(1));
        let units: [u32; 2] = from_fn(|axis| 32 * records[axis] - less[axis]);
        if 4 * units[0] * units[1] <= LEVELS as u32 {
            break units;
        }
    };
    let more = LEVELS as u32 / (4 * units[1]) - units[0];
    Block {
        is_inter: false,
        chroma: 0,
        skip: 0,
        mode: 0,
        frame: units.map(|n| 4 * n - up_to(3, rng)),
        layout: rng.pick(&LAYOUTS),
        place: [0; 2],
        size: 0,
        tx: 0,
        uvtx: 0,
        reference: 0,
        tx_masks: [0; 2],
        stride: units[0] + if rng.once_in(2) { 0 } else { up_to(more, rng) },
        values: [0; 64],
    }
}

/// What is neither place, kind nor transform. Intra blocks have no use for some of it.
pub fn code(block: &mut Block, has_pair: bool, rng: &mut Rng) {
    block.chroma = flag(has_pair, rng);
    if !has_pair {
        block.uvtx = rng.pick(&[0, 18, 19, u32::MAX]);
    }
    if block.is_inter {
        block.skip = flag(rng.once_in(4), rng);
        block.mode = flag(rng.once_in(2), rng);
        block.reference = up_to(7, rng);
        block.tx_masks = from_fn(|_| {
            let (any, one) = (rng.next(), 1 << rng.pick(&[0, 1, 4, 5]));
            rng.pick(&[0, u16::MAX, one, any as u16, (any & any >> 16) as u16])
        });
    }
    rng.fill(&mut block.values);
}

/// Any memory.
pub fn memory(rng: &mut Rng) -> Memory {
    let mut memory = Memory {
        contexts: [[0; CONTEXT]; 4],
        masks: vec![0; MASKS],
        levels: vec![0; LEVELS],
    };
    rng.fill(memory.contexts.as_flattened_mut());
    rng.fill(&mut memory.levels);
    let density = rng.range(0, 3);
    for word in &mut memory.masks {
        let any = rng.next();
        *word = match density {
            0 => 0,
            1 => u16::MAX,
            2 => any as u16,
            _ => (any & any >> 16 & any >> 32) as u16,
        };
    }
    memory
}

/// For each as little as 01 allows, or more.
pub fn lent(block: &Block, rng: &mut Rng) -> Lent {
    let mut lent = |least: u32, all: usize| match rng.once_in(2) {
        true => least,
        false => least + up_to(all as u32 - least, rng),
    };
    Lent {
        contexts: block.along().map(|least| lent(least as u32, CONTEXT) as u8),
        masks: lent(block.masks() as u32, MASKS),
        levels: lent(block.levels() as u32, LEVELS),
    }
}

/// Any legal contexts.
fn contexts(block: &Block, to: &mut [[u8; CONTEXT]; 4], rng: &mut Rng) {
    for (n, along) in block.along().into_iter().enumerate() {
        let values = RANGES[n] + 1;
        for value in &mut to[n][..along] {
            *value %= values;
        }
        if rng.once_in(4) {
            to[n][..along].fill(rng.range(0, RANGES[n].into()) as u8);
        }
    }
}

/// Any transforms and the rest for a block that has its size and place.
fn dress(block: &mut Block, rng: &mut Rng) {
    let has_pair = block.layout != 400 && !rng.once_in(4);
    block.is_inter = rng.once_in(2);
    code(block, has_pair, rng);
    block.tx = match block.is_inter {
        true => rng.pick(&[0, block.largest_tx(), block.largest_tx()]),
        false => rng.pick(&fitting(block.block_units())),
    };
    if has_pair {
        block.uvtx = rng.pick(&fitting(block.chroma_units()));
    }
}

/// A block of any size with any transform that 01 accepts. A run has all of them, in turn.
pub fn isolated(number: u64, rng: &mut Rng) -> Case {
    let mut block = frame(rng);
    block.size = (number % 22) as u32;
    let (units, frame) = (block.block_units(), block.frame_units());
    block.place = from_fn(|axis| match rng.once_in(12) {
        true => frame[axis] / units[axis] * units[axis],
        false => units[axis] * up_to((frame[axis] - 1) / units[axis], rng),
    });
    dress(&mut block, rng);
    if !block.is_inter {
        let fitting = fitting(units);
        block.tx = fitting[(number / 22) as usize % fitting.len()];
    }
    let mut case = Case {
        block,
        lent: lent(&block, rng),
        memory: memory(rng),
    };
    contexts(&block, &mut case.memory.contexts, rng);
    if rng.once_in(8) {
        // Recorded before, with other transforms.
        case.memory = case.after();
        dress(&mut case.block, rng);
        case.lent = lent(&case.block, rng);
        contexts(&case.block, &mut case.memory.contexts, rng);
    }
    case
}

/// A block at the frame's end that has chroma and no luma.
pub fn chroma_alone(rng: &mut Rng) -> Case {
    loop {
        let case = isolated(rng.pick(&[0, 1, 2, 16, 17]), rng);
        let [luma, chroma] = case.block.recorded();
        if luma == [0; 2] && chroma != [0; 2] {
            return case;
        }
    }
}
