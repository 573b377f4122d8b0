//! A case: the arguments of one call, and memory of which the first part is lent.

use crate::part;
use crate::src::levels::{BlockSize, TxfmSize};
use crate::src::tables::dav1d_txfm_dimensions;
use std::array::from_fn;
use std::sync::LazyLock;

pub const LAYOUTS: [u32; 4] = [400, 420, 422, 444];

/// A 128x128 record's words of masks: luma, then chroma.
pub const RECORD: usize = 640;
pub const LUMA: usize = 384;

/// What a case has room for.
pub const CONTEXT: usize = 32;
pub const MASKS: usize = 4 * RECORD;
pub const LEVELS: usize = 8192;

const HEADER: usize = 64;
const ANSWER_HEADER: usize = 16;
const MEMORY: usize = 4 * CONTEXT + 2 * MASKS + LEVELS;
pub const SIZES: (usize, usize) = (HEADER + 64 + MEMORY, ANSWER_HEADER + MEMORY);

/// Width and height of the standard's blocks and transforms in units.
pub static BLOCKS: LazyLock<[[u32; 2]; BlockSize::COUNT]> = LazyLock::new(|| {
    let block = |code| BlockSize::from_standard(code as u8).unwrap().dimensions();
    from_fn(|code| [block(code)[0], block(code)[1]].map(u32::from))
});
pub static TRANSFORMS: LazyLock<[[u32; 2]; TxfmSize::COUNT]> = LazyLock::new(|| {
    from_fn(|tx| [dav1d_txfm_dimensions[tx].w, dav1d_txfm_dimensions[tx].h].map(u32::from))
});

/// The arguments that are no lent memory. Pairs are across and down.
#[derive(Clone, Copy)]
pub struct Block {
    pub is_inter: bool,
    pub chroma: u8,
    pub skip: u8,
    pub mode: u8,
    pub frame: [u32; 2],
    pub layout: u32,
    pub place: [u32; 2],
    pub size: u32,
    pub tx: u32,
    pub uvtx: u32,
    pub reference: u32,
    pub tx_masks: [u16; 2],
    pub stride: u32,
    /// [kind][reference][mode]
    pub values: [u8; 64],
}

#[derive(Clone, PartialEq)]
pub struct Memory {
    /// Above, left, above in chroma, left in chroma.
    pub contexts: [[u8; CONTEXT]; 4],
    pub masks: Vec<u16>,
    pub levels: Vec<u8>,
}

/// How much of each is lent.
#[derive(Clone, Copy)]
pub struct Lent {
    pub contexts: [u8; 4],
    pub masks: u32,
    pub levels: u32,
}

#[derive(Clone)]
pub struct Case {
    pub block: Block,
    pub lent: Lent,
    pub memory: Memory,
}

impl Block {
    /// The frame's width and height in luma units.
    pub fn frame_units(&self) -> [u32; 2] {
        self.frame.map(|side| side.div_ceil(4))
    }

    pub fn block_units(&self) -> [u32; 2] {
        BLOCKS[self.size as usize]
    }

    /// Subsampling across and down.
    pub fn ss(&self) -> [u32; 2] {
        [self.layout != 444, self.layout == 420].map(u32::from)
    }

    /// The block's chroma units; its transform must be no larger.
    pub fn chroma_units(&self) -> [u32; 2] {
        let (units, ss) = (self.block_units(), self.ss());
        from_fn(|axis| (units[axis] + ss[axis]) >> ss[axis])
    }

    /// The units recorded in luma and in chroma: 0 both ways where there are none.
    pub fn recorded(&self) -> [[u32; 2]; 2] {
        let (frame, ss) = (self.frame_units(), self.ss());
        let cut = |block: [u32; 2], ss: [u32; 2]| {
            let left = |axis: usize| {
                ((frame[axis] + ss[axis]) >> ss[axis]) - (self.place[axis] >> ss[axis])
            };
            let units = from_fn(|axis| block[axis].min(left(axis)));
            if units.contains(&0) {
                [0; 2]
            } else {
                units
            }
        };
        let luma = cut(self.block_units(), [0; 2]);
        match self.chroma {
            0 => [luma, [0; 2]],
            _ => [luma, cut(self.chroma_units(), ss)],
        }
    }

    /// How many units are recorded along each context.
    pub fn along(&self) -> [usize; 4] {
        let [luma, chroma] = self.recorded();
        [luma[0], luma[1], chroma[0], chroma[1]].map(|n| n as usize)
    }

    /// The largest luma transform: the block's own size, cut at 64 each way.
    pub fn largest_tx(&self) -> u32 {
        tx_of(self.block_units().map(|n| n.min(16)))
    }

    /// Bytes of levels that the frame asks for.
    pub fn levels(&self) -> u64 {
        4 * u64::from(self.stride) * u64::from(self.frame_units()[1])
    }

    /// The frame's 128x128 records across and down.
    pub fn records(&self) -> [u32; 2] {
        self.frame_units().map(|n| n.div_ceil(32))
    }

    /// Words of masks that the frame asks for.
    pub fn masks(&self) -> u64 {
        let [across, down] = self.records().map(u64::from);
        RECORD as u64 * across * down
    }
}

/// The transform of these units.
pub fn tx_of(units: [u32; 2]) -> u32 {
    TRANSFORMS.iter().position(|tx| *tx == units).unwrap() as u32
}

impl Memory {
    pub fn read(bytes: &[u8]) -> Self {
        let (contexts, rest) = bytes.split_at(4 * CONTEXT);
        let (masks, levels) = rest.split_at(2 * MASKS);
        let masks = masks.as_chunks().0;
        Self {
            contexts: from_fn(|n| contexts.as_chunks().0[n]),
            masks: masks.iter().map(|b| u16::from_le_bytes(*b)).collect(),
            levels: levels.to_vec(),
        }
    }

    fn write(&self, to: &mut part::Record) {
        to.extend(self.contexts.as_flattened());
        to.extend(self.masks.iter().flat_map(|word| word.to_le_bytes()));
        to.extend(&self.levels);
    }
}

impl Case {
    pub fn read(record: &[u8]) -> Self {
        let half = |at: usize| u16::from_le_bytes([record[at], record[at + 1]]);
        let word = |at: usize| u32::from_le_bytes(from_fn(|n| record[at + n]));
        Self {
            block: Block {
                is_inter: record[0] != 0,
                chroma: record[1],
                skip: record[2],
                mode: record[3],
                frame: [word(4), word(8)],
                layout: word(12),
                place: [word(16), word(20)],
                size: word(24),
                tx: word(28),
                uvtx: word(32),
                reference: word(36),
                tx_masks: [half(40), half(42)],
                stride: word(44),
                values: from_fn(|n| record[HEADER + n]),
            },
            lent: Lent {
                levels: word(48),
                masks: word(52),
                contexts: from_fn(|n| record[56 + n]),
            },
            memory: Memory::read(&record[HEADER + 64..]),
        }
    }

    pub fn write(&self) -> part::Record {
        let mut record = part::Record::with_capacity(SIZES.0);
        let b = &self.block;
        record.extend([b.is_inter.into(), b.chroma, b.skip, b.mode]);
        let words = [b.frame[0], b.frame[1], b.layout, b.place[0], b.place[1]];
        record.extend(words.map(u32::to_le_bytes).as_flattened());
        let words = [b.size, b.tx, b.uvtx, b.reference];
        record.extend(words.map(u32::to_le_bytes).as_flattened());
        record.extend(b.tx_masks.map(u16::to_le_bytes).as_flattened());
        let words = [b.stride, self.lent.levels, self.lent.masks];
        record.extend(words.map(u32::to_le_bytes).as_flattened());
        record.extend(self.lent.contexts);
        record.resize(HEADER, 0);
        record.extend(b.values);
        self.memory.write(&mut record);
        record
    }

    /// The answer: a number, and memory after the call.
    pub fn answer(number: u8, memory: &Memory) -> part::Record {
        let mut record = part::Record::with_capacity(SIZES.1);
        record.push(number);
        record.resize(ANSWER_HEADER, 0);
        memory.write(&mut record);
        record
    }

    /// The memory of an answer.
    pub fn answered(answer: &[u8]) -> Memory {
        Memory::read(&answer[ANSWER_HEADER..])
    }
}
