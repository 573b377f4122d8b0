//! Single blocks and corrections on a frame of 32 by 16 samples at 4:2:0: 8 by 4 luma units, 4 by 2 chroma units.

use deblock::*;

const FRAME: Frame = Frame {
    width: 32,
    height: 16,
    layout: Layout::I420,
    superblock: 64,
};
const STRIDE: usize = 9;

/// What recording changes. Contexts are lent from the block on.
#[derive(Clone, Debug, PartialEq)]
struct Memory {
    levels: [u8; 4 * STRIDE * 4],
    masks: [u16; 640],
    above: [u8; 8],
    left: [u8; 4],
    above_uv: [u8; 4],
    left_uv: [u8; 2],
}

fn fresh() -> Memory {
    Memory {
        levels: [0; 4 * STRIDE * 4],
        masks: [0; 640],
        above: [2; 8],
        left: [1; 4],
        above_uv: [1; 4],
        left_uv: [0; 2],
    }
}

/// The value of an area, reference and mode.
fn values() -> [u8; 64] {
    std::array::from_fn(|k| 63 - k as u8)
}

fn recorded(block: &Block, inter: Option<&Inter>) -> Memory {
    let mut m = fresh();
    let mut records = Records {
        levels: &mut m.levels,
        level_stride: STRIDE,
        masks: &mut m.masks,
    };
    let mut contexts = Contexts {
        above: &mut m.above,
        left: &mut m.left,
        above_uv: &mut m.above_uv,
        left_uv: &mut m.left_uv,
    };
    let mut contexts = contexts.at(&FRAME, block.x, block.y);
    let answer = match inter {
        None => record_intra(&mut records, &values(), &FRAME, block, &mut contexts),
        Some(inter) => record_inter(&mut records, &values(), &FRAME, block, inter, &mut contexts),
    };
    assert_eq!(answer, Ok(()));
    m
}

fn luma(pass: usize, unit: usize, class: usize) -> usize {
    ((pass * 32 + unit) * 3 + class) * 2
}

fn chroma(pass: usize, unit: usize, class: usize) -> usize {
    384 + ((pass * 32 + unit) * 2 + class) * 2
}

/// The level bytes of some units, by areas, of a reference and mode.
fn fill(
    m: &mut Memory,
    columns: [usize; 2],
    lines: [usize; 2],
    areas: [usize; 2],
    reference_mode: usize,
) {
    for y in lines[0]..lines[1] {
        for x in columns[0]..columns[1] {
            for area in areas {
                m.levels[4 * (y * STRIDE + x) + area] = values()[16 * area + reference_mode];
            }
        }
    }
}

/// An 8x8 block at unit 4, 2, with transforms of 4x4.
#[test]
fn intra() {
    let block = Block {
        x: 4,
        y: 2,
        size: BlockSize::Block8x8,
        tx: TxSize::Tx4x4,
        chroma: Some(TxSize::Tx4x4),
    };
    let mut expected = fresh();
    fill(&mut expected, [4, 6], [2, 4], [0, 1], 0);
    fill(&mut expected, [2, 3], [1, 2], [2, 3], 0);
    for k in 0..2 {
        expected.masks[luma(0, 4 + k, 0)] = 0b1100;
        expected.masks[luma(1, 2 + k, 0)] = 0b110000;
    }
    expected.masks[chroma(0, 2, 0)] = 0b10;
    expected.masks[chroma(1, 1, 0)] = 0b100;
    expected.above[4..6].fill(0);
    expected.left[2..].fill(0);
    expected.above_uv[2] = 0;
    expected.left_uv[1] = 0;
    assert_eq!(recorded(&block, None), expected);

    let alone = Block {
        chroma: None,
        ..block
    };
    let m = recorded(&alone, None);
    assert_eq!(m.masks[..384], expected.masks[..384]);
    assert_eq!(m.masks[384..], [0; 256]);
    assert_eq!((m.above_uv, m.left_uv), (fresh().above_uv, fresh().left_uv));
}

/// A 16x16 block at unit 4, 0.
const BLOCK: Block = Block {
    x: 4,
    y: 0,
    size: BlockSize::Block16x16,
    tx: TxSize::Tx16x16,
    chroma: Some(TxSize::Tx8x8),
};
const INTER: Inter = Inter {
    tx_masks: [0, 0],
    skip: false,
    reference: 0,
    mode: false,
};

#[test]
fn inter_with_one_transform_records_as_intra() {
    assert_eq!(recorded(&BLOCK, Some(&INTER)), recorded(&BLOCK, None));
}

#[test]
fn inter_split_once_records_as_intra_of_8x8() {
    let split = Inter {
        tx_masks: [1, 0],
        ..INTER
    };
    let of_8x8 = Block {
        tx: TxSize::Tx8x8,
        ..BLOCK
    };
    assert_eq!(recorded(&BLOCK, Some(&split)), recorded(&of_8x8, None));
}

#[test]
fn inter_split_twice_at_one_quarter() {
    let split = Inter {
        tx_masks: [1, 0b10],
        ..INTER
    };
    let once = Inter {
        tx_masks: [1, 0],
        ..INTER
    };
    // The quarter at the right, above: its inner edges are at column unit 7 and row unit 1.
    let (m, before) = (
        recorded(&BLOCK, Some(&split)),
        recorded(&BLOCK, Some(&once)),
    );
    assert_eq!(m.masks[luma(0, 7, 0)], 0b11);
    assert_eq!(m.masks[luma(1, 1, 0)], 0b11000000);
    assert_eq!(before.masks[luma(0, 7, 0)], 0);
}

#[test]
fn a_skipped_block_has_its_own_edges_alone() {
    let block = Block {
        tx: TxSize::Tx4x4,
        ..BLOCK
    };
    let skipped = Inter {
        skip: true,
        ..INTER
    };
    let mut expected = fresh();
    fill(&mut expected, [4, 8], [0, 4], [0, 1], 0);
    fill(&mut expected, [2, 4], [0, 2], [2, 3], 0);
    expected.masks[luma(0, 4, 0)] = 0b1111;
    expected.masks[luma(1, 0, 0)] = 0b11110000;
    expected.masks[chroma(0, 2, 0)] = 0b11;
    expected.masks[chroma(1, 0, 1)] = 0b1100;
    let m = recorded(&block, Some(&skipped));
    assert_eq!((m.levels, m.masks), (expected.levels, expected.masks));
}

#[test]
fn reference_and_mode_choose_the_level() {
    for (reference, mode) in [(0, false), (3, false), (3, true), (7, true)] {
        let inter = Inter {
            reference,
            mode,
            ..INTER
        };
        let of = 2 * reference as usize + usize::from(mode);
        let mut expected = fresh();
        fill(&mut expected, [4, 8], [0, 4], [0, 1], of);
        fill(&mut expected, [2, 4], [0, 2], [2, 3], of);
        assert_eq!(recorded(&BLOCK, Some(&inter)).levels, expected.levels);
    }
}

/// A tile that starts at superblock 1 of a frame with two luma units along the start, and one chroma unit.
#[test]
fn corrections_of_luma_and_chroma() {
    for pass in [0, 1] {
        let (width, height) = [(128, 8), (8, 128)][pass];
        let frame = Frame {
            width,
            height,
            ..FRAME
        };
        let mut masks = [0; 640];
        masks[luma(pass, 16, 2)] = 0b11;
        masks[chroma(pass, 8, 1)] = 0b1;
        let mut expected = [0; 640];
        expected[luma(pass, 16, 2)] = 0b10;
        expected[luma(pass, 16, 1)] = 0b01;
        expected[chroma(pass, 8, 0)] = 0b1;
        let answer = match pass {
            0 => correct_column(&mut masks, &frame, 0, 1, &[1, 2], &[0]),
            _ => correct_row(&mut masks, &frame, 1, &[1, 2], &[0]),
        };
        assert_eq!((answer, masks), (Ok(()), expected));
    }
}
