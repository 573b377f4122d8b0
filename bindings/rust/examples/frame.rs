//! A frame as a decoder has it: 4:2:0, 10 bits, two tiles each way, three superblock rows. Its blocks are recorded
//! tile by tile, the tile starts are corrected, and each superblock row is filtered. Then corrections are left out,
//! to see who notices. dav1d's names stand in brackets. The repository's `examples/frame.c` prints the same.

use deblock::*;

const FRAME: Frame = Frame {
    width: 200,
    height: 152,
    layout: Layout::I420,
    superblock: 64,
};
/// Width, height and stride of luma, U and V, in samples.
const SIDES: [(usize, usize, usize); 3] = [(200, 152, 256), (100, 76, 128), (100, 76, 128)];
/// The side of a superblock in luma units [f->sb_step].
const SB4: u32 = 16;
/// Where tiles start and end, in superblocks [tiling.col_start_sb, tiling.row_start_sb].
const COL_START_SB: [u32; 3] = [0, 2, 4];
const ROW_START_SB: [u32; 3] = [0, 1, 3];
/// The base levels of the frame header [loopfilter.level_y, level_u, level_v].
const BASE: [u8; 4] = [32, 28, 24, 20];

/// What the decoder leaves out.
#[derive(Clone, Copy, PartialEq)]
enum Forgotten {
    Nothing,
    Corrections,
    RowCorrection,
}

/// What a decoder keeps for deblocking.
struct Decoder {
    limits: Limits,    // [lf.lim_lut]
    values: [u8; 512], // [ts->lflvl]
    levels: Vec<u8>,   // [lf.level]
    masks: Vec<u16>,   // [lf.mask]
    /// Contexts of the frame's whole width and height [f->a, t->l: tx_lpf_y, tx_lpf_uv].
    contexts: Vec<u8>,
    /// Left of tile column n [lf.tx_lpf_right_edge] and above of tile row n [f->a of that tile row], as they ended.
    saved: [Vec<u8>; 2],
    /// Luma, U and V [f->cur.data].
    samples: [Vec<u16>; 3],
    blocks: u32,
}

impl Decoder {
    fn new() -> Result<Decoder, Refusal> {
        let header = Header {
            base: BASE,
            delta_enabled: true,
            ref_delta: [1, 0, 0, 0, -1, 0, -1, -1].map(delta), // a decoder has them as i32
            ..Header::default()
        };
        let mut values = [0; 512];
        levels(&mut values, FRAME.layout, &header)?; // [dav1d_calc_lf_values]
        let contexts = vec![0; FRAME.contexts_len()];
        let pooled = |(stride, lines): (usize, usize)| vec![u16::MAX; stride * lines];
        let (luma, chroma) = (pooled(FRAME.stored_luma()), pooled(FRAME.stored_chroma()));
        Ok(Decoder {
            limits: Limits::new(1)?, // [dav1d_calc_eih]
            values,
            levels: vec![0; FRAME.levels_len(FRAME.w4() as usize)],
            masks: vec![0; FRAME.masks_len()],
            saved: [contexts.clone(), contexts.clone()],
            contexts,
            samples: [luma, chroma.clone(), chroma],
            blocks: 0,
        })
    }

    /// Puts samples into the planes. These come from a pool, where any frame may have been: so their padding is
    /// cleared first. It is not cleared later, since blocks may reach into it.
    fn decode_samples(&mut self) {
        planes(&mut self.samples).clear_padding(&FRAME);
        let sample: [fn(usize, usize) -> usize; 3] = [
            |x, y| 400 + 24 * ((x / 16 + y / 16) % 3) + (x * 5 + y * 3) % 7,
            |x, y| 500 + 16 * ((x / 8 + y / 8) % 3) + (x * 3 + y) % 5,
            |x, y| 450 + 16 * ((x / 8 + 2 * (y / 8)) % 3) + (x + 3 * y) % 5,
        ];
        for (plane, (width, height, stride)) in SIDES.into_iter().enumerate() {
            for n in 0..width * height {
                let (x, y) = (n % width, n / width);
                self.samples[plane][y * stride + x] = sample[plane](x, y) as u16;
            }
        }
    }

    /// Records a block of 16x16 [dav1d_create_lf_mask_intra, _inter]. The call takes the contexts from the block on.
    /// Codes of dav1d would go through `BlockSize::from_dav1d` and `TxSize::try_from`.
    fn record_block(&mut self, x: u32, y: u32) -> Result<(), Refusal> {
        let (bx, by) = (x / 4, y / 4);
        let intra = (bx + 2 * by) % 3 == 0;
        let (tx, uvtx) = match intra && (bx + by) % 2 == 0 {
            true => (TxSize::Tx8x8, TxSize::Tx4x4),
            false => (TxSize::Tx16x16, TxSize::Tx8x8),
        };
        let block = &Block {
            x,
            y,
            size: BlockSize::Block16x16,
            tx,
            chroma: Some(uvtx),
        };
        let inter = &Inter {
            tx_masks: [(bx % 2) as u16, 0], // [tx_split0, tx_split1]
            skip: by % 4 == 3,
            reference: 1 + bx % 7, // [ref[0] + 1]
            mode: true,            // [not GLOBALMV]
        };
        let records = &mut Records {
            levels: &mut self.levels,
            level_stride: FRAME.w4() as usize, // [b4_stride]
            masks: &mut self.masks,
        };
        let values = segment(&self.values, 0).unwrap();
        let mut contexts = Contexts::within(&mut self.contexts, &FRAME);
        let contexts = &mut contexts.at(&FRAME, x, y);
        self.blocks += 1;
        match intra {
            true => record_intra(records, values, &FRAME, block, contexts),
            false => record_inter(records, values, &FRAME, block, inter, contexts),
        }
    }

    /// Records the 16 blocks of a superblock, quadrant by quadrant, but none that starts outside the frame.
    fn record_superblock(&mut self, column: u32, row: u32) -> Result<(), Refusal> {
        for n in 0..16 {
            let x = SB4 * column + 8 * (n / 4 % 2) + 4 * (n % 2);
            let y = SB4 * row + 8 * (n / 8) + 4 * (n / 2 % 2);
            if x < FRAME.w4() && y < FRAME.h4() {
                self.record_block(x, y)?;
            }
        }
        Ok(())
    }

    /// Records a tile. Left is set anew at the start of each of its superblock rows [reset_context]. What a row
    /// leaves there is saved first: the tile on the right is corrected with it. Bytes of later rows are copied too,
    /// and again when these rows are done.
    fn record_tile(&mut self, tile_col: usize, tile_row: usize) -> Result<(), Refusal> {
        for row in ROW_START_SB[tile_row]..ROW_START_SB[tile_row + 1] {
            Contexts::within(&mut self.contexts, &FRAME).start_left();
            for column in COL_START_SB[tile_col]..COL_START_SB[tile_col + 1] {
                self.record_superblock(column, row)?;
            }
            let mut from = Contexts::within(&mut self.contexts, &FRAME);
            let mut to = Contexts::within(&mut self.saved[tile_col], &FRAME);
            let (from, to) = (from.at(&FRAME, 0, SB4 * row), to.at(&FRAME, 0, SB4 * row));
            to.left.copy_from_slice(from.left);
            to.left_uv.copy_from_slice(from.left_uv);
        }
        Ok(())
    }

    /// Records all tiles. Above is set anew at the top of each tile row [reset_context]. What a tile row leaves there
    /// is saved first: the tile row below is corrected with it.
    fn record_frame(&mut self) -> Result<(), Refusal> {
        for tile_row in 0..2 {
            Contexts::within(&mut self.contexts, &FRAME).start_above();
            for tile_col in 0..2 {
                self.record_tile(tile_col, tile_row)?;
            }
            let from = Contexts::within(&mut self.contexts, &FRAME);
            let to = Contexts::within(&mut self.saved[tile_row], &FRAME);
            to.above.copy_from_slice(from.above);
            to.above_uv.copy_from_slice(from.above_uv);
        }
        Ok(())
    }

    /// Corrects the tile starts of a superblock row [the first parts of dav1d_loopfilter_sbrow_cols].
    fn correct_row(&mut self, row: u32, forgotten: Forgotten) -> Result<(), Refusal> {
        for tile in 1..2 {
            let mut saved = Contexts::within(&mut self.saved[tile - 1], &FRAME);
            if forgotten != Forgotten::Corrections {
                let at = saved.at(&FRAME, 0, SB4 * row);
                let start = COL_START_SB[tile];
                correct_column(&mut self.masks, &FRAME, row, start, at.left, at.left_uv)?;
            }
            if forgotten == Forgotten::Nothing && row == ROW_START_SB[tile] {
                correct_row(&mut self.masks, &FRAME, row, saved.above, saved.above_uv)?;
            }
        }
        Ok(())
    }

    /// Filters a superblock row: it is corrected before both of its passes, and its columns come before its rows
    /// [dav1d_loopfilter_sbrow_cols, dav1d_loopfilter_sbrow_rows].
    fn filter_row(&mut self, row: u32, forgotten: Forgotten) -> Result<(), Refusal> {
        self.correct_row(row, forgotten)?;
        let pass = &Pass {
            frame: FRAME,
            levels: &self.levels,
            level_stride: FRAME.w4() as usize,
            masks: &self.masks,
            limits: &self.limits,
            level_u: BASE[2].into(),
            level_v: BASE[3].into(),
        };
        columns_16(&mut planes(&mut self.samples), Depth::Ten, pass, row)?;
        rows_16(&mut planes(&mut self.samples), Depth::Ten, pass, row)
    }

    /// Decodes a frame. The masks are cleared for each frame, since recording takes no bits away.
    fn decode_frame(&mut self, forgotten: Forgotten) -> Result<(), Refusal> {
        self.masks.fill(0);
        self.blocks = 0;
        self.decode_samples();
        self.record_frame()?;
        (0..FRAME.superblock_rows()).try_for_each(|row| self.filter_row(row, forgotten))
    }

    /// Answers the samples of a plane inside the frame.
    fn inside(&self, plane: usize) -> Vec<u16> {
        let (width, height, stride) = SIDES[plane];
        let lines = self.samples[plane].chunks(stride).take(height);
        lines.flat_map(|line| &line[..width]).copied().collect()
    }
}

fn planes([luma, u, v]: &mut [Vec<u16>; 3]) -> Planes<'_, u16> {
    Planes {
        luma,
        luma_stride: FRAME.stored_luma().0,
        u,
        v,
        chroma_stride: FRAME.stored_chroma().0,
    }
}

fn differing(one: &[u16], other: &[u16]) -> usize {
    one.iter().zip(other).filter(|(a, b)| a != b).count()
}

fn main() -> Result<(), Refusal> {
    let mut decoder = Decoder::new()?;
    decoder.decode_samples();
    let before = [0, 1, 2].map(|plane| decoder.inside(plane));
    decoder.decode_frame(Forgotten::Nothing)?;
    let after = [0, 1, 2].map(|plane| decoder.inside(plane));
    let blocks = decoder.blocks;
    println!("frame 200x152 4:2:0 10 bits: 4 tiles, {blocks} blocks");
    for (plane, name) in ["luma", "u", "v"].into_iter().enumerate() {
        let (changed, len) = (differing(&before[plane], &after[plane]), after[plane].len());
        let mixed = |sum: u32, &sample: &u16| (sum * 31 + u32::from(sample)) % 65521;
        let sum = after[plane].iter().fold(0, mixed);
        println!("{name} changed {changed} of {len}, sum {sum}");
    }

    let number = |answer: Result<(), Refusal>| answer.map_or_else(Refusal::number, |()| 0);
    let answer = number(decoder.decode_frame(Forgotten::Corrections));
    println!("without the column corrections: {answer}");
    let answer = number(decoder.decode_frame(Forgotten::RowCorrection));
    let differ = |plane| differing(&decoder.inside(plane), &after[plane]);
    let differ = differ(0) + differ(1) + differ(2);
    println!("without the row correction: {answer}, samples that differ {differ}");
    Ok(())
}
