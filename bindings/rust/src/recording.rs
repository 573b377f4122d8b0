use crate::ffi;
use crate::refusal::done;
use crate::{BlockSize, Frame, Refusal, TxSize};

/// The level bytes and masks of a frame, lent to the calls that record.
#[derive(Debug)]
pub struct Records<'a> {
    /// There are four level bytes per unit: luma columns, luma rows, U, V. The first two stand at the index of the luma
    /// unit, and the last two at that of the chroma unit. [`Frame::levels_len`] says how many bytes there are.
    pub levels: &'a mut [u8],
    /// This is the distance between two lines of `levels`, in units. It is at least [`Frame::w4`].
    pub level_stride: usize,
    /// There are 640 words for each 128 by 128 samples, in raster order. [`Frame::masks_len`] says how many that are.
    /// Clear them for each frame: recording adds bits and takes none away.
    pub masks: &'a mut [u16],
}

/// The contexts, a byte per unit: the class of the transform that ends there, luma 0 to 2, chroma 0 to 1.
///
/// They are lent to the calls that record from the block's first unit on, which [`at`](Self::at) does. These calls
/// read what the blocks before have left, and leave the block's last column and row. A tile starts with contexts of
/// its own: see [`start_above`](Self::start_above), [`start_left`](Self::start_left) and [Tiles](crate#tiles).
#[derive(Debug)]
pub struct Contexts<'a> {
    /// These are luma's, above the block.
    pub above: &'a mut [u8],
    /// These are luma's, left of the block.
    pub left: &'a mut [u8],
    /// These are chroma's, above the block.
    pub above_uv: &'a mut [u8],
    /// These are chroma's, left of the block.
    pub left_uv: &'a mut [u8],
}

impl<'a> Contexts<'a> {
    /// Parts `bytes` into contexts for the frame's whole width and height. [`Frame::contexts_len`] says how many
    /// bytes that takes. If there are less, the last contexts are too short, and a call that needs more refuses them
    /// with [`Refusal::Context`].
    pub fn within(bytes: &'a mut [u8], frame: &Frame) -> Contexts<'a> {
        let (above, rest) = part(bytes, frame.above_len());
        let (left, rest) = part(rest, frame.left_len());
        let (above_uv, rest) = part(rest, frame.above_uv_len());
        let (left_uv, _) = part(rest, frame.left_uv_len());
        Contexts {
            above,
            left,
            above_uv,
            left_uv,
        }
    }

    /// Lends contexts of a whole frame from a block's place on, in luma units. Past the end of a context nothing is
    /// lent, and a call that needs more refuses it with [`Refusal::Context`].
    pub fn at(&mut self, frame: &Frame, x: u32, y: u32) -> Contexts<'_> {
        let (hor, ver) = frame.layout.ss();
        Contexts {
            above: from(self.above, x),
            left: from(self.left, y),
            above_uv: from(self.above_uv, x >> hor),
            left_uv: from(self.left_uv, y >> ver),
        }
    }

    /// Sets `above` to 2 and `above_uv` to 1, from the first unit that is lent to the last. Call it once for each tile
    /// row, before the first block of that tile row, and not for each tile: it would clear what the tiles on the left
    /// have recorded, and no call notices that. Save first what the tile row above has stored there:
    /// [`correct_row`](crate::correct_row) takes it.
    pub fn start_above(&mut self) {
        self.above.fill(2);
        self.above_uv.fill(1);
    }

    /// Sets `left` to 2 and `left_uv` to 1, from the first unit that is lent to the last. Call it at the start of each
    /// superblock row of each tile. If the tile has a neighbour on the right, save first the bytes of the superblock row
    /// that was recorded last: [`correct_column`](crate::correct_column) takes them.
    pub fn start_left(&mut self) {
        self.left.fill(2);
        self.left_uv.fill(1);
    }
}

fn part(bytes: &mut [u8], len: usize) -> (&mut [u8], &mut [u8]) {
    bytes.split_at_mut(len.min(bytes.len()))
}

fn from(context: &mut [u8], unit: u32) -> &mut [u8] {
    context.get_mut(unit as usize..).unwrap_or_default()
}

/// A block.
#[derive(Clone, Copy, Debug, PartialEq, Eq)]
pub struct Block {
    /// This is its first column in luma units, a multiple of its width.
    pub x: u32,
    /// This is its first row in luma units, a multiple of its height.
    pub y: u32,
    /// This is its size.
    pub size: BlockSize,
    /// This is its luma transform. For an inter block it is the largest one, before any split: the block's size with
    /// each side at most 64 (rav1d's `max_ytx`), or 4x4 in a lossless segment.
    pub tx: TxSize,
    /// This is the transform of U and V, or `None` if the block has no chroma (rav1d's `has_chroma`). That is so at
    /// 4:0:0, and for a block that is 4 wide, or 4 high, at an even unit where chroma is halved that way. A call
    /// refuses a transform at 4:0:0, and notices no other mistake here.
    pub chroma: Option<TxSize>,
}

/// What an inter block has besides.
#[derive(Clone, Copy, Debug, PartialEq, Eq)]
pub struct Inter {
    /// Bit y*4+x of `tx_masks[d]` is set where a transform is split at depth d. x and y count transforms of that depth
    /// from the block's corner. They are rav1d's `tx_split0` and `tx_split1`.
    pub tx_masks: [u16; 2],
    /// A skipped block has no edges inside. `tx_masks` still count: they decide the classes of its own edges, and what
    /// it stores in the contexts.
    pub skip: bool,
    /// This is the standard's RefFrame\[0\]: 1 for LAST to 7 for ALTREF, and 0 for intra. In dav1d and rav1d it is
    /// `ref[0] + 1`. No call notices a mix-up.
    pub reference: u32,
    /// This is `false` for GLOBALMV and GLOBAL_GLOBALMV, and `true` for every other mode.
    pub mode: bool,
}

macro_rules! record {
    ($call:ident, $records:ident, $values:ident, $frame:ident, $block:ident, $contexts:ident $(, $inter:ident)?) => {
        // SAFETY: each pointer stands with the length of its slice, and the archive checks the rest.
        done(unsafe {
            ffi::$call(
                $records.levels.as_mut_ptr(),
                $records.levels.len(),
                $records.level_stride,
                $records.masks.as_mut_ptr(),
                $records.masks.len(),
                $values,
                $frame.width,
                $frame.height,
                $frame.layout.number(),
                $block.x,
                $block.y,
                $block.size.code(),
                $block.tx.code(),
                $(&$inter.tx_masks,
                $inter.skip.into(),
                $inter.reference,
                $inter.mode.into(),)?
                $contexts.above.as_mut_ptr(),
                $contexts.above.len(),
                $contexts.left.as_mut_ptr(),
                $contexts.left.len(),
                $block.chroma.is_some().into(),
                $block.chroma.map_or(0, TxSize::code),
                $contexts.above_uv.as_mut_ptr(),
                $contexts.above_uv.len(),
                $contexts.left_uv.as_mut_ptr(),
                $contexts.left_uv.len(),
            )
        })
    };
}

/// Records an intra block: its level bytes, the mask bits of its edges, and its last column and row as contexts. The
/// `values` are those of its segment ([`segment`](crate::segment)).
///
/// Refused with [`Refusal::Shape`], [`Refusal::Block`], [`Refusal::Context`] or [`Refusal::Length`].
pub fn record_intra(
    records: &mut Records,
    values: &[u8; 64],
    frame: &Frame,
    block: &Block,
    contexts: &mut Contexts,
) -> Result<(), Refusal> {
    record!(
        deblock_record_intra,
        records,
        values,
        frame,
        block,
        contexts
    )
}

/// Records an inter block, as [`record_intra`] does an intra block.
///
/// Refused with [`Refusal::Shape`], [`Refusal::Block`], [`Refusal::Context`] or [`Refusal::Length`].
pub fn record_inter(
    records: &mut Records,
    values: &[u8; 64],
    frame: &Frame,
    block: &Block,
    inter: &Inter,
    contexts: &mut Contexts,
) -> Result<(), Refusal> {
    record!(
        deblock_record_inter,
        records,
        values,
        frame,
        block,
        contexts,
        inter
    )
}

#[cfg(test)]
mod tests {
    use crate::ffi;

    /// No [`BlockSize`](crate::BlockSize) and no [`TxSize`](crate::TxSize) is wrong, so only the archive's own call
    /// can be asked about other codes.
    fn record_intra(size: u32, tx: u32, uvtx: u32) -> u32 {
        let (mut levels, mut masks) = ([99; 4 * 32 * 32], [0; 640]);
        let (mut above, mut left) = ([2; 32], [2; 32]);
        let (mut above_uv, mut left_uv) = ([1; 16], [1; 16]);
        // SAFETY: each pointer stands with the length of its array, and the archive checks the rest.
        let number = unsafe {
            ffi::deblock_record_intra(
                levels.as_mut_ptr(),
                levels.len(),
                32,
                masks.as_mut_ptr(),
                masks.len(),
                &[32; 64],
                128,
                128,
                420,
                0,
                0,
                size,
                tx,
                above.as_mut_ptr(),
                above.len(),
                left.as_mut_ptr(),
                left.len(),
                1,
                uvtx,
                above_uv.as_mut_ptr(),
                above_uv.len(),
                left_uv.as_mut_ptr(),
                left_uv.len(),
            )
        };
        assert_eq!(masks == [0; 640], number != 0);
        number
    }

    #[test]
    fn wrong_codes_are_refused() {
        assert_eq!(record_intra(15, 18, 18), 0);
        for code in [22, 255, 256, u32::MAX] {
            assert_eq!(record_intra(code, 0, 0), 5);
        }
        for code in [19, 255, 256, u32::MAX] {
            assert_eq!(record_intra(15, code, 0), 5);
            assert_eq!(record_intra(15, 0, code), 5);
        }
    }
}
