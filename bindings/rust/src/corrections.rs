use crate::ffi;
use crate::refusal::done;
use crate::{Frame, Refusal};

/// Corrects the edges at the first column of a tile that is not the frame's first, in superblock row `row`. The class
/// of each edge becomes the lesser of its own and that in the context.
///
/// The tile starts at superblock `start`, counted from the frame's left side. Lend `left` and `left_uv` from the
/// superblock row's first unit on, as [`Contexts::at`](crate::Contexts::at) does. They are the bytes that the last
/// blocks of the neighbouring tile stored there ([Tiles](crate#tiles)).
///
/// Call it for each superblock row, after the blocks of the row are recorded and before both of its passes. If it is
/// forgotten, the columns are refused with [`Refusal::Gap`] in most frames, but not in all. Start 0 stores nothing.
///
/// Refused with [`Refusal::Shape`], [`Refusal::Context`], [`Refusal::Length`] or [`Refusal::Outside`].
pub fn correct_column(
    masks: &mut [u16],
    frame: &Frame,
    row: u32,
    start: u32,
    left: &[u8],
    left_uv: &[u8],
) -> Result<(), Refusal> {
    // SAFETY: each pointer stands with the length of its slice, and the archive checks the rest.
    done(unsafe {
        ffi::deblock_correct_column(
            masks.as_mut_ptr(),
            masks.len(),
            frame.width,
            frame.height,
            frame.layout.number(),
            frame.superblock,
            row,
            start,
            left.as_ptr(),
            left.len(),
            left_uv.as_ptr(),
            left_uv.len(),
        )
    })
}

/// Corrects the edges at the top of a tile row that is not the frame's first, along the whole width. The class of each
/// edge becomes the lesser of its own and that in the context.
///
/// The tile row begins at superblock row `row`. Lend `above` and `above_uv` from the frame's first unit on. They are the
/// bytes that the last blocks of the tiles above stored there ([Tiles](crate#tiles)).
///
/// Call it once for each tile row but the first, after the blocks of superblock row `row` are recorded and before both
/// of its passes. If it is forgotten, no call notices: all are accepted, and samples at the tiles' top are wrong. Row 0
/// stores nothing.
///
/// Refused with [`Refusal::Shape`], [`Refusal::Context`], [`Refusal::Length`] or [`Refusal::Outside`].
pub fn correct_row(
    masks: &mut [u16],
    frame: &Frame,
    row: u32,
    above: &[u8],
    above_uv: &[u8],
) -> Result<(), Refusal> {
    // SAFETY: each pointer stands with the length of its slice, and the archive checks the rest.
    done(unsafe {
        ffi::deblock_correct_row(
            masks.as_mut_ptr(),
            masks.len(),
            frame.width,
            frame.height,
            frame.layout.number(),
            frame.superblock,
            row,
            above.as_ptr(),
            above.len(),
            above_uv.as_ptr(),
            above_uv.len(),
        )
    })
}
