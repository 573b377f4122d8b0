use crate::ffi;
use crate::refusal::done;
use crate::{Depth, Frame, Limits, Refusal};

/// The planes of a frame, `u8` at depth 8, `u16` at 10 and 12.
///
/// Each holds the frame with its sides rounded up to 128 luma samples: [`Frame::stored_luma`] and
/// [`Frame::stored_chroma`] say how much that is. U and V may be empty where chroma is not filtered.
///
/// The padding must be in the depth's range too, since [`Refusal::Plane`] looks at whole stored lines. So clear it
/// for each frame ([`clear_padding`](Self::clear_padding)).
#[derive(Debug)]
pub struct Planes<'a, Sample> {
    /// This is the luma plane.
    pub luma: &'a mut [Sample],
    /// This is the distance between two lines of luma, in samples.
    pub luma_stride: usize,
    /// This is the U plane.
    pub u: &'a mut [Sample],
    /// This is the V plane.
    pub v: &'a mut [Sample],
    /// This is the distance between two lines of U, and of V, in samples.
    pub chroma_stride: usize,
}

impl<Sample: Copy + Default> Planes<'_, Sample> {
    /// Sets every stored sample outside the frame's width and height to 0.
    ///
    /// Do this for each frame, since a frame of another size or depth may have been in the same planes before. Do it
    /// before the frame is decoded, and not after: blocks at the right and at the bottom reach into the padding, and
    /// the filter reads the samples that decoding puts there.
    ///
    /// Planes that are too short are cleared as far as they go. The calls that filter refuse them.
    pub fn clear_padding(&mut self, frame: &Frame) {
        let luma = (frame.width as usize, frame.height as usize);
        clear_outside(self.luma, self.luma_stride, luma, frame.stored_luma());
        for plane in [&mut *self.u, &mut *self.v] {
            let (inside, stored) = (frame.chroma_sides(), frame.stored_chroma());
            clear_outside(plane, self.chroma_stride, inside, stored);
        }
    }
}

/// Sets to 0 what a plane stores and what is not inside. Both sides are given, width and height.
fn clear_outside<Sample: Copy + Default>(
    plane: &mut [Sample],
    stride: usize,
    inside: (usize, usize),
    stored: (usize, usize),
) {
    let lines = plane.chunks_mut(stride.max(1)).take(stored.1);
    for (y, line) in lines.enumerate() {
        let first = if y < inside.1 { inside.0 } else { 0 };
        let end = stored.0.min(line.len());
        if let Some(padding) = line.get_mut(first..end) {
            padding.fill(Sample::default());
        }
    }
}

/// What every pass over a frame is given: what recording and corrections have left, and what the frame header says.
#[derive(Clone, Copy, Debug)]
pub struct Pass<'a> {
    /// This is the frame.
    pub frame: Frame,
    /// These are the level bytes ([`Records`](crate::Records)).
    pub levels: &'a [u8],
    /// From one line of `levels` to the next it is this many units.
    pub level_stride: usize,
    /// These are the masks ([`Records`](crate::Records)).
    pub masks: &'a [u16],
    /// This is the limit table of the frame's sharpness.
    pub limits: &'a Limits,
    /// This is the base level of U, 0 to 63. Chroma is not filtered where U's and V's are both 0.
    pub level_u: u32,
    /// This is the base level of V.
    pub level_v: u32,
}

macro_rules! pass {
    ($call:ident, $planes:ident, $pass:ident, $row:ident $(, $depth:ident)?) => {
        // SAFETY: each pointer stands with the length of its slice, and the archive checks the rest.
        done(unsafe {
            ffi::$call(
                $planes.luma.as_mut_ptr(),
                $planes.luma.len(),
                $planes.luma_stride,
                $planes.u.as_mut_ptr(),
                $planes.u.len(),
                $planes.v.as_mut_ptr(),
                $planes.v.len(),
                $planes.chroma_stride,
                $pass.levels.as_ptr(),
                $pass.levels.len(),
                $pass.level_stride,
                $pass.masks.as_ptr(),
                $pass.masks.len(),
                &$pass.limits.e,
                &$pass.limits.i,
                $($depth.bits(),)?
                $pass.frame.width,
                $pass.frame.height,
                $pass.frame.layout.number(),
                $pass.frame.superblock,
                $pass.level_u,
                $pass.level_v,
                $row,
            )
        })
    };
}

/// Filters the column edges of superblock row `row` at depth 8. Its blocks are recorded and its corrections are made
/// before.
///
/// Refused with [`Refusal::Level`], [`Refusal::Shape`], [`Refusal::Length`], [`Refusal::LevelByte`],
/// [`Refusal::Plane`], [`Refusal::Outside`], [`Refusal::Gap`] or [`Refusal::MaskBit`].
pub fn columns_8(planes: &mut Planes<u8>, pass: &Pass, row: u32) -> Result<(), Refusal> {
    pass!(deblock_columns_8, planes, pass, row)
}

/// Filters the row edges of superblock row `row` at depth 8. The columns of it and of the row above are filtered
/// before.
///
/// Refused as [`columns_8`].
pub fn rows_8(planes: &mut Planes<u8>, pass: &Pass, row: u32) -> Result<(), Refusal> {
    pass!(deblock_rows_8, planes, pass, row)
}

/// Filters the column edges of superblock row `row` at any depth. Its blocks are recorded and its corrections are
/// made before.
///
/// Refused as [`columns_8`].
pub fn columns_16(
    planes: &mut Planes<u16>,
    depth: Depth,
    pass: &Pass,
    row: u32,
) -> Result<(), Refusal> {
    pass!(deblock_columns_16, planes, pass, row, depth)
}

/// Filters the row edges of superblock row `row` at any depth. The columns of it and of the row above are filtered
/// before.
///
/// Refused as [`columns_8`].
pub fn rows_16(
    planes: &mut Planes<u16>,
    depth: Depth,
    pass: &Pass,
    row: u32,
) -> Result<(), Refusal> {
    pass!(deblock_rows_16, planes, pass, row, depth)
}

#[cfg(test)]
mod tests {
    use crate::ffi;

    /// No [`Depth`](crate::Depth) and no [`Layout`](crate::Layout) is wrong, so only the archive's own calls can be
    /// asked for these two numbers.
    fn columns_16(depth: u32, layout: u32) -> u32 {
        let before: Vec<u16> = (0..128 * 128).map(|k| 100 + k % 128 / 8 % 2 * 20).collect();
        let mut luma = before.clone();
        let mut masks = [0; 640];
        masks[12] = 1;
        // SAFETY: each pointer stands with the length of its array, and the archive checks the rest.
        let number = unsafe {
            ffi::deblock_columns_16(
                luma.as_mut_ptr(),
                luma.len(),
                128,
                [].as_mut_ptr(),
                0,
                [].as_mut_ptr(),
                0,
                0,
                [32; 4 * 4].as_ptr(),
                4 * 4,
                4,
                masks.as_ptr(),
                masks.len(),
                &[68; 64],
                &[32; 64],
                depth,
                16,
                4,
                layout,
                64,
                0,
                0,
                0,
            )
        };
        assert_eq!(luma == before, number != 0);
        number
    }

    #[test]
    fn wrong_depths_and_layouts_are_refused() {
        assert_eq!(columns_16(10, 400), 0);
        for depth in [0, 7, 9, 11, 13, 16, u32::MAX] {
            assert_eq!(columns_16(depth, 400), 3);
        }
        for layout in [0, 1, 401, 440, u32::MAX] {
            assert_eq!(columns_16(10, layout), 4);
        }
    }
}
