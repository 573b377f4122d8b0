//! The lengths that a frame says are the least that the calls accept.

use deblock::*;

const LAYOUTS: [Layout; 4] = [Layout::I400, Layout::I420, Layout::I422, Layout::I444];

/// All frames of these sides and superblocks, in all layouts.
fn frames(sides: &[u32], superblocks: &[u32]) -> Vec<Frame> {
    let mut frames = Vec::new();
    for &width in sides {
        for &height in sides {
            for layout in LAYOUTS {
                frames.extend(superblocks.iter().map(|&superblock| Frame {
                    width,
                    height,
                    layout,
                    superblock,
                }));
            }
        }
    }
    frames
}

fn right_frames() -> Vec<Frame> {
    let sides = [1, 4, 5, 8, 9, 60, 64, 65, 127, 128, 129, 200, 257];
    frames(&sides, &[64, 128])
}

/// What a pass is lent, by its lengths.
#[derive(Clone, Copy)]
struct Lent {
    levels: usize,
    level_stride: usize,
    masks: usize,
    luma: usize,
    luma_stride: usize,
    chroma: usize,
    chroma_stride: usize,
}

impl Lent {
    /// As the frame says.
    fn to(frame: &Frame) -> Lent {
        let level_stride = frame.w4() as usize;
        let (luma, chroma) = (frame.stored_luma(), frame.stored_chroma());
        Lent {
            levels: frame.levels_len(level_stride),
            level_stride,
            masks: frame.masks_len(),
            luma: luma.0 * luma.1,
            luma_stride: luma.0,
            chroma: chroma.0 * chroma.1,
            chroma_stride: chroma.0,
        }
    }

    /// The answer of a pass over a superblock row.
    fn answer(&self, frame: &Frame, row: u32) -> Result<(), Refusal> {
        let level_u = u32::from(frame.layout != Layout::I400);
        let pass = Pass {
            frame: *frame,
            levels: &vec![0; self.levels],
            level_stride: self.level_stride,
            masks: &vec![0; self.masks],
            limits: &Limits::default(),
            level_u,
            level_v: 0,
        };
        let mut planes = Planes {
            luma: &mut vec![0; self.luma],
            luma_stride: self.luma_stride,
            u: &mut vec![0; self.chroma],
            v: &mut vec![0; self.chroma],
            chroma_stride: self.chroma_stride,
        };
        columns_8(&mut planes, &pass, row)
    }
}

#[test]
fn masks_and_levels() {
    for frame in right_frames() {
        let (lent, rows) = (Lent::to(&frame), frame.superblock_rows());
        let refused = |lent: Lent| {
            let refusal = Err(Refusal::Length);
            assert_eq!(lent.answer(&frame, 0), refusal, "{frame:?}");
        };
        assert_eq!(lent.answer(&frame, rows - 1), Ok(()), "{frame:?}");
        assert_eq!(lent.answer(&frame, rows), Err(Refusal::Outside));
        refused(Lent {
            masks: lent.masks - 1,
            ..lent
        });
        refused(Lent {
            levels: lent.levels - 1,
            ..lent
        });
        refused(Lent {
            level_stride: lent.level_stride - 1,
            ..lent
        });
        let level_stride = lent.level_stride + 3;
        let levels = frame.levels_len(level_stride);
        let wider = Lent {
            levels,
            level_stride,
            ..lent
        };
        assert_eq!(wider.answer(&frame, 0), Ok(()));
        refused(Lent {
            levels: levels - 1,
            ..wider
        });
    }
}

#[test]
fn stored_planes() {
    for frame in right_frames() {
        let lent = Lent::to(&frame);
        let refused = |lent: Lent| {
            let refusal = Err(Refusal::Plane);
            assert_eq!(lent.answer(&frame, 0), refusal, "{frame:?}");
        };
        refused(Lent {
            luma: lent.luma - 1,
            ..lent
        });
        refused(Lent {
            luma_stride: lent.luma_stride - 1,
            ..lent
        });
        if frame.layout == Layout::I400 {
            assert_eq!(frame.stored_chroma(), (0, 0));
            continue;
        }
        refused(Lent {
            chroma: lent.chroma - 1,
            ..lent
        });
        refused(Lent {
            chroma_stride: lent.chroma_stride - 1,
            ..lent
        });
    }
}

/// The answers of the two corrections at a frame's last superblock row and last superblock, with contexts of these
/// lengths: left, left_uv, above, above_uv.
fn corrected(frame: &Frame, lens: [usize; 4]) -> [Result<(), Refusal>; 2] {
    let [left, left_uv, above, above_uv] = lens.map(|len| vec![1; len]);
    let masks = &mut vec![0; frame.masks_len()];
    let (row, start) = (frame.superblock_rows() - 1, frame.superblock_columns() - 1);
    [
        correct_column(masks, frame, row, start, &left, &left_uv),
        correct_row(masks, frame, row, &above, &above_uv),
    ]
}

/// A byte less in one of the four contexts is refused, unless it is the frame's own side, where nothing is corrected.
#[test]
fn contexts_of_the_frame() {
    for frame in right_frames() {
        let (rows, columns) = (frame.superblock_rows(), frame.superblock_columns());
        let masks = &mut vec![0; frame.masks_len()];
        let outside = correct_column(masks, &frame, 0, columns, &[0; 99], &[0; 99]);
        assert_eq!(outside, Err(Refusal::Outside));

        let mut bytes = vec![1; frame.contexts_len()];
        let mut whole = Contexts::within(&mut bytes, &frame);
        let lent = whole.at(&frame, 0, (rows - 1) * frame.superblock / 4);
        let lens = [lent.left, lent.left_uv, lent.above, lent.above_uv].map(|c| c.len());
        assert_eq!(corrected(&frame, lens), [Ok(()); 2]);
        for short in (0..4).filter(|&k| lens[k] > 0 && [columns, rows][k / 2] > 1) {
            let mut less = lens;
            less[short] -= 1;
            let mut expected = [Ok(()); 2];
            expected[short / 2] = Err(Refusal::Context);
            assert_eq!(corrected(&frame, less), expected, "{short} of {frame:?}");
        }
    }
}

/// No frame makes a method panic. A wrong one has some superblock, whose call refuses it.
#[test]
fn wrong_frames() {
    let sides = [0, 1, 3, 63, 16_385, u32::MAX - 1, u32::MAX];
    for frame in frames(&sides, &[0, 1, 32, 64, 128, u32::MAX]) {
        let Frame { width, height, .. } = frame;
        assert_eq!(u64::from(frame.w4()), u64::from(width).div_ceil(4));
        assert_eq!(u64::from(frame.h4()), u64::from(height).div_ceil(4));
        assert!(frame.chroma_w4() <= frame.w4() && frame.chroma_h4() <= frame.h4());
        assert_eq!(frame.superblock_columns() == 0, width == 0);
        assert_eq!(frame.superblock_rows() == 0, height == 0);
        assert_eq!(frame.masks_len() == 0, width == 0 || height == 0);
        let most = if height == 0 { 0 } else { usize::MAX };
        assert_eq!(frame.levels_len(usize::MAX), most);
        assert!(frame.stored_luma() >= frame.stored_chroma());
        assert!(frame.contexts_len() >= frame.above_len() + frame.left_len());
    }
}
