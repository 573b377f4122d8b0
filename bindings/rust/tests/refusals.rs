//! Each number of document 01, given where it says so, with nothing stored. `params.rs` has those of document 02.

use deblock::*;

#[test]
fn numbers_and_words() {
    for (number, refusal) in (1..=12).chain(23..=24).zip(Refusal::ALL) {
        assert_eq!(refusal.number(), number);
        assert_eq!(Refusal::try_from(number), Ok(refusal));
    }
    for number in [0, 13, 22, 25] {
        assert_eq!(Refusal::try_from(number), Err(number));
    }
    let words: std::collections::HashSet<_> = Refusal::ALL.map(|r| r.to_string()).into();
    assert_eq!(words.len(), 14);
}

#[test]
fn layouts_and_depths() {
    for layout in [Layout::I400, Layout::I420, Layout::I422, Layout::I444] {
        assert_eq!(Layout::try_from(layout.number()), Ok(layout));
    }
    assert_eq!(Layout::try_from(440), Err(Refusal::Shape));
    for depth in [Depth::Eight, Depth::Ten, Depth::Twelve] {
        assert_eq!(Depth::try_from(depth.bits()), Ok(depth));
    }
    assert_eq!(Depth::try_from(9), Err(Refusal::Depth));
}

#[test]
fn sharpness() {
    for sharpness in [8, 255, u32::MAX] {
        let before = Limits {
            e: [7; 64],
            i: [8; 64],
            sharp: [9; 2],
        };
        let mut table = before.clone();
        assert_eq!(limits(&mut table, sharpness), Err(Refusal::Sharpness));
        assert_eq!(table, before);
    }
}

#[test]
fn header_levels() {
    let refuses = |layout: Layout, header: Header| {
        let mut values = [99; 512];
        assert_eq!(levels(&mut values, layout, &header), Err(Refusal::Level));
        assert_eq!(values, [99; 512]);
    };
    let plain = Header::default();
    let header = |change: fn(&mut Header)| {
        let mut header = plain;
        change(&mut header);
        header
    };
    refuses(Layout::I420, header(|h| h.base[0] = 64));
    refuses(Layout::I420, header(|h| h.ref_delta[7] = 64));
    refuses(Layout::I420, header(|h| h.mode_delta[1] = -65));
    refuses(Layout::I420, header(|h| h.lf_delta[3] = -64));
    refuses(Layout::I420, header(|h| h.seg_delta[31] = -64));
    refuses(Layout::I400, header(|h| h.base[3] = 1));
}

/// A call that filters a frame of 16 by 16 samples at 4:2:0; it has one edge in each plane and pass.
#[derive(Clone)]
struct Filter {
    frame: Frame,
    levels: Vec<u8>,
    level_stride: usize,
    masks: Vec<u16>,
    level_u: u32,
    level_v: u32,
    row: u32,
    planes: [Vec<u16>; 3],
    luma_stride: usize,
    chroma_stride: usize,
}

const CHROMA: usize = 384;

fn filter() -> Filter {
    let mut masks = vec![0; 640];
    for pass in [0, 32] {
        masks[(pass + 2) * 6] = 1;
        masks[CHROMA + (pass + 1) * 4] = 1;
    }
    let stairs = |side: usize, step: usize| {
        let sample =
            |k: usize| 100 + 10 * u16::from(k % side >= step) + 10 * u16::from(k / side >= step);
        (0..side * side).map(sample).collect()
    };
    Filter {
        frame: Frame {
            width: 16,
            height: 16,
            layout: Layout::I420,
            superblock: 64,
        },
        levels: vec![32; 64],
        level_stride: 4,
        masks,
        level_u: 32,
        level_v: 32,
        row: 0,
        planes: [stairs(128, 8), stairs(64, 4), stairs(64, 4)],
        luma_stride: 128,
        chroma_stride: 64,
    }
}

fn with(change: impl FnOnce(&mut Filter)) -> Filter {
    let mut filter = filter();
    change(&mut filter);
    filter
}

impl Filter {
    fn planes<'a, T>(&self, [luma, u, v]: &'a mut [Vec<T>; 3]) -> Planes<'a, T> {
        Planes {
            luma,
            luma_stride: self.luma_stride,
            u,
            v,
            chroma_stride: self.chroma_stride,
        }
    }

    /// The answers of columns and rows on planes of `u8`, then of `u16`. What is refused stores nothing; what is
    /// accepted changes each plane.
    fn answers(&self) -> [Result<(), Refusal>; 4] {
        let pass = Pass {
            frame: self.frame,
            levels: &self.levels,
            level_stride: self.level_stride,
            masks: &self.masks,
            limits: &Limits::new(0).unwrap(),
            level_u: self.level_u,
            level_v: self.level_v,
        };
        let bytes = self
            .planes
            .clone()
            .map(|p| p.iter().map(|&s| s as u8).collect::<Vec<_>>());
        let on_bytes = [columns_8, rows_8].map(|call| {
            let mut held = bytes.clone();
            let answer = call(&mut self.planes(&mut held), &pass, self.row);
            let kept = [0, 1, 2].map(|p| held[p] == bytes[p]);
            assert_eq!(kept, [answer.is_err(); 3]);
            answer
        });
        let on_words = [columns_16, rows_16].map(|call| {
            let mut held = self.planes.clone();
            let answer = call(&mut self.planes(&mut held), Depth::Ten, &pass, self.row);
            let kept = [0, 1, 2].map(|p| held[p] == self.planes[p]);
            assert_eq!(kept, [answer.is_err(); 3]);
            answer
        });
        [on_bytes[0], on_bytes[1], on_words[0], on_words[1]]
    }

    fn refused(&self, refusal: Refusal) {
        assert_eq!(self.answers(), [Err(refusal); 4]);
    }

    /// In one pass, the other being accepted.
    fn refused_in(&self, pass: usize, refusal: Refusal) {
        let mut expected = [Ok(()); 4];
        expected[pass] = Err(refusal);
        expected[pass + 2] = Err(refusal);
        assert_eq!(self.answers(), expected);
    }
}

#[test]
fn filtering_without_a_fault() {
    assert_eq!(filter().answers(), [Ok(()); 4]);
}

#[test]
fn filtering_levels() {
    with(|f| f.level_u = 64).refused(Refusal::Level);
    with(|f| f.level_v = u32::MAX).refused(Refusal::Level);
    with(|f| f.frame.layout = Layout::I400).refused(Refusal::Level);
}

#[test]
fn filtering_shape() {
    with(|f| f.frame.width = 0).refused(Refusal::Shape);
    with(|f| f.frame.height = 16_385).refused(Refusal::Shape);
    with(|f| f.frame.superblock = 32).refused(Refusal::Shape);
}

#[test]
fn filtering_lengths() {
    with(|f| f.levels.truncate(63)).refused(Refusal::Length);
    with(|f| f.masks.truncate(639)).refused(Refusal::Length);
    with(|f| f.level_stride = 3).refused(Refusal::Length);
    with(|f| f.level_stride = usize::MAX).refused(Refusal::Length);
}

#[test]
fn filtering_level_bytes() {
    with(|f| f.levels[0] = 64).refused_in(0, Refusal::LevelByte);
    with(|f| f.levels[1] = 64).refused_in(1, Refusal::LevelByte);
    with(|f| f.levels[2] = 64).refused(Refusal::LevelByte);
    with(|f| f.levels[3] = 255).refused(Refusal::LevelByte);
}

#[test]
fn filtering_planes() {
    for p in 0..3 {
        with(|f| f.planes[p].truncate(4095)).refused(Refusal::Plane);
        with(|f| f.planes[p].clear()).refused(Refusal::Plane);
    }
    with(|f| f.luma_stride = 127).refused(Refusal::Plane);
    with(|f| f.chroma_stride = 63).refused(Refusal::Plane);
    // A byte has no value above its maximum: the sample is 0 there.
    for p in 0..3 {
        let answers = with(|f| f.planes[p][40] = 1024).answers();
        let refused = Err(Refusal::Plane);
        assert_eq!(answers, [Ok(()), Ok(()), refused, refused]);
    }
}

#[test]
fn filtering_outside() {
    with(|f| f.row = 1).refused(Refusal::Outside);
    with(|f| f.row = u32::MAX).refused(Refusal::Outside);
}

#[test]
fn filtering_gaps() {
    for pass in 0..2 {
        // Class 1 at unit 1, beside the plane's start.
        with(|f| f.masks[(pass * 32 + 1) * 6 + 2] = 1).refused_in(pass, Refusal::Gap);
        with(|f| f.masks[CHROMA + (pass * 32 + 1) * 4 + 2] = 1).refused_in(pass, Refusal::Gap);
    }
}

#[test]
fn filtering_mask_bits() {
    for pass in 0..2 {
        with(|f| f.masks[(pass * 32 + 4) * 6] = 1).refused_in(pass, Refusal::MaskBit);
        with(|f| f.masks[(pass * 32 + 2) * 6] = 1 << 4).refused_in(pass, Refusal::MaskBit);
        with(|f| f.masks[CHROMA + (pass * 32 + 1) * 4] = 1 << 2).refused_in(pass, Refusal::MaskBit);
    }
}

#[test]
fn the_lowest_of_several() {
    let mut f = filter();
    f.masks[6 * 4] = 1;
    f.masks[6 * 36] = 1;
    f.refused(Refusal::MaskBit);
    f.masks[6 + 2] = 1;
    f.masks[6 * 33 + 2] = 1;
    f.refused(Refusal::Gap);
    f.row = 9;
    f.refused(Refusal::Outside);
    f.luma_stride = 127;
    f.refused(Refusal::Plane);
    f.row = 0;
    f.levels[2] = 64;
    f.refused(Refusal::LevelByte);
    f.level_stride = 3;
    f.refused(Refusal::Length);
    f.frame.superblock = 65;
    f.refused(Refusal::Shape);
    f.level_u = 64;
    f.refused(Refusal::Level);
}

/// A call that records an 8x8 block at unit 2, 0 of a frame of 16 by 8 samples at 4:2:0.
#[derive(Clone, Debug, PartialEq)]
struct Recording {
    frame: Frame,
    block: Block,
    inter: Inter,
    level_stride: usize,
    levels: Vec<u8>,
    masks: Vec<u16>,
    above: Vec<u8>,
    left: Vec<u8>,
    above_uv: Vec<u8>,
    left_uv: Vec<u8>,
}

fn recording(change: fn(&mut Recording)) -> Recording {
    let mut recording = Recording {
        frame: Frame {
            width: 16,
            height: 8,
            layout: Layout::I420,
            superblock: 64,
        },
        block: Block {
            x: 2,
            y: 0,
            size: BlockSize::Block8x8,
            tx: TxSize::Tx8x8,
            chroma: Some(TxSize::Tx4x4),
        },
        inter: Inter {
            tx_masks: [0, 0],
            skip: false,
            reference: 1,
            mode: true,
        },
        level_stride: 4,
        levels: vec![99; 32],
        masks: vec![0; 640],
        above: vec![0; 2],
        left: vec![2; 2],
        above_uv: vec![1; 1],
        left_uv: vec![0; 1],
    };
    change(&mut recording);
    recording
}

impl Recording {
    /// The answer of an intra or inter call. What is refused stores nothing; what is accepted stores something.
    fn answer(&self, inter: bool) -> Result<(), Refusal> {
        let mut after = self.clone();
        let mut records = Records {
            levels: &mut after.levels,
            level_stride: self.level_stride,
            masks: &mut after.masks,
        };
        let mut contexts = Contexts {
            above: &mut after.above,
            left: &mut after.left,
            above_uv: &mut after.above_uv,
            left_uv: &mut after.left_uv,
        };
        let (values, frame, block) = (&[32; 64], &self.frame, &self.block);
        let answer = match inter {
            false => record_intra(&mut records, values, frame, block, &mut contexts),
            true => record_inter(
                &mut records,
                values,
                frame,
                block,
                &self.inter,
                &mut contexts,
            ),
        };
        assert_eq!(after == *self, answer.is_err());
        answer
    }

    fn refused(&self, refusal: Refusal) {
        assert_eq!(self.answer(false), Err(refusal));
        assert_eq!(self.answer(true), Err(refusal));
    }
}

#[test]
fn recording_without_a_fault() {
    let plain = recording(|_| {});
    assert_eq!((plain.answer(false), plain.answer(true)), (Ok(()), Ok(())));
}

#[test]
fn recording_shape() {
    recording(|r| r.frame.width = 16_385).refused(Refusal::Shape);
    recording(|r| r.frame.height = 0).refused(Refusal::Shape);
    recording(|r| r.frame.layout = Layout::I400).refused(Refusal::Shape);
}

#[test]
fn recording_block() {
    recording(|r| r.block.chroma = Some(TxSize::Tx8x8)).refused(Refusal::Block);
    recording(|r| r.block.tx = TxSize::Tx16x16).refused(Refusal::Block);
    recording(|r| r.block.x = 1).refused(Refusal::Block);
    recording(|r| r.block.x = 6).refused(Refusal::Block);
    recording(|r| r.block.y = 4).refused(Refusal::Block);
    let reference = recording(|r| r.inter.reference = 8);
    assert_eq!(reference.answer(true), Err(Refusal::Block));
    assert_eq!(reference.answer(false), Ok(()));
    let transform = recording(|r| r.block.tx = TxSize::Tx4x8);
    assert_eq!(transform.answer(true), Err(Refusal::Block));
    assert_eq!(transform.answer(false), Ok(()));
}

#[test]
fn recording_contexts() {
    recording(|r| r.above.truncate(1)).refused(Refusal::Context);
    recording(|r| r.left.clear()).refused(Refusal::Context);
    recording(|r| r.above_uv.clear()).refused(Refusal::Context);
    recording(|r| r.left_uv.clear()).refused(Refusal::Context);
    recording(|r| r.above[1] = 3).refused(Refusal::Context);
    recording(|r| r.left[0] = 255).refused(Refusal::Context);
    recording(|r| r.above_uv[0] = 2).refused(Refusal::Context);
    recording(|r| r.left_uv[0] = 2).refused(Refusal::Context);
}

#[test]
fn recording_lengths() {
    recording(|r| r.levels.truncate(31)).refused(Refusal::Length);
    recording(|r| r.masks.truncate(639)).refused(Refusal::Length);
    recording(|r| r.level_stride = 3).refused(Refusal::Length);
}

/// Both corrections of a frame, given a number of mask words, a superblock row, a tile start and both contexts.
#[derive(Clone, Copy)]
struct Correcting<'a> {
    frame: Frame,
    words: usize,
    row: u32,
    start: u32,
    luma: &'a [u8],
    chroma: &'a [u8],
}

/// At superblock 1 of a frame of 128 by 128 samples at 4:2:0.
const CORRECTING: Correcting = Correcting {
    frame: Frame {
        width: 128,
        height: 128,
        layout: Layout::I420,
        superblock: 64,
    },
    words: 640,
    row: 1,
    start: 1,
    luma: &[2; 32],
    chroma: &[1; 16],
};

/// The answers for columns and for rows. What is refused stores nothing; what is accepted stores something.
fn corrects(change: fn(&mut Correcting)) -> [Result<(), Refusal>; 2] {
    let mut c = CORRECTING;
    change(&mut c);
    [0, 1].map(|pass| {
        let mut masks = vec![0; c.words];
        let answer = match pass {
            0 => correct_column(&mut masks, &c.frame, c.row, c.start, c.luma, c.chroma),
            _ => correct_row(&mut masks, &c.frame, c.row, c.luma, c.chroma),
        };
        assert_eq!(masks.iter().all(|&word| word == 0), answer.is_err());
        answer
    })
}

#[test]
fn corrections() {
    let both = |refusal| [Err(refusal); 2];
    assert_eq!(corrects(|_| {}), [Ok(()); 2]);
    assert_eq!(corrects(|c| c.frame.superblock = 0), both(Refusal::Shape));
    assert_eq!(corrects(|c| c.luma = &[3; 32]), both(Refusal::Context));
    assert_eq!(corrects(|c| c.chroma = &[2; 16]), both(Refusal::Context));
    assert_eq!(corrects(|c| c.luma = &[2; 15]), both(Refusal::Context));
    assert_eq!(corrects(|c| c.chroma = &[1; 7]), both(Refusal::Context));
    assert_eq!(corrects(|c| c.words = 639), both(Refusal::Length));
    assert_eq!(corrects(|c| c.row = 2), both(Refusal::Outside));
    let start = [Err(Refusal::Outside), Ok(())];
    assert_eq!(corrects(|c| c.start = 2), start);
}
