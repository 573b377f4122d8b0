//! The worked cases of document 01, C1 to C12, through the calls.

use deblock::*;

fn table(sharpness: u32) -> Limits {
    Limits::new(sharpness).unwrap()
}

#[test]
fn c1_to_c5() {
    let cases = [
        (0, 0, 1, 5),
        (0, 63, 63, 193),
        (4, 63, 5, 135),
        (5, 63, 4, 134),
        (7, 3, 1, 11),
    ];
    for (sharpness, level, i, e) in cases {
        let table = table(sharpness);
        assert_eq!((table.i[level], table.e[level]), (i, e));
    }
    assert_eq!(table(0).sharp, [0, 255]);
    assert_eq!(table(5).sharp, [2, 4]);
}

/// The stored plane: `line` lies with its middle at sample 16, and its ends go on. The first four lines have `first`
/// in its place. Turned, the lines are columns.
fn plane(first: &[u16], line: &[u16], turned: bool) -> Vec<u16> {
    let start = 16 - line.len() / 2;
    let sample = |along: usize, across: usize| {
        let within = start <= along && along < start + line.len();
        let line = if across < 4 && within { first } else { line };
        line[along.saturating_sub(start).min(line.len() - 1)]
    };
    let at = |k: usize| match turned {
        false => sample(k % 128, k / 128),
        true => sample(k / 128, k % 128),
    };
    (0..128 * 128).map(at).collect()
}

fn planes<T>(luma: &mut [T]) -> Planes<'_, T> {
    Planes {
        luma,
        luma_stride: 128,
        u: &mut [],
        v: &mut [],
        chroma_stride: 0,
    }
}

/// One edge of a class at unit 4, at level 32 and sharpness 0, is filtered in both passes.
fn filters(depth: Depth, class: usize, before: &[u16], after: &[u16]) {
    for turned in [false, true] {
        let (width, height) = if turned { (4, 32) } else { (32, 4) };
        let mut masks = [0; 640];
        masks[((usize::from(turned) * 32 + 4) * 3 + class) * 2] = 1;
        let frame = Frame {
            width,
            height,
            layout: Layout::I400,
            superblock: 64,
        };
        let pass = Pass {
            frame,
            levels: &[32; 32],
            level_stride: frame.w4() as usize,
            masks: &masks,
            limits: &table(0),
            level_u: 0,
            level_v: 0,
        };
        let expected = plane(after, before, turned);

        let mut luma = plane(before, before, turned);
        let call = if turned { rows_16 } else { columns_16 };
        assert_eq!(call(&mut planes(&mut luma), depth, &pass, 0), Ok(()));
        assert!(luma == expected, "{before:?}");

        if depth == Depth::Eight {
            let bytes = |plane: Vec<u16>| plane.iter().map(|&s| s as u8).collect::<Vec<_>>();
            let mut luma = bytes(plane(before, before, turned));
            let call = if turned { rows_8 } else { columns_8 };
            assert_eq!(call(&mut planes(&mut luma), &pass, 0), Ok(()));
            assert!(luma == bytes(expected), "{before:?}");
        }
    }
}

#[test]
fn c6_to_c9() {
    let filters = |before: [u16; 4], after: [u16; 4]| filters(Depth::Eight, 0, &before, &after);
    filters([100, 100, 110, 110], [102, 104, 106, 108]);
    filters([90, 100, 110, 110], [90, 101, 109, 110]);
    filters([100, 100, 141, 141], [100, 100, 141, 141]);
    filters([100, 100, 140, 140], [108, 115, 125, 132]);
}

#[test]
fn c10() {
    let before = [100, 100, 100, 100, 104, 104, 104, 104];
    let after = [100, 101, 101, 102, 103, 103, 104, 104];
    filters(Depth::Ten, 1, &before, &after);
}

#[test]
fn c11() {
    let before = [0, 0, 0, 0, 0, 0, 0, 16, 16, 16, 16, 16, 16, 16];
    let after = [0, 1, 2, 3, 4, 5, 7, 9, 11, 12, 13, 14, 15, 16];
    filters(Depth::Twelve, 2, &before, &after);
}

/// The words of unit 16's three classes in one pass, once its first unit along had `before` and the context.
fn corrected(turned: bool, before: [u16; 3], context: u8) -> [u16; 3] {
    let (width, height) = if turned { (4, 128) } else { (128, 4) };
    let frame = Frame {
        width,
        height,
        layout: Layout::I400,
        superblock: 64,
    };
    let at = |class| ((usize::from(turned) * 32 + 16) * 3 + class) * 2;
    let mut masks = [0; 640];
    (0..3).for_each(|class| masks[at(class)] = before[class]);
    let answer = match turned {
        false => correct_column(&mut masks, &frame, 0, 1, &[context], &[]),
        true => correct_row(&mut masks, &frame, 1, &[context], &[]),
    };
    assert_eq!(answer, Ok(()));
    let after = [0, 1, 2].map(|class| masks[at(class)]);
    (0..3).for_each(|class| masks[at(class)] = 0);
    assert_eq!(masks, [0; 640]);
    after
}

#[test]
fn c12() {
    for turned in [false, true] {
        assert_eq!(corrected(turned, [0, 1, 1], 2), [0, 0, 1]);
        assert_eq!(corrected(turned, [0, 1, 1], 0), [1, 0, 0]);
    }
}
