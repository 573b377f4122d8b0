//! What every caller needs beside the calls: contexts from a place on, padding, deltas, segments, sizes, the version.

use deblock::*;

const FRAME: Frame = Frame {
    width: 40,
    height: 24,
    layout: Layout::I420,
    superblock: 64,
};

fn lens(contexts: &Contexts) -> [usize; 4] {
    [
        contexts.above.len(),
        contexts.left.len(),
        contexts.above_uv.len(),
        contexts.left_uv.len(),
    ]
}

/// Contexts are 10 and 6 bytes of luma, 5 and 3 of chroma at 4:2:0.
#[test]
fn contexts_from_a_place_on() {
    let mut bytes: Vec<u8> = (0..24).collect();
    assert_eq!(FRAME.contexts_len(), 24);
    let mut whole = Contexts::within(&mut bytes, &FRAME);
    assert_eq!(lens(&whole), [10, 6, 5, 3]);
    let at = whole.at(&FRAME, 4, 2);
    assert_eq!(at.above, [4, 5, 6, 7, 8, 9]);
    assert_eq!(at.left, [12, 13, 14, 15]);
    assert_eq!(at.above_uv, [18, 19, 20]);
    assert_eq!(at.left_uv, [22, 23]);
    // An odd unit has the chroma unit of the even one before it.
    assert_eq!(lens(&whole.at(&FRAME, 5, 3)), [5, 3, 3, 2]);
    assert_eq!(lens(&whole.at(&FRAME, 10, 6)), [0; 4]);
    assert_eq!(lens(&whole.at(&FRAME, u32::MAX, u32::MAX)), [0; 4]);

    for (layout, expected) in [
        (Layout::I400, [6, 4, 0, 0]),
        (Layout::I422, [6, 4, 3, 4]),
        (Layout::I444, [6, 4, 6, 4]),
    ] {
        let frame = Frame { layout, ..FRAME };
        let mut bytes = vec![0; frame.contexts_len()];
        let mut whole = Contexts::within(&mut bytes, &frame);
        assert_eq!(lens(&whole.at(&frame, 4, 2)), expected);
    }
    let mut few = [0; 13];
    assert_eq!(lens(&Contexts::within(&mut few, &FRAME)), [10, 3, 0, 0]);
}

#[test]
fn contexts_at_a_tiles_start() {
    let mut bytes = [9; 24];
    let mut whole = Contexts::within(&mut bytes, &FRAME);
    whole.at(&FRAME, 4, 0).start_above();
    whole.at(&FRAME, 0, 2).start_left();
    assert_eq!(whole.above, [9, 9, 9, 9, 2, 2, 2, 2, 2, 2]);
    assert_eq!(whole.left, [9, 9, 2, 2, 2, 2]);
    assert_eq!(whole.above_uv, [9, 9, 1, 1, 1]);
    assert_eq!(whole.left_uv, [9, 1, 1]);
}

/// Samples inside the frame and beyond the stored width stay, and those between are 0.
fn cleared<Sample: Copy + Default + PartialEq>(frame: &Frame, full: Sample) {
    let (luma, chroma) = (frame.stored_luma(), frame.stored_chroma());
    let strides = [luma.0 + 5, chroma.0 + 7];
    let mut held = [luma, chroma, chroma].map(|(width, height)| vec![full; (width + 9) * height]);
    let [luma_plane, u, v] = &mut held;
    let mut planes = Planes {
        luma: luma_plane,
        luma_stride: strides[0],
        u,
        v,
        chroma_stride: strides[1],
    };
    planes.clear_padding(frame);
    let (hor, ver) = match frame.layout {
        Layout::I420 => (1, 1),
        Layout::I444 => (0, 0),
        _ => (1, 0),
    };
    for (plane, samples) in held.iter().enumerate() {
        let (stored, hor, ver) = if plane == 0 {
            (luma, 0, 0)
        } else {
            (chroma, hor, ver)
        };
        let (width, height) = (frame.width as usize + hor, frame.height as usize + ver);
        for (k, sample) in samples.iter().enumerate() {
            let (x, y) = (k % strides[plane.min(1)], k / strides[plane.min(1)]);
            let inside = x < width >> hor && y < height >> ver;
            let padding = x < stored.0 && y < stored.1 && !inside;
            let expected = if padding { Sample::default() } else { full };
            assert!(*sample == expected, "{plane}: {x}, {y} of {frame:?}");
        }
    }
}

#[test]
fn padding_is_cleared() {
    for (width, height) in [(1, 1), (40, 24), (127, 129), (128, 128), (201, 135)] {
        for layout in [Layout::I400, Layout::I420, Layout::I422, Layout::I444] {
            let frame = Frame {
                width,
                height,
                layout,
                superblock: 64,
            };
            cleared(&frame, u8::MAX);
            cleared(&frame, u16::MAX);
        }
    }
}

/// Planes and strides that are too short, or wrong frames, are no cause for a panic.
#[test]
fn padding_of_wrong_planes() {
    let large = Frame {
        width: u32::MAX,
        height: u32::MAX,
        ..FRAME
    };
    let empty = Frame {
        width: 0,
        height: 0,
        ..FRAME
    };
    for frame in [FRAME, large, empty] {
        for len in [0, 1, 127, 128, 5000] {
            for stride in [0, 1, 39, 40, 127, 128, usize::MAX] {
                let mut planes = Planes {
                    luma: &mut vec![7u8; len],
                    luma_stride: stride,
                    u: &mut vec![7; len],
                    v: &mut [],
                    chroma_stride: stride,
                };
                planes.clear_padding(&frame);
            }
        }
    }
}

/// A frame of 12 bits was in the planes before: the calls at 10 bits see its padding until it is cleared.
#[test]
fn padding_of_another_depth() {
    let (stride, lines) = FRAME.stored_luma();
    let mut luma = vec![4095; stride * lines];
    for line in luma.chunks_mut(stride).take(24) {
        line[..40].fill(500);
    }
    let mut planes = Planes {
        luma: &mut luma,
        luma_stride: stride,
        u: &mut [],
        v: &mut [],
        chroma_stride: 0,
    };
    let pass = Pass {
        frame: FRAME,
        levels: &[0; 4 * 10 * 6],
        level_stride: 10,
        masks: &[0; 640],
        limits: &Limits::new(0).unwrap(),
        level_u: 0,
        level_v: 0,
    };
    for call in [columns_16, rows_16] {
        let answer = call(&mut planes, Depth::Ten, &pass, 0);
        assert_eq!(answer, Err(Refusal::Plane));
    }
    planes.clear_padding(&FRAME);
    for call in [columns_16, rows_16] {
        assert_eq!(call(&mut planes, Depth::Ten, &pass, 0), Ok(()));
    }
}

/// The answer of `levels` where one value of a header is this.
fn answer(change: impl FnOnce(&mut Header)) -> Result<(), Refusal> {
    let mut header = Header::default();
    change(&mut header);
    levels(&mut [0; 512], Layout::I420, &header)
}

/// A delta is refused exactly if it is out of range, however large it is.
#[test]
fn deltas_are_narrowed() {
    let far = [i32::MIN, -65_536 - 1, -257, 255, 256, 65_536, i32::MAX];
    for value in (-300..=300).chain(far) {
        let within = |range: std::ops::RangeInclusive<i32>| match range.contains(&value) {
            true => Ok(()),
            false => Err(Refusal::Level),
        };
        assert_eq!(answer(|h| h.ref_delta[3] = delta(value)), within(-64..=63));
        assert_eq!(answer(|h| h.mode_delta[1] = delta(value)), within(-64..=63));
        assert_eq!(answer(|h| h.lf_delta[2] = delta(value)), within(-63..=63));
        let segment = segment_delta(value);
        assert_eq!(i32::from(segment), value.clamp(-63, 63));
        assert_eq!(answer(|h| h.seg_delta[31] = segment), Ok(()));
    }
}

#[test]
fn segments() {
    let values: [u8; 512] = std::array::from_fn(|k| (k / 64 * 16 + k % 16) as u8);
    for n in 0..8 {
        assert_eq!(
            segment(&values, n).unwrap()[..],
            values[64 * n..64 * n + 64]
        );
    }
    for n in [8, 9, usize::MAX / 64 + 1, usize::MAX] {
        assert_eq!(segment(&values, n), None);
    }
}

#[test]
fn a_new_limit_table() {
    for sharpness in 0..8 {
        let mut table = Limits::default();
        limits(&mut table, sharpness).unwrap();
        assert_eq!(Limits::new(sharpness), Ok(table));
    }
    assert_eq!(Limits::new(8), Err(Refusal::Sharpness));
}

/// `tests/signatures.rs` holds names, codes and sides to the sources.
#[test]
fn sizes() {
    for (code, size) in (0..).zip(BlockSize::ALL) {
        assert_eq!((size.code(), BlockSize::try_from(code)), (code, Ok(size)));
    }
    for (code, size) in (0..).zip(TxSize::ALL) {
        assert_eq!((size.code(), TxSize::try_from(code)), (code, Ok(size)));
    }
    for code in [22, 23, 256, u32::MAX] {
        assert_eq!(BlockSize::try_from(code), Err(Refusal::Block));
        assert_eq!(BlockSize::from_dav1d(code), Err(Refusal::Block));
        assert_eq!(TxSize::try_from(code), Err(Refusal::Block));
    }
    assert_eq!(TxSize::try_from(19), Err(Refusal::Block));
}

#[test]
fn crate_and_archive_are_of_one_version() {
    let numbers = VERSION.split('.').map(|part| part.parse::<u32>().unwrap());
    assert_eq!(numbers.fold(0, |sum, n| 100 * sum + n), version());
}
