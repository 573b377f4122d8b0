//! rav1d at work on a plane that holds the line.

use super::case::Case;
use crate::include::common::bitdepth::{AsPrimitive, BitDepth};
use crate::include::dav1d::picture::Rav1dPictureDataComponent;
use crate::rng::Rng;
use crate::src::internal::Rav1dFrameData;
use crate::src::lf_mask::rav1d_calc_eih;
use crate::src::with_offset::WithOffset;
use std::array::from_fn;

/// The line's samples afterwards. Its place in the plane, the stride, the pass, the bit of the mask and
/// the unit that has the level all vary with `rng`; every other sample of the plane must stay.
pub fn filter<BD: BitDepth>(case: &Case, rng: &mut Rng) -> [u16; 14] {
    let is_column = rng.once_in(2);
    let mut up_to = |n| rng.range(0, n) as usize;

    // A plane of noise. Across the edge run the lines, along it are 32 units of four lines.
    let (edge, start) = (7 + up_to(5), up_to(3));
    let (across, along) = (edge + 7 + up_to(3), start + 4 * 32);
    let (width, height) = if is_column {
        (across, along)
    } else {
        (along, across)
    };
    let stride = width + up_to(5);
    let at = |across: usize, along: usize| match is_column {
        true => along * stride + across,
        false => across * stride + along,
    };
    let noise = up_to(i32::MAX);
    let maximum = case.maximum();
    let mut samples: Vec<u16> = (0..stride * height)
        .map(|n| ((n ^ noise).wrapping_mul(0x9e37_79b9) >> 16) as u16 & maximum)
        .collect();

    // The line is one of four; the others, 0 before the edge and the maximum after it, fail the limit
    // test.
    let (bit, line) = (up_to(31), up_to(3));
    for n in 0..4 {
        for k in 0..14 {
            let kept = if k < 7 { 0 } else { maximum };
            let sample = if n == line { case.samples[k] } else { kept };
            samples[at(edge - 7 + k, start + 4 * bit + n)] = sample;
        }
    }
    let pixels: Vec<BD::Pixel> = samples.iter().map(|s| (*s).as_()).collect();
    let plane = Rav1dPictureDataComponent::new::<BD>(&pixels, stride);

    // The level is the unit's own, or that of the unit before it.
    let mut f = Rav1dFrameData::new(case.depth);
    rav1d_calc_eih(&mut f.lf.lim_lut.0, case.sharpness);
    let b4_stride = if is_column { 2 } else { 32 };
    f.b4_stride = b4_stride as isize;
    let (next, before) = if is_column {
        (b4_stride, 1)
    } else {
        (1, b4_stride)
    };
    let first = 4 * before + up_to(3);
    let unit = first + 4 * next * bit;
    f.lf.level.resize(4 * 64, noise as u8);
    let levels = f.lf.level.get_mut();
    levels[unit] = case.level * up_to(1) as u8;
    if levels[unit] == 0 {
        levels[unit - 4 * before] = case.level;
    }

    // Of several classes the highest counts.
    let class = match case.width {
        4 => 0,
        16 => 2,
        _ => 1,
    };
    let mask = from_fn(|c| match c {
        c if c < class => (up_to(1) as u32) << bit,
        c if c == class => 1 << bit,
        _ => 0,
    });

    let is_luma = case.width > 6 || case.width == 4 && up_to(1) == 0;
    let sb = &f.dsp.lf.loop_filter_sb;
    let sb = if is_luma { &sb.y } else { &sb.uv };
    let sb = if is_column { &sb.h } else { &sb.v };
    let dst = WithOffset {
        data: &plane,
        offset: at(edge, start),
    };
    let lvl = WithOffset {
        data: &f.lf.level,
        offset: first,
    };
    sb.call::<BD>(&f, dst, &mask, lvl, 32);

    let filtered: Vec<u16> = plane.samples::<BD>().into_iter().map(Into::into).collect();
    let places: [usize; 14] = from_fn(|k| at(edge - 7 + k, start + 4 * bit + line));
    for place in places {
        samples[place] = filtered[place];
    }
    assert_eq!(samples, filtered, "rav1d changed a sample beside the line");
    places.map(|place| filtered[place])
}
