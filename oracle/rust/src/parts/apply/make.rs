//! Frames: geometry, samples, levels, and masks that keep the gap rule, recorded or made up.

use super::case::{Call, Grid, Kind, Lent, Memory, Pass, LAYOUTS, LUMA, PASSES, RECORD};
use crate::include::dav1d::headers::Rav1dFrameHeader;
use crate::parts::record::case::Block;
use crate::parts::record::tiling::{self, Kinds};
use crate::rng::Rng;
use crate::src::align::Align16;
use crate::src::lf_mask::{rav1d_calc_eih, rav1d_calc_lf_values, Av1FilterLUT};
use std::array::from_fn;
use std::collections::HashMap;

/// What a program has room for.
pub struct Room {
    /// Samples of luma, and of chroma by whether they are u16.
    pub luma: u32,
    pub chroma: [u32; 2],
    pub levels: u32,
}

/// A frame, and what its corrections ask for.
pub struct Frame {
    pub is_wide: bool,
    pub e: [u8; 64],
    pub i: [u8; 64],
    pub memory: Memory,
    /// Columns of the first row; all other calls come from it.
    pub call: Call,
    /// Tile starts across and down in superblocks, 0 among them.
    pub starts: [Vec<u32>; 2],
    pub left: HashMap<(u32, u32), [Vec<u8>; 2]>,
    pub above: HashMap<u32, [Vec<u8>; 2]>,
}

pub fn up_to(n: u32, rng: &mut Rng) -> u32 {
    rng.range(0, n as i32) as u32
}

/// The highest sample of a depth.
pub fn highest(depth: u32) -> u16 {
    (1 << depth) - 1
}

/// Some sides in samples, and sizes of buffers that fit.
fn geometry(room: &Room, is_wide: bool, rng: &mut Rng) -> Call {
    loop {
        let few = rng.pick(&[[1, 1], [1, 1], [2, 1], [1, 2]]);
        let many = rng.pick(&[[2, 2], [2, 2], [3, 1], [1, 3], [4, 1], [1, 4]]);
        let records = rng.pick(&[few, few, many, many, many]);
        let less = records.map(|_| up_to(31, rng) * up_to(3, rng).min(1));
        let units: [u32; 2] = from_fn(|axis| 32 * records[axis] - less[axis]);
        let frame = units.map(|n| 4 * n - up_to(3, rng) * up_to(1, rng));
        let call = sized(frame, rng.pick(&LAYOUTS), is_wide, rng);
        let [w, h] = call.stored(true);
        let [cw, ch] = call.stored(false);
        let has_chroma = call.layout != 400;
        let fits = w * h <= room.luma && (!has_chroma || cw * ch <= room.chroma[is_wide as usize]);
        if fits {
            return roomy(call, room, is_wide, rng);
        }
    }
}

/// The least buffers of a frame.
pub fn sized(frame: [u32; 2], layout: u32, is_wide: bool, rng: &mut Rng) -> Call {
    let any = [up_to(63, rng), up_to(63, rng)];
    let one = [0, up_to(62, rng) + 1];
    let chroma = match layout {
        400 => [0, 0],
        _ => rng.pick(&[any, any, any, [63, 63], one, [one[1], 0], [0, 0]]),
    };
    let mut call = Call {
        kind: Kind::Filter(Pass::Columns),
        frame,
        layout,
        superblock: rng.pick(&[64, 128]),
        row: 0,
        start: 0,
        depth: if is_wide {
            rng.pick(&[8, 10, 10, 12, 12])
        } else {
            8
        },
        chroma,
        stride: 0,
        strides: [0; 2],
        lent: Lent {
            levels: 0,
            masks: 0,
            planes: [0; 3],
        },
        contexts: [vec![], vec![]],
    };
    call.stride = call.frame_units()[0].into();
    call.strides = [true, false].map(|is_luma| u64::from(call.stored(is_luma)[0]));
    lend(&mut call);
    call
}

/// Lends as little as the strides ask for.
fn lend(call: &mut Call) {
    call.lent.levels = 4 * call.stride as u32 * call.frame_units()[1];
    call.lent.masks = RECORD as u32 * call.records()[0] * call.records()[1];
    call.lent.planes = from_fn(|n| match n > 0 && call.layout == 400 {
        true => 0,
        false => call.strides[n.min(1)] as u32 * call.stored(n == 0)[1],
    });
}

/// Wider strides and more memory in half of all frames.
fn roomy(mut call: Call, room: &Room, is_wide: bool, rng: &mut Rng) -> Call {
    let chroma = room.chroma[usize::from(is_wide)];
    if rng.once_in(2) {
        let most = room.levels / (4 * call.frame_units()[1]);
        call.stride += u64::from(up_to(3.min(most - call.stride as u32), rng));
        for (n, room) in [room.luma, chroma].into_iter().enumerate() {
            let most = room / call.stored(n == 0)[1];
            call.strides[n] += u64::from(up_to(
                5.min(most.saturating_sub(call.strides[n] as u32)),
                rng,
            ));
        }
        lend(&mut call);
        call.lent.levels += up_to(9.min(room.levels - call.lent.levels), rng);
        call.lent.masks += rng
            .pick(&[0, 1, 9])
            .min(4 * RECORD as u32 - call.lent.masks);
        call.lent.planes = from_fn(|n| {
            let room = if n == 0 { room.luma } else { chroma };
            call.lent.planes[n] + up_to(9.min(room - call.lent.planes[n]), rng)
        });
        if !call.filters_chroma() {
            // Nothing is asked of planes that are not filtered.
            call.strides[1] = rng.pick(&[0, 1, 63, 1 << 58, u64::MAX]);
            call.lent.planes[1..].fill(up_to(9, rng));
        }
    }
    call
}

/// Tables of a sharpness, or any.
fn limits(rng: &mut Rng) -> ([u8; 64], [u8; 64]) {
    let mut lut = Av1FilterLUT::default();
    rav1d_calc_eih(&mut lut, up_to(rng.pick(&[0, 0, 7]), rng) as u8);
    if rng.once_in(8) {
        rng.fill(&mut lut.e);
        rng.fill(&mut lut.i);
    }
    (lut.e, lut.i)
}

/// Patches of several textures, since most lines of noise fail the limit test and show nothing.
fn paint(samples: &mut [u16], stride: usize, depth: u32, rng: &mut Rng) {
    let (one, top) = (1i32 << (depth - 8), i32::from(highest(depth)));
    let side = rng.pick(&[8, 16, 32, 64]);
    let spread = one * rng.pick(&[1, 2, 4, 8, 16, 40]);
    let any = rng.range(0, top);
    let middle = rng.pick(&[top / 2, any, any, 0, top]);
    let lines = samples.len().div_ceil(stride);
    let patches = stride.div_ceil(side);
    for band in 0..lines.div_ceil(side) {
        for patch in 0..patches {
            let base = middle + rng.range(-spread, spread);
            let texture = rng.range(0, 12);
            let amplitude = one * rng.pick(&[1, 2, 3, 4, 8, 16, 32]);
            let slope = [rng.range(-3, 3), rng.range(-3, 3)];
            for y in band * side..lines.min((band + 1) * side) {
                for x in patch * side..stride.min((patch + 1) * side) {
                    let Some(sample) = samples.get_mut(y * stride + x) else {
                        continue;
                    };
                    let value = match texture {
                        0..4 => base + rng.range(0, one),
                        4 => base,
                        5 | 6 => {
                            let [across, down] = [x, y].map(|n| (n % side) as i32);
                            base + one * (slope[0] * across + slope[1] * down) / 4
                        }
                        7..11 => base + rng.range(-amplitude, amplitude),
                        11 => rng.pick(&[0, top]),
                        _ => rng.range(0, top),
                    };
                    *sample = value.clamp(0, top) as u16;
                }
            }
        }
    }
}

/// What no call looks at is any sample: past the stored width, and past the stored height.
fn hide(call: &Call, planes: &mut [Vec<u16>; 3], is_wide: bool, rng: &mut Rng) {
    let highest = if is_wide { u16::MAX } else { 255 };
    for (n, plane) in planes.iter_mut().enumerate() {
        let ([width, height], stride) = (call.stored(n == 0), call.strides[n.min(1)] as usize);
        let is_seen = |at: usize| {
            let is_filtered = n == 0 || call.filters_chroma();
            is_filtered && at % stride < width as usize && at / stride < height as usize
        };
        for (at, sample) in plane.iter_mut().enumerate() {
            if !is_seen(at) {
                *sample = rng.next() as u16 & highest;
            }
        }
    }
}

/// Level bytes, many of them 0; those that no call looks at may be any.
fn levels(call: &Call, to: &mut [u8], rng: &mut Rng) {
    let zeros = rng.pick(&[1, 2, 4, 1000]);
    let constant = up_to(62, rng) + 1;
    let is_constant = rng.once_in(4);
    for level in to.iter_mut() {
        *level = match rng.once_in(zeros) && zeros > 1 {
            true => 0,
            false if is_constant => constant as u8,
            false => up_to(63, rng) as u8,
        };
    }
    if rng.once_in(2) {
        hide_levels(call, to, rng);
    }
}

fn hide_levels(call: &Call, to: &mut [u8], rng: &mut Rng) {
    let stride = call.stride as usize;
    for (at, level) in to.iter_mut().enumerate() {
        let (unit, byte) = (at / 4, at % 4);
        let grid = call.grid(byte < 2);
        let is_in =
            unit % stride < grid.units[0] as usize && unit / stride < grid.units[1] as usize;
        if !is_in || byte > 1 && !call.filters_chroma() {
            *level = rng.next() as u8;
        }
    }
}

/// Edges on a line: each place may carry one, `marks` are marks besides. The classes are as high as the
/// rule allows, or lower.
fn line(end: u32, last: u32, marks: &[u32], most: usize, rng: &mut Rng) -> Vec<(u32, usize)> {
    let steps: &[u32] = match rng.range(0, 3) {
        0 => &[1, 1, 1, 2, 3, 4],
        1 => &[2, 2, 3, 4, 4],
        2 => &[4, 4, 5, 8, 16],
        _ => &[1, 2, 3, 4, 4, 5, 6, 8, 16, 32],
    };
    let mut places: Vec<u32> = marks.to_vec();
    let mut at = up_to(8, rng) * up_to(1, rng);
    while at < last {
        places.push(at);
        at += rng.pick(steps);
    }
    places.extend([0, end]);
    places.sort();
    places.dedup();
    let has_first = rng.once_in(2);
    let mut edges = vec![];
    for n in 0..places.len() {
        let place = places[n];
        if place >= last || place == 0 && !has_first {
            continue;
        }
        let before = n.checked_sub(1).map_or(4, |n| place - places[n]);
        let after = places[n + 1] - place;
        let highest = match before.min(after) {
            1 => 0,
            2 | 3 => 1,
            _ => 2,
        };
        let highest = highest.min(most);
        let any = rng.range(0, highest as i32) as usize;
        let class = rng.pick(&[highest, highest, any]);
        edges.push((place, class));
    }
    // Where a tile starts there need not be an edge.
    edges.retain(|(place, _)| !marks.contains(place) || !rng.once_in(8));
    edges
}

/// Sets an edge's bit, and now and then those of lower classes.
fn set(grid: &Grid, masks: &mut [u16], pass: Pass, unit: [u32; 2], class: usize, rng: &mut Rng) {
    let lower = if rng.once_in(4) { up_to(3, rng) } else { 0 };
    for c in (0..=class).filter(|c| *c == class || lower >> c & 1 == 1) {
        let (word, bit) = grid.bit(pass, c, unit);
        masks[word] |= 1 << bit;
    }
}

/// Masks that keep the gap rule of every call; in chroma that is not filtered, now and then anything.
fn masks(call: &Call, starts: &[Vec<u32>; 2], to: &mut [u16], rng: &mut Rng) {
    for is_luma in [true, false] {
        let grid = call.grid(is_luma);
        if !is_luma && !call.filters_chroma() {
            let is_any = rng.once_in(2);
            for word in to
                .chunks_exact_mut(RECORD)
                .flat_map(|record| &mut record[LUMA..])
            {
                *word = rng.next() as u16 * u16::from(is_any);
            }
            continue;
        }
        let most = grid.classes() - 1;
        let marks: Vec<u32> = starts[0].iter().skip(1).map(|n| n * grid.sb[0]).collect();
        for y in 0..grid.units[1] {
            let end = grid.records * grid.side(0);
            for (x, class) in line(end, grid.units[0], &marks, most, rng) {
                set(&grid, to, Pass::Columns, [x, y], class, rng);
            }
        }
        for x in 0..grid.units[0] {
            for row in 0..call.superblocks()[1] {
                let rows = grid.rows(row);
                for (k, class) in line(grid.sb[1], rows.end - rows.start, &[], most, rng) {
                    set(&grid, to, Pass::Rows, [x, rows.start + k], class, rng);
                }
            }
        }
        if !is_luma && rng.once_in(2) {
            unused(&grid, to, rng);
        }
    }
}

/// Sets bits of chroma that no call looks at.
fn unused(grid: &Grid, to: &mut [u16], rng: &mut Rng) {
    for record in 0..(to.len() / RECORD) as u32 {
        for pass in PASSES {
            for unit in grid.side(pass as usize)..32 {
                for class in 0..2 {
                    for half in 0..2 {
                        to[grid.word(record, pass, unit, class, half)] = rng.next() as u16;
                    }
                }
            }
        }
    }
}

/// 0, and some more below the count, at most 64.
fn starts(count: u32, rng: &mut Rng) -> Vec<u32> {
    let rare = rng.pick(&[1, 2, 2, 1000]) * if count > 8 { 4 } else { 1 };
    let starts = (0..count).filter(|n| *n == 0 || rng.once_in(rare));
    starts.take(64).collect()
}

fn buffers(call: &Call, rng: &mut Rng) -> Memory {
    let mut memory = Memory {
        levels: vec![0; call.lent.levels as usize],
        masks: vec![0; call.lent.masks as usize],
        planes: call.lent.planes.map(|n| vec![0; n as usize]),
    };
    for (n, plane) in memory.planes.iter_mut().enumerate() {
        if n == 0 || call.filters_chroma() {
            paint(plane, call.strides[n.min(1)] as usize, call.depth, rng);
        }
    }
    memory
}

pub fn whole(call: Call, is_wide: bool, rng: &mut Rng) -> Frame {
    let (e, i) = limits(rng);
    Frame {
        is_wide,
        e,
        i,
        memory: buffers(&call, rng),
        starts: call.superblocks().map(|count| starts(count, rng)),
        left: HashMap::new(),
        above: HashMap::new(),
        call,
    }
}

/// Masks, levels and contexts that are made up.
pub fn made_up(call: Call, is_wide: bool, rng: &mut Rng) -> Frame {
    let mut frame = whole(call, is_wide, rng);
    if rng.once_in(2) {
        frame.starts = [vec![0], vec![0]];
    }
    let call = &frame.call;
    levels(call, &mut frame.memory.levels, rng);
    masks(call, &frame.starts, &mut frame.memory.masks, rng);
    let records = (call.records()[0] * call.records()[1]) as usize;
    for word in &mut frame.memory.masks[records * RECORD..] {
        *word = rng.next() as u16;
    }
    let mut context = |n: usize| -> [Vec<u8>; 2] {
        [2, 1].map(|highest| (0..n).map(|_| rng.range(0, highest) as u8).collect())
    };
    for row in 0..call.superblocks()[1] {
        for start in &frame.starts[0] {
            frame.left.insert((*start, row), context(32));
        }
        frame
            .above
            .insert(row, context(call.frame_units()[0] as usize));
    }
    if rng.once_in(2) {
        hide(&frame.call, &mut frame.memory.planes, is_wide, rng);
    }
    frame
}

/// The level values of some segments, as rav1d has them for base levels and deltas.
pub fn segments(chroma: [u32; 2], rng: &mut Rng) -> Vec<[u8; 64]> {
    let mut header = Rav1dFrameHeader::default();
    let filter = &mut header.loopfilter;
    filter.level_y = from_fn(|_| up_to(62, rng) as u8 + 1);
    [filter.level_u, filter.level_v] = chroma.map(|n| n as u8);
    filter.mode_ref_delta_enabled = up_to(1, rng) as u8;
    filter.mode_ref_deltas.ref_delta = from_fn(|_| rng.range(-64, 63) as i8 / 4);
    filter.mode_ref_deltas.mode_delta = from_fn(|_| rng.range(-64, 63) as i8 / 4);
    header.segmentation.enabled = 1;
    for to in header.segmentation.seg_data.d.iter_mut() {
        let mut delta = || (rng.range(-63, 63) * rng.range(0, 2) / 2) as i8;
        [
            to.delta_lf_y_v,
            to.delta_lf_y_h,
            to.delta_lf_u,
            to.delta_lf_v,
        ] = from_fn(|_| delta());
    }
    let mut values = [(); 8].map(|_| Align16([[[0; 2]; 8]; 4]));
    rav1d_calc_lf_values(&mut values, &header, &[0; 4]);
    let flat = |segment: &Align16<[[[u8; 2]; 8]; 4]>| -> [u8; 64] {
        segment.0.as_flattened().as_flattened().try_into().unwrap()
    };
    values.iter().map(flat).collect()
}

/// Masks, levels and contexts that rav1d records of a legal tiling.
pub fn recorded(call: Call, is_wide: bool, rng: &mut Rng) -> Frame {
    let mut frame = whole(call, is_wide, rng);
    let segments = segments(frame.call.chroma, rng);
    let split = tiling::any_split(rng);
    record(&mut frame, &segments, (split, Kinds::Both), rng);
    frame
}

/// Records a tiling, and gives its blocks.
pub fn record(
    frame: &mut Frame,
    segments: &[[u8; 64]],
    style: (i32, Kinds),
    rng: &mut Rng,
) -> Vec<Block> {
    let call = &frame.call;
    let block = Block {
        is_inter: false,
        chroma: 0,
        skip: 0,
        mode: 0,
        frame: call.frame,
        layout: call.layout,
        place: [0; 2],
        size: 0,
        tx: 0,
        uvtx: 0,
        reference: 0,
        tx_masks: [0; 2],
        stride: call.stride as u32,
        values: [0; 64],
    };
    let [across, down] = frame.starts.each_ref().map(Vec::as_slice);
    let records = RECORD * (call.records()[0] * call.records()[1]) as usize;
    let (ends, blocks) = tiling::whole(
        rng,
        block,
        call.superblock / 4,
        [across, down],
        segments,
        style,
        &mut frame.memory.masks[..records],
        &mut frame.memory.levels,
    );
    (frame.left, frame.above) = (ends.right, ends.lower);
    blocks
}

/// A frame for a program of this room: made up, or one in three recorded.
pub fn frame(room: &Room, rng: &mut Rng) -> Frame {
    let is_wide = !rng.once_in(3);
    let call = geometry(room, is_wide, rng);
    match rng.once_in(3) {
        true => recorded(call, is_wide, rng),
        false => made_up(call, is_wide, rng),
    }
}

/// A frame of 1920 by 1080, layouts and sorts in turn; of ten, two have the greatest side.
pub fn large(number: u64, rng: &mut Rng) -> Frame {
    let layout = [420, 420, 422, 444, 400][(number % 5) as usize];
    let is_wide = number / 5 % 2 == 1;
    let short = up_to(127, rng) + 1;
    let sides = match number % 10 {
        6 => [16384 - up_to(3, rng), short],
        7 => [short, 16384 - up_to(3, rng)],
        _ => [1920, 1080],
    };
    let mut call = sized(sides, layout, is_wide, rng);
    if is_wide {
        call.depth = [10, 12, 8][((number % 5 + number / 10) % 3) as usize];
    }
    if layout != 400 {
        call.chroma = [up_to(62, rng) + 1, up_to(63, rng)];
    }
    match number % 3 {
        0 => made_up(call, is_wide, rng),
        _ => recorded(call, is_wide, rng),
    }
}
