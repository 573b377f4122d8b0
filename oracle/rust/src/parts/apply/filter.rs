//! rav1d's corrections and passes on a case's memory.

use super::case::{Call, Case, Kind, Memory, Pass, LAYOUTS};
use crate::include::common::bitdepth::{AsPrimitive, BitDepth, BitDepth16, BitDepth8};
use crate::include::dav1d::headers::{DRav1d, Rav1dFrameHeader, Rav1dPixelLayout};
use crate::include::dav1d::picture::Rav1dPictureDataComponent;
use crate::parts::record::recorder;
use crate::src::internal::{
    BlockContext, Rav1dBitDepthDSPContext, Rav1dFrameData, Rav1dSequenceHeader,
};
use crate::src::lf_apply::{rav1d_loopfilter_sbrow_cols, rav1d_loopfilter_sbrow_rows};
use crate::src::with_offset::WithOffset;
use std::array::from_fn;
use std::sync::Arc;

/// Where no tile starts.
const NOWHERE: u16 = u16::MAX;

/// A frame with what every call asks for; no tile starts in it.
fn frame<BD: BitDepth>(call: &Call, depth: u8, header: Rav1dFrameHeader) -> Rav1dFrameData {
    let mut f = Rav1dFrameData::new(depth);
    f.dsp = Rav1dBitDepthDSPContext::get(BD::BPC);
    f.seq_hdr = Some(Arc::new(DRav1d {
        rav1d: Rav1dSequenceHeader {
            sb128: (call.superblock == 128).into(),
        },
        dav1d: (),
    }));
    f.frame_hdr = Some(Arc::new(DRav1d {
        rav1d: header,
        dav1d: (),
    }));
    let layout = LAYOUTS.iter().position(|layout| *layout == call.layout);
    f.cur.p.layout = Rav1dPixelLayout::from_repr(layout.unwrap()).unwrap();
    [f.w4, f.h4] = call.frame_units().map(|n| n as i32);
    [f.bw, f.bh] = call.frame.map(|side| 2 * side.div_ceil(8) as i32);
    f.sb128w = call.records()[0] as i32;
    f
}

/// Where a superblock row's records begin.
fn record_row(call: &Call) -> usize {
    (call.row * (call.superblock / 64) / 2 * call.records()[0]) as usize
}

/// The samples of a superblock row.
fn row_of<'a>(
    planes: &'a [Rav1dPictureDataComponent; 3],
    call: &Call,
    strides: [usize; 3],
) -> [WithOffset<&'a Rav1dPictureDataComponent>; 3] {
    from_fn(|n| WithOffset {
        data: &planes[n],
        offset: (call.row * call.grid(n == 0).sb[1] * 4) as usize * strides[n],
    })
}

/// What a call lends, as rav1d holds it.
pub struct Stage {
    f: Rav1dFrameData,
    planes: [Rav1dPictureDataComponent; 3],
    strides: [usize; 3],
    /// Whether a row of tiles starts at the call's row.
    starts: i32,
}

impl Stage {
    /// Corrections are made by rav1d's own hand before columns.
    pub fn new<BD: BitDepth>(
        case: &Case,
        call: &Call,
        corrections: &[Call],
        memory: &Memory,
    ) -> Self {
        let mut header = Rav1dFrameHeader::default();
        [header.loopfilter.level_u, header.loopfilter.level_v] = call.chroma.map(|n| n as u8);
        let starts = correct(call, corrections, &mut header);
        let depth = if case.is_wide { call.depth } else { 8 };
        let mut f = frame::<BD>(call, depth as u8, header);
        f.b4_stride = call.stride as isize;
        lend_contexts(&mut f, call, corrections);
        f.lf.mask = recorder::records(&memory.masks[..call.lent.masks as usize]);
        let levels = &memory.levels[..call.lent.levels as usize];
        f.lf.level.get_mut().extend_from_slice(levels);
        (f.lf.lim_lut.0.e, f.lf.lim_lut.0.i) = (case.e, case.i);
        // Of planes that are not filtered nothing is looked at.
        let (lent, strides): ([_; 3], _) = match call.filters_chroma() {
            true => (
                call.lent.planes,
                [0, 1, 1].map(|n| call.strides[n] as usize),
            ),
            false => (
                [call.lent.planes[0], 0, 0],
                [call.strides[0] as usize, 0, 0],
            ),
        };
        let planes = from_fn(|n| {
            let lent = memory.planes[n][..lent[n] as usize].iter();
            let lent: Vec<BD::Pixel> = lent.map(|s| (*s).as_()).collect();
            Rav1dPictureDataComponent::new::<BD>(&lent, strides[n])
        });
        Self {
            f,
            planes,
            strides,
            starts,
        }
    }

    /// One pass of the call's row.
    pub fn pass<BD: BitDepth>(&self, call: &Call, pass: Pass) {
        let row = row_of(&self.planes, call, self.strides);
        let (first, sby) = (record_row(call), call.row as i32);
        match pass {
            Pass::Columns => {
                rav1d_loopfilter_sbrow_cols::<BD>(&self.f, row, first, sby, self.starts)
            }
            Pass::Rows => rav1d_loopfilter_sbrow_rows::<BD>(&self.f, row, first, sby),
        }
    }

    pub fn store<BD: BitDepth>(&self, memory: &mut Memory) {
        recorder::store(&self.f.lf.mask, &mut memory.masks);
        for (to, plane) in memory.planes.iter_mut().zip(&self.planes) {
            for (to, from) in to.iter_mut().zip(plane.samples::<BD>()) {
                *to = from.into();
            }
        }
    }
}

/// One pass on what the call lends.
fn filter<BD: BitDepth>(
    case: &Case,
    call: &Call,
    pass: Pass,
    corrections: &[Call],
    memory: &mut Memory,
) {
    let stage = Stage::new::<BD>(case, call, corrections, memory);
    stage.pass::<BD>(call, pass);
    stage.store::<BD>(memory);
}

/// Tells the header of tile starts in a row; the answer is whether a row of tiles starts there.
fn correct(call: &Call, corrections: &[Call], header: &mut Rav1dFrameHeader) -> i32 {
    let mut starts = 0;
    let mut columns = vec![];
    for correction in corrections {
        assert_eq!(correction.row, call.row);
        match correction.kind {
            Kind::CorrectColumn if correction.start > 0 => columns.push(correction.start as u16),
            Kind::CorrectRow if correction.row > 0 => starts = 1,
            _ => {}
        }
    }
    columns.push(NOWHERE);
    header.tiling.col_start_sb[1..][..columns.len()].copy_from_slice(&columns);
    starts
}

/// The contexts of corrections as rav1d holds them.
fn lend_contexts(f: &mut Rav1dFrameData, call: &Call, corrections: &[Call]) {
    let down = call.records()[1] as usize;
    let columns = corrections
        .iter()
        .filter(|c| c.kind == Kind::CorrectColumn && c.start > 0);
    f.lf.tx_lpf_right_edge
        .resize(down * columns.clone().count(), 0);
    let halign = (f.bh as usize).next_multiple_of(32);
    for (n, correction) in columns.enumerate() {
        let [luma, chroma] = correction.corrected();
        let at = |is_luma| {
            let grid = call.grid(is_luma);
            n * (halign >> grid.ss[1]) + (call.row * grid.sb[1]) as usize
        };
        let edge = &f.lf.tx_lpf_right_edge;
        edge.copy_from_slice_y(at(true)..at(true) + luma, &correction.contexts[0][..luma]);
        edge.copy_from_slice_uv(
            at(false)..at(false) + chroma,
            &correction.contexts[1][..chroma],
        );
    }
    for correction in corrections {
        if correction.kind == Kind::CorrectRow && correction.row > 0 {
            let [luma, chroma] = correction.corrected();
            let ss_hor = call.ss()[0];
            f.a = (0..f.sb128w as usize)
                .map(|record| {
                    let mut context = BlockContext::default();
                    let fill = |to: &mut [u8], from: &[u8], side: usize| {
                        for (to, from) in to
                            .iter_mut()
                            .zip(from.iter().skip(record * side).take(side))
                        {
                            *to = *from;
                        }
                    };
                    fill(
                        &mut context.tx_lpf_y.get_mut().0,
                        &correction.contexts[0][..luma],
                        32,
                    );
                    let side = 32 >> ss_hor;
                    fill(
                        &mut context.tx_lpf_uv.get_mut().0,
                        &correction.contexts[1][..chroma],
                        side,
                    );
                    context
                })
                .collect();
        }
    }
}

/// One correction: rav1d's columns with levels of 0, by which no sample changes.
fn correct_alone(call: &Call, memory: &mut Memory) {
    let mut header = Rav1dFrameHeader::default();
    let corrections = std::slice::from_ref(call);
    let starts = correct(call, corrections, &mut header);
    let mut f = frame::<BitDepth8>(call, 8, header);
    lend_contexts(&mut f, call, corrections);
    let [w4, h4] = call.frame_units().map(|n| n as usize);
    f.b4_stride = w4 as isize;
    f.lf.level.get_mut().resize(4 * w4 * h4, 0);
    f.lf.mask = recorder::records(&memory.masks[..call.lent.masks as usize]);
    let [width, height] = call.stored(true).map(|n| n as usize);
    let luma = Rav1dPictureDataComponent::new::<BitDepth8>(&vec![0; width * height], width);
    let none = || Rav1dPictureDataComponent::new::<BitDepth8>(&[], 0);
    let planes = [luma, none(), none()];
    let row = row_of(&planes, call, [width, 0, 0]);
    rav1d_loopfilter_sbrow_cols::<BitDepth8>(&f, row, record_row(call), call.row as i32, starts);
    recorder::store(&f.lf.mask, &mut memory.masks);
}

impl Case {
    /// rav1d's work for a call that 01 accepts.
    pub fn work(&self, call: &Call, memory: &mut Memory) {
        match call.kind {
            Kind::Filter(pass) => self.filter(call, pass, &[], memory),
            _ => correct_alone(call, memory),
        }
    }

    /// rav1d's work for a correction that 01 accepts.
    pub fn correct(call: &Call, memory: &mut Memory) {
        correct_alone(call, memory);
    }

    /// rav1d's corrections and columns in one call.
    pub fn work_at_once(&self, call: &Call, corrections: &[Call], memory: &mut Memory) {
        self.filter(call, Pass::Columns, corrections, memory);
    }

    fn filter(&self, call: &Call, pass: Pass, corrections: &[Call], memory: &mut Memory) {
        match self.is_wide {
            true => filter::<BitDepth16>(self, call, pass, corrections, memory),
            false => filter::<BitDepth8>(self, call, pass, corrections, memory),
        }
    }
}
