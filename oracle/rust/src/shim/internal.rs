//! A frame with the fields that the loop filter reads.

use crate::include::common::bitdepth::{BitDepth16, BitDepth8, BPC};
use crate::include::dav1d::headers::{DRav1d, Rav1dFrameHeader};
use crate::include::dav1d::picture::Rav1dPicture;
use crate::src::align::{Align16, Align8};
use crate::src::cpu::CpuFlags;
use crate::src::disjoint_mut::DisjointMut;
use crate::src::lf_mask::{Av1Filter, Av1FilterLUT};
use crate::src::loopfilter::Rav1dLoopFilterDSPContext;
use libc::ptrdiff_t;
use std::ffi::c_int;
use std::ops::{Deref, Range};
use std::sync::Arc;

// `TxLpfRightEdge` and `Bxy` are rav1d's.
include!(concat!(env!("OUT_DIR"), "/internal.rs"));

pub struct Rav1dBitDepthDSPContext {
    pub lf: Rav1dLoopFilterDSPContext,
}

impl Rav1dBitDepthDSPContext {
    pub fn get(bpc: BPC) -> &'static Self {
        static BPC8: Rav1dBitDepthDSPContext = Rav1dBitDepthDSPContext {
            lf: Rav1dLoopFilterDSPContext::new::<BitDepth8>(CpuFlags),
        };
        static BPC16: Rav1dBitDepthDSPContext = Rav1dBitDepthDSPContext {
            lf: Rav1dLoopFilterDSPContext::new::<BitDepth16>(CpuFlags),
        };
        match bpc {
            BPC::BPC8 => &BPC8,
            BPC::BPC16 => &BPC16,
        }
    }
}

pub struct Rav1dSequenceHeader {
    pub sb128: u8,
}

/// The contexts above 32 units.
#[derive(Default)]
pub struct BlockContext {
    pub tx_lpf_y: DisjointMut<Align8<[u8; 32]>>,
    pub tx_lpf_uv: DisjointMut<Align8<[u8; 32]>>,
}

#[derive(Default)]
pub struct Rav1dFrameContextLf {
    pub level: DisjointMut<Vec<u8>>,
    pub mask: Vec<Av1Filter>,
    pub lim_lut: Align16<Av1FilterLUT>,
    pub tx_lpf_right_edge: TxLpfRightEdge,
}

pub struct Rav1dFrameData {
    pub seq_hdr: Option<Arc<DRav1d<Rav1dSequenceHeader, ()>>>,
    pub frame_hdr: Option<Arc<DRav1d<Rav1dFrameHeader, ()>>>,
    pub cur: Rav1dPicture,
    pub dsp: &'static Rav1dBitDepthDSPContext,
    pub b4_stride: ptrdiff_t,
    pub w4: c_int,
    pub h4: c_int,
    pub bw: c_int,
    pub bh: c_int,
    pub sb128w: c_int,
    pub a: Vec<BlockContext>,
    pub bitdepth_max: c_int,
    pub lf: Rav1dFrameContextLf,
}

impl Rav1dFrameData {
    /// A frame of this depth, everything else empty.
    pub fn new(depth: u8) -> Self {
        let bitdepth_max = (1 << depth) - 1;
        Self {
            seq_hdr: None,
            frame_hdr: None,
            cur: Default::default(),
            dsp: Rav1dBitDepthDSPContext::get(BPC::from_bitdepth_max(bitdepth_max)),
            b4_stride: 0,
            w4: 0,
            h4: 0,
            bw: 0,
            bh: 0,
            sb128w: 0,
            a: vec![],
            bitdepth_max,
            lf: Default::default(),
        }
    }
}
